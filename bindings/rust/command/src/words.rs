//! The words behind a command.
use std::ffi::OsString;

use crate::failure::Failure;

/// What the words ask for.
#[derive(Debug, PartialEq)]
pub enum Words {
    Help,
    Given(Vec<OsString>),
}

impl Words {
    /// At least and at most so many words, or a wish for help. A word that begins with `-` and has more is an option,
    /// unless it comes after `--`.
    pub fn read(words: impl Iterator<Item = OsString>, (least, most): (usize, usize)) -> Result<Words, Failure> {
        let (mut given, mut options) = (vec![], true);
        for word in words {
            let shown = word.to_string_lossy().into_owned();
            match &*shown {
                "--" if options => options = false,
                "-h" | "--help" if options => return Ok(Words::Help),
                _ if options && shown.len() > 1 && shown.starts_with('-') => {
                    return Err(Failure::Use(format!("there is no option {shown}")))
                }
                _ => given.push(word),
            }
        }
        if given.len() < least {
            return Err(Failure::Use("a word is missing".to_string()));
        }
        if given.len() > most {
            return Err(Failure::Use(format!("there is a word too many: {}", given[most].to_string_lossy())));
        }
        Ok(Words::Given(given))
    }
}

#[cfg(test)]
mod tests {
    use super::*;

    fn read(words: &[&str]) -> Result<Words, Failure> {
        Words::read(words.iter().map(OsString::from), (1, 2))
    }

    fn given(words: &[&str]) -> Result<Words, Failure> {
        Ok(Words::Given(words.iter().map(OsString::from).collect()))
    }

    #[test]
    fn words_and_options() {
        assert_eq!(read(&["a", "b"]), given(&["a", "b"]));
        assert_eq!(read(&["-"]), given(&["-"]));
        assert_eq!(read(&["a", "--help"]), Ok(Words::Help));
        assert_eq!(read(&["-h", "a", "b", "c"]), Ok(Words::Help));
        assert_eq!(read(&["--", "-h"]), given(&["-h"]));
        assert_eq!(read(&["--", "--", "-"]), given(&["--", "-"]));
        assert_eq!(read(&[""]), given(&[""]));
    }

    #[test]
    fn wrong_uses() {
        assert_eq!(read(&["-x"]), Err(Failure::Use("there is no option -x".to_string())));
        assert_eq!(read(&["a", "--rule"]), Err(Failure::Use("there is no option --rule".to_string())));
        assert_eq!(read(&[]), Err(Failure::Use("a word is missing".to_string())));
        assert_eq!(read(&["--"]), Err(Failure::Use("a word is missing".to_string())));
        assert_eq!(read(&["a", "b", "c"]), Err(Failure::Use("there is a word too many: c".to_string())));
    }
}
