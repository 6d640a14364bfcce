//! A flat grammar as the text that the parser's stand-in reads.

const RULE: u16 = 32768;

/// The text of so many rules and tokens and of these productions, each an owner and its symbols. Rule 0 and eof are not
/// in it: the crate adds them.
pub fn text<'a>(rules: u16, tokens: usize, prods: impl Iterator<Item = (u16, &'a [u16])>) -> String {
    let mut lines: Vec<String> = (0..tokens - 1).map(|t| format!("token t{t}")).collect();
    lines.extend((1..rules).map(|r| format!("rule r{r}")));
    for (owner, body) in prods {
        if owner == 0 {
            lines.push(format!("start r{}", body[0] - RULE));
            continue;
        }
        let names = body.iter().map(|&s| match s {
            RULE.. => format!(" rule:r{}", s - RULE),
            _ => format!(" token:t{s}"),
        });
        lines.push(format!("prod r{owner}{}", names.collect::<String>()));
    }
    lines.join("\n")
}
