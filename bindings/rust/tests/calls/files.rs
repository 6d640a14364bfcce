//! Block files: right, damaged, and written.
use std::fs;
use std::io::{self, ErrorKind, Write};
use std::path::{Path, PathBuf};

use boltmarrow::{Grammar, Refusal, Version};

use crate::grammars::{g1, g1_tables, of, Tables};

/// A payload of document 01's order.
fn payload((rules, owners, starts, symbols, costs): &Tables) -> Vec<u8> {
    let sizes = [*rules as usize, costs.len(), owners.len(), symbols.len()].map(|size| size as u16);
    let numbers = sizes.iter().chain(owners).chain(starts).chain(symbols);
    let mut bytes: Vec<u8> = numbers.flat_map(|number| number.to_le_bytes()).collect();
    bytes.extend(costs);
    bytes
}

/// Blocks of 508 payload bytes, with zeros to the end of the last.
fn blocks(payload: &[u8]) -> Vec<u8> {
    payload.chunks(508).zip(0u16..).flat_map(|(part, number)| block(part, number)).collect()
}

fn block(part: &[u8], number: u16) -> Vec<u8> {
    let mut bytes = number.to_le_bytes().to_vec();
    bytes.extend(part);
    bytes.resize(510, 0);
    let check = bytes.iter().map(|&byte| u32::from(byte)).sum::<u32>() as u16;
    bytes.extend(check.to_le_bytes());
    bytes
}

fn refused(file: &[u8]) -> Option<Refusal> {
    Grammar::from_blocks(file).err()
}

/// Why the file of G1 with one change in its tables is refused.
fn changed(change: impl FnOnce(&mut Tables)) -> Option<Refusal> {
    let mut tables = g1_tables();
    change(&mut tables);
    refused(&blocks(&payload(&tables)))
}

#[test]
fn g1_has_one_block_with_check_459() {
    let file = blocks(&payload(&g1_tables()));
    assert_eq!((file.len(), &file[510..]), (512, &459u16.to_le_bytes()[..]));
    assert_eq!(Grammar::from_blocks(&file), Ok(g1()));
}

#[test]
fn twenty_is_for_the_files_length() {
    for len in [0, 1, 511, 513, 99 * 512] {
        assert_eq!(refused(&vec![0; len]), Some(Refusal::FileLength), "{len} bytes");
    }
}

#[test]
fn twenty_one_is_for_the_check() {
    let mut file = blocks(&payload(&g1_tables()));
    file[2] += 1;
    assert_eq!(refused(&file), Some(Refusal::BlockCheck));
}

#[test]
fn twenty_two_is_for_the_blocks_number() {
    assert_eq!(refused(&block(&payload(&g1_tables()), 1)), Some(Refusal::BlockNumber));
}

#[test]
fn twenty_three_is_for_what_is_too_much_or_missing() {
    let mut longer = payload(&g1_tables());
    longer.push(1);
    assert_eq!(refused(&blocks(&longer)), Some(Refusal::BlocksDue));
    longer.pop();
    longer.resize(509, 0);
    assert_eq!(refused(&blocks(&longer)), Some(Refusal::BlocksDue));
    let mut large = g1_tables();
    large.3 = vec![0; 500];
    assert_eq!(refused(&blocks(&payload(&large)[..508])), Some(Refusal::BlocksDue));
}

#[test]
fn one_to_six_are_for_its_grammar() {
    assert_eq!(changed(|g1| g1.0 = 513), Some(Refusal::Sizes));
    assert_eq!(changed(|g1| g1.2[1] = 5), Some(Refusal::Starts));
    assert_eq!(changed(|g1| g1.1[0] = 4), Some(Refusal::Owner));
    assert_eq!(changed(|g1| g1.1[0] = 2), Some(Refusal::NoProduction));
    assert_eq!(changed(|g1| g1.3[1] = 3), Some(Refusal::Symbol));
    assert_eq!(changed(|g1| g1.3[0] = 32768), Some(Refusal::Start));
}

/// The payload in version 2: 32768 is added to the R field.
fn second(tables: &Tables) -> Vec<u8> {
    let mut bytes = payload(tables);
    bytes[1] += 128;
    bytes
}

/// G1 with these token costs.
fn costing(costs: [u8; 4]) -> Tables {
    let mut tables = g1_tables();
    tables.4 = costs.to_vec();
    tables
}

#[test]
fn version_2_has_32768_added_to_its_r_field() {
    let file = blocks(&second(&g1_tables()));
    assert_eq!((&file[2..4], &file[510..]), (&32772u16.to_le_bytes()[..], &587u16.to_le_bytes()[..]));
    assert_eq!(Grammar::read_blocks(&file), Ok((g1(), Version::Two)));
    assert_eq!(Grammar::from_blocks(&file), Ok(g1()));
    assert_eq!(Grammar::read_blocks(&blocks(&payload(&g1_tables()))), Ok((g1(), Version::One)));
    for rules in [0, 1, 513, 32767] {
        let mut tables = g1_tables();
        tables.0 = rules;
        assert_eq!(refused(&blocks(&second(&tables))), Some(Refusal::Sizes), "R {rules}");
    }
}

/// A free token, the order of 25, and what version 1 and eof may.
#[test]
fn twenty_five_is_for_a_free_token_in_version_2() {
    for costs in [[0, 1, 1, 1], [1, 0, 1, 1], [1, 1, 0, 1], [0; 4]] {
        let tables = costing(costs);
        assert_eq!(refused(&blocks(&second(&tables))), Some(Refusal::FreeToken), "{costs:?}");
        assert_eq!(refused(&blocks(&payload(&tables))), None, "{costs:?}");
    }
    assert_eq!(refused(&blocks(&second(&costing([1, 1, 1, 0])))), None);
    let free = costing([0, 1, 1, 1]);
    let mut spare = second(&free);
    spare.push(1);
    assert_eq!(refused(&blocks(&spare)), Some(Refusal::BlocksDue));
    let changes: [fn(&mut Tables); 5] =
        [|g1| g1.2[1] = 5, |g1| g1.1[0] = 4, |g1| g1.1[0] = 2, |g1| g1.3[1] = 3, |g1| g1.3[0] = 32768];
    for (change, number) in changes.into_iter().zip(2..) {
        let (mut wrong, mut priced) = (free.clone(), g1_tables());
        change(&mut wrong);
        change(&mut priced);
        assert_eq!(refused(&blocks(&second(&wrong))), Some(Refusal::FreeToken), "25 before {number}");
        assert_eq!(refused(&blocks(&second(&priced))).map(Refusal::number), Some(number));
        assert_eq!(refused(&blocks(&payload(&wrong))).map(Refusal::number), Some(number));
    }
}

#[test]
fn versions_have_the_documents_numbers() {
    assert_eq!([Version::One, Version::Two].map(Version::number), [1, 2]);
    assert_eq!([1, 2].map(Version::try_from), [Ok(Version::One), Ok(Version::Two)]);
    for number in [0, 3, 257, 65535] {
        assert_eq!(Version::try_from(number), Err(Refusal::Version), "{number}");
    }
}

#[test]
fn g1_is_written_as_its_block() {
    let [one, two] = [Version::One, Version::Two].map(|version| g1().to_blocks(version).unwrap());
    assert_eq!((&one, &two), (&blocks(&payload(&g1_tables())), &blocks(&second(&g1_tables()))));
    assert_eq!((one.len(), &one[510..]), (512, &459u16.to_le_bytes()[..]));
    assert_eq!((two.len(), &two[510..]), (512, &587u16.to_le_bytes()[..]));
}

#[test]
fn a_grammar_with_a_free_token_has_a_file_of_version_1_alone() {
    for (costs, taken) in [([0, 1, 1, 1], false), ([1, 1, 0, 1], false), ([1, 1, 1, 0], true)] {
        let (grm, one, two) = (of(costing(costs)).unwrap(), payload(&costing(costs)), second(&costing(costs)));
        assert_eq!(grm.to_blocks(Version::One), Ok(blocks(&one)), "{costs:?}");
        let file = if taken { Ok(blocks(&two)) } else { Err(Refusal::FreeToken) };
        assert_eq!(grm.to_blocks(Version::Two), file, "{costs:?}");
    }
}

/// G1 with so many tokens is 48 bytes of numbers and their costs: 460 fill a block.
#[test]
fn what_was_written_is_read_as_the_same_grammar() {
    for (tokens, len) in [(4, 512), (459, 512), (460, 512), (461, 1024), (512, 1024)] {
        let mut tables = g1_tables();
        tables.4 = (0..tokens).map(|t| t as u8 | 1).collect();
        let grm = of(tables.clone()).unwrap();
        for (version, payload) in [(Version::One, payload(&tables)), (Version::Two, second(&tables))] {
            let file = blocks(&payload);
            assert_eq!(file.len(), len);
            assert_eq!(grm.to_blocks(version).as_ref(), Ok(&file), "{tokens} tokens");
            assert_eq!(Grammar::read_blocks(&file), Ok((grm.clone(), version)), "{tokens} tokens");
        }
    }
}

/// The block files of a folder of examples/.
fn files(folder: &str) -> Vec<PathBuf> {
    let folder = Path::new(env!("CARGO_MANIFEST_DIR")).join("../../examples").join(folder);
    let paths = fs::read_dir(folder).expect("examples/ is there").map(|entry| entry.unwrap().path());
    paths.filter(|path| path.extension().map_or(false, |extension| extension == "blk")).collect()
}

/// Every stored file that is read, of any folder, is written in its version as it was.
#[test]
fn what_was_read_is_written_as_the_same_bytes() {
    let (mut read, mut refused) = ([0, 0], 0);
    for path in ["", "largest", "refused"].into_iter().flat_map(files) {
        let file = fs::read(&path).unwrap();
        match Grammar::read_blocks(&file) {
            Ok((grm, version)) => {
                assert!(grm.to_blocks(version).as_ref() == Ok(&file), "{}", path.display());
                read[usize::from(version.number()) - 1] += 1;
            }
            Err(_) => refused += 1,
        }
    }
    // 12 grammars and the largest in version 1, two of them and the one with two exports in version 2; the file that is
    // a byte longer is refused
    assert!(read[0] >= 13 && read[1] >= 3 && refused >= 1, "{read:?} read, {refused} refused");
}

#[test]
fn the_largest_file_is_98_blocks() {
    let path = files("largest").into_iter().find(|path| path.ends_with("98-blocks.blk")).unwrap();
    let grm = Grammar::from_blocks(&fs::read(path).unwrap()).unwrap();
    assert_eq!(grm.to_blocks(Version::One).unwrap().len(), 98 * 512);
    // some of its tokens are free; where each costs something version 2 takes it
    assert_eq!(grm.to_blocks(Version::Two), Err(Refusal::FreeToken));
    let mut tables = grm.into_tables();
    tables.4.iter_mut().for_each(|cost| *cost |= 1);
    assert_eq!(of(tables).unwrap().to_blocks(Version::Two).unwrap().len(), 98 * 512);
}

/// Takes so many bytes, and then fails.
struct Full(usize);

impl Write for Full {
    fn write(&mut self, bytes: &[u8]) -> io::Result<usize> {
        let taken = bytes.len().min(self.0);
        self.0 -= taken;
        if taken == 0 {
            return Err(io::Error::new(ErrorKind::Other, "the disk is full"));
        }
        Ok(taken)
    }

    fn flush(&mut self) -> io::Result<()> {
        Ok(())
    }
}

#[test]
fn a_file_is_written_to_what_takes_bytes() {
    for version in [Version::One, Version::Two] {
        let mut bytes = vec![7];
        g1().write_blocks(version, &mut bytes).unwrap();
        assert_eq!((bytes[0], &bytes[1..]), (7, &g1().to_blocks(version).unwrap()[..]));
    }
    assert!(g1().write_blocks(Version::Two, &mut Full(512)).is_ok());
    for room in [0, 1, 511] {
        let error = g1().write_blocks(Version::Two, &mut Full(room)).unwrap_err();
        assert_eq!((error.kind(), error.to_string()), (ErrorKind::Other, "the disk is full".to_string()));
    }
    let mut short = [0; 511];
    let error = g1().write_blocks(Version::One, &mut &mut short[..]).unwrap_err();
    assert_eq!(error.kind(), ErrorKind::WriteZero);
}

#[test]
fn a_refused_file_is_not_written() {
    let (free, mut bytes) = (of(costing([1, 0, 1, 1])).unwrap(), vec![7]);
    let error = free.write_blocks(Version::Two, &mut bytes).unwrap_err();
    assert_eq!((error.kind(), bytes), (ErrorKind::InvalidInput, vec![7]));
    assert_eq!(error.get_ref().and_then(|inside| inside.downcast_ref()), Some(&Refusal::FreeToken));
    assert_eq!(error.to_string(), Refusal::FreeToken.to_string());
    assert!(free.write_blocks(Version::One, &mut Full(512)).is_ok());
}
