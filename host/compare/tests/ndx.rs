//! NDX files that another program wrote, whole and with one byte set: another implementation's answers, by the library and by plain Rust.
use gatherloom::{Answer, Lookup, NdxIndex, Refusal};
use gatherloom_compare::reference::{self, Looked};
use std::{fs, path::PathBuf};

fn folder() -> PathBuf {
    PathBuf::from(env!("CARGO_MANIFEST_DIR")).join("../../crates/test_ndx")
}

fn bytes(hex: &str) -> Vec<u8> {
    (0..hex.len() / 2)
        .map(|i| u8::from_str_radix(&hex[2 * i..2 * i + 2], 16).unwrap())
        .collect()
}

/// The answer of an audit.
fn audited(answer: Answer<()>) -> u32 {
    answer.map_or_else(Refusal::code, |()| 0)
}

/// The answer of a lookup, its record and the pages visited, 0 for what an answer does not have.
fn looked(answer: Answer<Lookup>) -> [u32; 3] {
    match answer {
        Ok(Lookup::Found { record, pages }) => [0, record, pages],
        Ok(Lookup::Absent { pages }) => [257, 0, pages],
        Err(refusal) => [refusal.code(), 0, 0],
    }
}

fn looked_plainly(answer: Looked) -> [u32; 3] {
    match answer {
        Looked::Found(record, pages) => [0, record, pages],
        Looked::Absent(pages) => [257, 0, pages],
        Looked::Refused(number) => [number, 0, 0],
    }
}

/// Holds the calls of a line, `a ANSWER` and `l KEY ANSWER RECORD PAGES`, to the index, both ways; says how many there were.
fn hold(index: &[u8], mut words: &[&str], line: &str) -> usize {
    let number = |word: &str| word.parse::<u32>().unwrap();
    let mut held = 0;
    while let Some(&call) = words.first() {
        let taken = if call == "a" { 2 } else { 5 };
        if call == "a" {
            let due = number(words[1]);
            assert_eq!(audited(NdxIndex::over(index).audit()), due, "{line}");
            let plain = reference::ndx::audit(index).err().unwrap_or(0);
            assert_eq!(plain, due, "{line}, plain Rust");
        } else {
            let due = [2, 3, 4].map(|i| number(words[i]));
            let key = bytes(words[1]);
            let got = looked(NdxIndex::over(index).lookup(&key));
            assert_eq!(got, due, "{line}");
            let plain = looked_plainly(reference::ndx::lookup(index, &key));
            assert_eq!(plain, due, "{line}, plain Rust");
        }
        words = &words[taken..];
        held += 1;
    }
    held
}

#[test]
fn the_lines_of_the_list_hold() {
    let lines = fs::read_to_string(folder().join("stdout")).unwrap();
    let mut held = 0;
    for line in lines.lines() {
        let words: Vec<&str> = line.split(' ').collect();
        let mut index = fs::read(folder().join("data").join(words[0])).unwrap();
        let calls = match words[1] {
            "set" => {
                index[words[2].parse::<usize>().unwrap()] = words[3].parse().unwrap();
                &words[4..]
            }
            _ => &words[1..],
        };
        held += hold(&index, calls, line);
    }
    assert_eq!(held, 3 + 43 + 2 * 90);
}
