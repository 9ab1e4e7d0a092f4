//! The library and the plain Rust reading of documents 01 and 02, both against another program's lists of calls: every answer, and the bytes of the index
//! that they leave.
use gatherloom::{Answer, Index, Lookup};
use gatherloom_compare::reference;
use std::{
    fs,
    path::{Path, PathBuf},
};

/// Each list with the length of the buffer that it was made with.
const LISTS: [(&str, usize); 23] = [
    ("k10_ascending", 32768),
    ("k10_descending", 32768),
    ("k10_random", 32768),
    ("k1_bytes", 8192),
    ("k100_deep", 65536),
    ("k5_control", 16384),
    ("k6_k10_mixed", 32768),
    ("k6_k10_to_nothing", 16384),
    ("k6_k1_bytes", 8192),
    ("k6_k100_deep", 65536),
    ("k6_k100_full", 4096),
    ("k100_full", 4096),
    ("k100_deep_raised", 65536),
    ("k100_full_raised", 4096),
    ("paper_five", 2048),
    ("paper_full", 1024),
    ("k46_mixed", 32768),
    ("k12_dates", 32768),
    ("k12_few", 16384),
    ("k12_one_key", 16384),
    ("k12_unique", 16384),
    ("k12_deep", 65536),
    ("k12_deep_falling", 65536),
];

/// The calls on an index, their answers by number as the lists have them.
struct Calls {
    fresh: fn(&mut [u8], u32, u32, &[u8]) -> u32,
    insert: fn(&mut [u8], &[u8], u32) -> u32,
    remove: fn(&mut [u8], &[u8], u32) -> u32,
    records: fn(&[u8], &[u8], &mut [u32]) -> Result<u32, u32>,
    audit: fn(&[u8]) -> u32,
    lookup: fn(&[u8], &[u8]) -> [u32; 3],
}

const LIBRARY: Calls = Calls {
    fresh: |index, k, features, expression| by_number(Index::fresh(index, k, features, expression)),
    insert: |index, key, record| by_number(Index::over(index).insert(key, record)),
    remove: |index, key, record| by_number(Index::over(index).remove(key, record)),
    records: |index, key, list| Index::over(index).records(key, list).map_err(|r| r.code()),
    audit: |index| by_number(Index::over(index).audit()),
    lookup: |index, key| match Index::over(index).lookup(key) {
        Ok(Lookup::Found { record, pages }) => [0, record, pages],
        Ok(Lookup::Absent { pages }) => [257, 0, pages],
        Err(refusal) => [refusal.code(), 0, 0],
    },
};

const PLAIN: Calls = Calls {
    fresh: |index, k, features, expression| {
        reference::fresh(index, k, features, expression)
            .err()
            .unwrap_or(0)
    },
    insert: |index, key, record| reference::insert(index, key, record).err().unwrap_or(0),
    remove: |index, key, record| reference::remove(index, key, record).err().unwrap_or(0),
    records: reference::records,
    audit: |index| reference::audit(index).err().unwrap_or(0),
    lookup: |index, key| match reference::lookup(index, key) {
        reference::Looked::Found(record, pages) => [0, record, pages],
        reference::Looked::Absent(pages) => [257, 0, pages],
        reference::Looked::Refused(number) => [number, 0, 0],
    },
};

fn by_number<T>(answer: Answer<T>) -> u32 {
    answer.err().map_or(0, |refusal| refusal.code())
}

fn bytes(hex: &str) -> Vec<u8> {
    if hex == "-" {
        return Vec::new();
    }
    (0..hex.len() / 2)
        .map(|i| u8::from_str_radix(&hex[2 * i..2 * i + 2], 16).unwrap())
        .collect()
}

fn number(word: &str) -> u32 {
    word.parse().unwrap()
}

/// What an entry of a list of records holds before a call.
const HELD: u32 = 0xDEAD_BEEF;

/// The answer of all records of a key, and the records; what is past them in the list of `room` entries is kept.
fn records_of(calls: &Calls, index: &[u8], key: &[u8], room: usize) -> Vec<u32> {
    let mut list = vec![HELD; room];
    let answer = (calls.records)(index, key, &mut list);
    let (records, past) = list.split_at(answer.map_or(0, |n| n as usize));
    assert!(past.iter().all(|&r| r == HELD));
    let mut answers = vec![answer.err().unwrap_or(0)];
    answers.extend_from_slice(records);
    answers
}

fn numbers(words: &[&str]) -> Vec<u32> {
    words.iter().map(|word| number(word)).collect()
}

/// Makes a call, and gives its answers and those of the list. A list for features 1 does not name them, nor the record of a removal.
fn call(calls: &Calls, index: &mut [u8], words: &[&str]) -> (Vec<u32>, Vec<u32>) {
    let key = || bytes(words[1]);
    let fresh = |index: &mut [u8], features| {
        vec![(calls.fresh)(
            index,
            number(words[1]),
            features,
            &bytes(words[2]),
        )]
    };
    match *words {
        ["f", _, _, features, _] => (fresh(index, number(features)), numbers(&words[4..])),
        ["f", ..] => (fresh(index, 1), numbers(&words[3..])),
        ["i", _, record, _] => (
            vec![(calls.insert)(index, &key(), number(record))],
            numbers(&words[3..]),
        ),
        ["r", _, record, _] => (
            vec![(calls.remove)(index, &key(), number(record))],
            numbers(&words[3..]),
        ),
        ["r", ..] => (vec![(calls.remove)(index, &key(), 0)], numbers(&words[2..])),
        ["s", _, room, answer, records] => {
            let mut expected = vec![number(answer)];
            if records != "-" {
                expected.extend(records.split(',').map(number));
            }
            (
                records_of(calls, index, &key(), number(room) as usize),
                expected,
            )
        }
        ["a", _] => (vec![(calls.audit)(index)], numbers(&words[1..])),
        ["l", ..] => ((calls.lookup)(index, &key()).to_vec(), numbers(&words[2..])),
        _ => panic!("no call: {words:?}"),
    }
}

/// A list or an index file; those for several records to a key lie beside their own test program.
fn data(file: &str) -> PathBuf {
    let of_k12 = file.starts_with("k12_");
    let program = if of_k12 {
        "test_equal_keys"
    } else {
        "test_indexes"
    };
    Path::new(env!("CARGO_MANIFEST_DIR"))
        .join("../../crates")
        .join(program)
        .join("data")
        .join(file)
}

/// Makes the calls of a list on a buffer, and compares the bytes left with an index file.
fn make(calls: &Calls, index: &mut [u8], name: &str, after: &str) {
    let list = fs::read_to_string(data(&format!("{name}.calls"))).unwrap();
    for line in list.lines() {
        let words: Vec<&str> = line.split(' ').collect();
        let (got, expected) = call(calls, index, &words);
        assert_eq!(got, expected, "{name}: {line}");
    }
    let left = fs::read(data(after)).unwrap();
    assert_eq!(index[..left.len()], left[..], "{name}: the bytes left");
}

/// Indexes whose keys above pages are ceilings, each with what its list leaves: an index that breaks the rule stays as it is.
const CEILINGS: [(&str, u32, &str); 7] = [
    ("ceilings_k10_struck", 0, "_after"),
    ("ceilings_k100_struck", 0, "_after"),
    ("ceilings_k100_inner_last_high", 0, "_after"),
    ("ceilings_k10_too_low", 25, ""),
    ("ceilings_k10_meets_next", 25, ""),
    ("ceilings_k100_too_low", 25, ""),
    ("ceilings_k100_meets_next", 25, ""),
];

/// Every list on zeros, one on an index of an earlier release, whose keys have control bytes, and those on indexes with ceilings.
fn replay(calls: &Calls) {
    for (name, length) in LISTS {
        make(calls, &mut vec![0; length], name, &format!("{name}.idx"));
    }
    let mut index = fs::read(data("earlier.idx")).unwrap();
    assert_eq!((calls.audit)(&index), 0);
    index.resize(8192, 0);
    make(calls, &mut index, "earlier", "earlier_after.idx");
    for (name, sound, after) in CEILINGS {
        let mut index = fs::read(data(&format!("{name}.idx"))).unwrap();
        assert_eq!((calls.audit)(&index), sound, "{name}");
        index.resize(65536, 0);
        make(calls, &mut index, name, &format!("{name}{after}.idx"));
    }
    replay_fresh(calls);
    replay_damaged(calls);
}

/// Fresh indexes with features that there are and that there are not, each in a buffer of its own.
fn replay_fresh(calls: &Calls) {
    let list = fs::read_to_string(data("k12_fresh.calls")).unwrap();
    assert_eq!(list.lines().count(), 4);
    for line in list.lines() {
        let words: Vec<&str> = line.split(' ').collect();
        let mut index = vec![0; 2048];
        let (got, expected) = call(calls, &mut index, &words);
        assert_eq!(got, expected, "{line}");
        let made = if expected == [0] { number(words[3]) } else { 0 };
        assert_eq!(index[14] as u32, made, "{line}");
        assert_eq!(index.iter().any(|&c| c != 0), expected == [0], "{line}");
    }
}

/// An index with several records to a key, one byte of it changed at a time: its audit, and a lookup, which may step to a damaged neighbour.
fn replay_damaged(calls: &Calls) {
    let good = fs::read(data("k12_dates.idx")).unwrap();
    let list = fs::read_to_string(data("k12_damaged.expected")).unwrap();
    assert_eq!(list.lines().count(), 24);
    for line in list.lines() {
        let words: Vec<&str> = line.split(' ').collect();
        let mut index = good.clone();
        index[number(words[0]) as usize] = number(words[1]) as u8;
        for part in [&words[2..4], &words[4..]] {
            let (got, expected) = call(calls, &mut index, part);
            assert_eq!(got, expected, "{line}");
        }
    }
}

#[test]
fn the_library_answers_as_the_other_program() {
    replay(&LIBRARY);
}

#[test]
fn plain_rust_answers_as_the_other_program() {
    replay(&PLAIN);
}
