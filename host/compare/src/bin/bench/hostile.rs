//! Inputs that someone made to take long: no call may be slower on them than a small multiple of one pass over what it was lent.
use crate::inputs;
use crate::measure::{one_pass, Case, Times};
use gatherloom::{read_number, Index, Table};
use gatherloom_compare::generate::{
    index::{self, Fill},
    table,
};
use gatherloom_compare::random::Random;
use gatherloom_compare::reference;

pub fn run(word: &str) {
    texts(word);
    tables(word);
    for (name, bytes) in indexes() {
        index_calls(word, &name, &bytes);
    }
    insertion(word);
    removal(word);
    matches(word);
}

/// Texts and keys much longer than any that is taken.
fn texts(word: &str) {
    let blanks = vec![b' '; 1_048_576];
    show(
        word,
        "numeric read",
        "1 MiB of blanks",
        &[&blanks],
        Box::new(|| read_number(&blanks, 0).is_ok() as u64),
        Box::new(|| reference::number_read(&blanks, 0).is_ok() as u64),
    );
    let index = std::cell::RefCell::new(vec![0; 1024]);
    show(
        word,
        "fresh",
        "an expression of 1 MiB",
        &[&blanks],
        Box::new(|| Index::fresh(&mut index.borrow_mut()[..], 10, 1, &blanks).is_ok() as u64),
        Box::new(|| reference::fresh(&mut index.borrow_mut(), 10, 1, &blanks).is_ok() as u64),
    );
}

/// An insertion that splits all pages from a leaf to the root, one level less than may be, and makes a new root.
fn insertion(word: &str) {
    if !"insertion".contains(word) {
        return;
    }
    let splits_all = |seed| {
        let (mut spine, key) = index::spine(&mut Random::new(seed), 100, 40);
        spine.resize(spine.len() + index::LEVELS * 512, 0);
        let mut after = spine.clone();
        reference::insert(&mut after, &key, 1).ok()?;
        let size = u32::from_le_bytes(after[8..12].try_into().unwrap());
        (size as usize == spine.len()).then_some((spine, key))
    };
    let (spine, key) = (1..)
        .find_map(splits_all)
        .expect("some seed has none lacking");
    let buffer = std::cell::RefCell::new(spine.clone());
    let mut case = Case {
        call: "insertion",
        input: String::new(),
        calls: 1,
        limit: 0.0,
        prepare: Box::new(|| buffer.borrow_mut().copy_from_slice(&spine)),
        library: Box::new(|| {
            Index::over(&mut buffer.borrow_mut()[..])
                .insert(&key, 1)
                .is_ok() as u64
        }),
        plain: Box::new(|| reference::insert(&mut buffer.borrow_mut(), &key, 1).is_ok() as u64),
    };
    let times = case.times(true);
    let pass = one_pass(&[&spine]);
    line(
        "insertion",
        "14 levels of full pages, all split",
        spine.len(),
        times,
        pass,
    );
}

/// A removal that empties all pages from a leaf to the root, as many levels as may be.
fn removal(word: &str) {
    if !"removal".contains(word) {
        return;
    }
    let mut r = Random::new(10);
    let one = index::entries(&mut r, 10, 1, 0);
    let chain = index::tree(&mut r, 10, &one, Fill::Full, index::LEVELS);
    let key = &one[0].0;
    let buffer = std::cell::RefCell::new(chain.clone());
    let mut case = Case {
        call: "removal",
        input: String::new(),
        calls: 1,
        limit: 0.0,
        prepare: Box::new(|| buffer.borrow_mut().copy_from_slice(&chain)),
        library: Box::new(|| {
            Index::over(&mut buffer.borrow_mut()[..])
                .remove(key, 0)
                .is_ok() as u64
        }),
        plain: Box::new(|| reference::remove(&mut buffer.borrow_mut(), key, 0).is_ok() as u64),
    };
    let times = case.times(true);
    let pass = one_pass(&[&chain]);
    line(
        "removal",
        "15 levels of one-entry pages, all emptied",
        chain.len(),
        times,
        pass,
    );
}

fn matches(word: &str) {
    let mut r = Random::new(7);
    let (table, index) = inputs::matching(&mut r, 30_000);
    let mut one = index.clone();
    for page in one[512..].chunks_exact_mut(512).filter(|p| p[0] & 2 != 0) {
        for entry in page[12..].chunks_exact_mut(14) {
            entry[10..].copy_from_slice(&[0, 0, 0, 1]);
        }
    }
    let blank = inputs::blank_records(8_000_000);
    let lone = index::tree(&mut r, 1, &[(vec![b' '], 8_000_000)], Fill::Full, 1);
    for (input, table, index) in [
        ("every entry names record 1", &table, &one),
        ("8,000,000 records, one entry", &blank, &lone),
    ] {
        let good = Table::new(table).unwrap();
        show(
            word,
            "match",
            input,
            &[table, index],
            Box::new(|| Index::over(index).matches(&good, 1).is_ok() as u64),
            Box::new(|| reference::match_index(table, index, 1).is_ok() as u64),
        );
    }
}

type Way<'a> = Box<dyn FnMut() -> u64 + 'a>;

fn show(word: &str, call: &'static str, input: &str, lent: &[&[u8]], library: Way, plain: Way) {
    if !format!("{call}, {input}").contains(word) {
        return;
    }
    let mut case = Case {
        call,
        input: input.to_string(),
        calls: 1,
        limit: 0.0,
        prepare: Box::new(|| ()),
        library,
        plain,
    };
    let times = case.times(false);
    let pass = one_pass(lent);
    let bytes = lent.iter().map(|b| b.len()).sum();
    line(call, input, bytes, times, pass);
}

fn line(call: &str, input: &str, bytes: usize, times: Times, pass: f64) {
    println!(
        "| {call} | {input} | {bytes} | {:.0} | {:.0} | {pass:.0} | {:.1} |",
        times.library,
        times.plain,
        times.library / pass
    );
}

fn tables(word: &str) {
    let columns: Vec<table::Column> = (0..128)
        .map(|_| table::Column {
            kind: b'C',
            length: 1,
            decimals: 0,
        })
        .collect();
    let names = table::blank(&columns, 0x03, 1, 8);
    show(
        word,
        "table check",
        "128 names of 10 that differ in the last two characters",
        &[&names],
        Box::new(|| Table::check(&names).is_ok() as u64),
        Box::new(|| reference::check_table(&names).is_ok() as u64),
    );
    let mut deleted = inputs::blank_records(8_000_000);
    for record in deleted[65..].chunks_exact_mut(2) {
        record[0] = b'*';
    }
    let walked = Table::new(&deleted).unwrap();
    show(
        word,
        "walk, skipping",
        "8,000,000 records, all deleted",
        &[&deleted],
        Box::new(|| walked.live().next().is_none() as u64),
        Box::new(|| (reference::walk_live(&deleted, &mut 0) == reference::Step::Done) as u64),
    );
}

fn index_calls(word: &str, name: &str, bytes: &[u8]) {
    let k = bytes[12] as usize;
    let key = vec![0xFF; k];
    let low = vec![0; k];
    show(
        word,
        "audit",
        name,
        &[bytes],
        Box::new(|| Index::over(bytes).audit().is_ok() as u64),
        Box::new(|| reference::audit(bytes).is_ok() as u64),
    );
    for key in [key, low] {
        let input = format!("{name}, key of {:#04x}", key[0]);
        show(
            word,
            "lookup",
            &input,
            &[bytes],
            Box::new(|| Index::over(bytes).lookup(&key).is_ok() as u64),
            Box::new(|| {
                let looked = reference::lookup(bytes, &key);
                !matches!(looked, reference::Looked::Refused(_)) as u64
            }),
        );
    }
}

/// The levels of an index of 1 MiB with 24 entries in a page.
const LEVELS: usize = 4;

/// The page that the greatest keys lead to, so many levels down.
fn last_page(bytes: &[u8], levels: usize) -> usize {
    let k = bytes[12] as usize;
    let mut p = u32::from_le_bytes(bytes[..4].try_into().unwrap()) as usize;
    for _ in 1..levels {
        let count = u16::from_le_bytes([bytes[p + 2], bytes[p + 3]]) as usize;
        let at = p + 12 + (count - 1) * (k + 4) + k;
        p = u32::from_be_bytes(bytes[at..at + 4].try_into().unwrap()) as usize;
    }
    p
}

fn indexes() -> Vec<(String, Vec<u8>)> {
    let mut r = Random::new(9);
    let (sound, _) = inputs::index(&mut r, 10, 24, 2047, 0);
    let mut made = damaged(&sound);
    for k in [1, 10] {
        made.push((
            format!("15 levels, every entry of a level leads to one page, k = {k}"),
            shared(k),
        ));
    }
    let one = index::entries(&mut r, 10, 1, 0);
    made.push((
        "15 levels of one-entry pages".to_string(),
        index::tree(&mut r, 10, &one, Fill::Full, index::LEVELS),
    ));
    for k in [2, 10] {
        let mut bytes = index::chains(&mut r, k, 157);
        index::raise(&mut r, &mut bytes, 1);
        let name = format!("15 levels, full pages over one-entry pages, keys raised, k = {k}");
        made.push((name, bytes));
    }
    for k in [10, 100] {
        let per_page = index::capacity(k);
        let single = index::entries(&mut r, k, index::leaves_for(2047, per_page), 0);
        let mut bytes = index::tree(&mut r, k, &single, Fill::Exactly(1), 1);
        index::raise(&mut r, &mut bytes, 1);
        let name = format!("1 MiB, full pages over one-entry leaves, keys raised, k = {k}");
        made.push((name, bytes));
    }
    let (spine, _) = index::spine(&mut r, 100, 43);
    made.push(("15 levels, one path of full pages".to_string(), spine));
    made.extend(free_lists(&mut r));
    made
}

/// Indexes of one key whose other pages are free: a sound one, one whose list leads in a circle, and one whose list leads into the tree at its end.
fn free_lists(r: &mut Random) -> Vec<(String, Vec<u8>)> {
    let one = index::entries(r, 10, 1, 0);
    let sound = index::tree_and_free(r, 10, &one, Fill::Full, 1, 2046);
    let number = |at: usize| u32::from_le_bytes(sound[at..at + 4].try_into().unwrap());
    let (root, head) = (number(0), number(4));
    let mut last = head as usize;
    while number(last + 8) != index::NONE {
        last = number(last + 8) as usize;
    }
    let ended = |next: u32| {
        let mut b = sound.clone();
        b[last + 8..last + 12].copy_from_slice(&next.to_le_bytes());
        b
    };
    vec![
        ("1 MiB, 2,046 free pages".to_string(), sound.clone()),
        (
            "1 MiB, 2,046 free pages in a circle".to_string(),
            ended(head),
        ),
        (
            "1 MiB, 2,046 free pages, the last leads to the root".to_string(),
            ended(root),
        ),
    ]
}

/// A sound index with a count that is a lie, or a cycle.
fn damaged(sound: &[u8]) -> Vec<(String, Vec<u8>)> {
    let (root, leaf) = (last_page(sound, 1), last_page(sound, LEVELS));
    let mut made = Vec::new();
    let mut add = |name: &str, at: usize, bytes: [u8; 4], n: usize| {
        let mut b = sound.to_vec();
        b[at..at + n].copy_from_slice(&bytes[..n]);
        made.push((name.to_string(), b));
    };
    let full = [0xFF; 4];
    let (to_leaf, to_root) = ((leaf as u32).to_le_bytes(), (root as u32).to_be_bytes());
    let above = last_page(sound, LEVELS - 1);
    let count = u16::from_le_bytes([sound[above + 2], sound[above + 3]]) as usize;
    let child = above + 12 + count * 14 - 4;
    add("1 MiB, the root claims 65,535 entries", root + 2, full, 2);
    add(
        "1 MiB, the last leaf claims 65,535 entries",
        leaf + 2,
        full,
        2,
    );
    add(
        "1 MiB, the last leaf's right link goes to itself",
        leaf + 8,
        to_leaf,
        4,
    );
    add(
        "1 MiB, the last page above the leaves leads to the root",
        child,
        to_root,
        4,
    );
    made
}

/// As many pages as there may be levels, each full of entries that lead to the next one, in a file of 1 MiB.
fn shared(k: usize) -> Vec<u8> {
    let mut b = vec![0; 1_048_576];
    b[..4].copy_from_slice(&512u32.to_le_bytes());
    b[4..8].fill(0xFF);
    b[8..12].copy_from_slice(&1_048_576u32.to_le_bytes());
    b[12] = k as u8;
    b[14] = 1;
    for level in 1..=index::LEVELS {
        let page = &mut b[512 * level..512 * level + 512];
        page[0] = (level == 1) as u8 + 2 * (level == index::LEVELS) as u8;
        page[2] = index::capacity(k) as u8;
        page[4..12].fill(0xFF);
        for entry in page[12..].chunks_exact_mut(k + 4) {
            entry[..k].fill(0xFF);
            let next = 512 * (level as u32 + 1);
            entry[k..].copy_from_slice(&next.to_be_bytes());
        }
    }
    b
}
