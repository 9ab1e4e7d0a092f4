//! The cases that have a limit.
use crate::inputs;
use crate::measure::Case;
use gatherloom::{
    read_number, write_number, Answer, Decimal, Dilution, Index, Lookup, NdxIndex, Refusal, Table,
};
use gatherloom_compare::generate::index::Entry;
use gatherloom_compare::random::Random;
use gatherloom_compare::reference;
use std::cell::RefCell;

const TEXT_AND_TABLE: f64 = 1.5;
const LOOKUP: f64 = 2.0;
const APPEND: f64 = 1.1;
const WHOLE_INDEX: f64 = 3.0;
const REMOVAL: f64 = 1.1;
const LARGEST: f64 = 1.1;
const NDX: f64 = 1.1;
const SEVERAL: f64 = 1.1;

const AUDIT: &str = "audit";

/// Runs the cases whose call has the word in it; says how many are over their limit.
pub fn run(word: &str) -> usize {
    let mut over = 0;
    let groups = [
        number_reads,
        number_writes,
        tables,
        appends,
        lookups,
        lookups_of_several,
        audits,
        audits_of_several,
        largest_audits,
        insertions,
        insertions_of_several,
        removals,
        removals_of_several,
        matches,
        ndx_lookups,
        ndx_audits,
        dilutions,
    ];
    for group in groups {
        over += group(word);
    }
    over
}

fn is_asked(word: &str, call: &str, input: &str) -> bool {
    format!("{call}, {input}").contains(word)
}

fn show(word: &str, mut case: Case, once: bool) -> usize {
    if !is_asked(word, case.call, &case.input) {
        return 0;
    }
    let times = case.times(once);
    let ratio = times.library / times.plain;
    let good = ratio <= case.limit;
    println!(
        "| {} | {} | {:.1} | {:.1} | {ratio:.2} | {} | {} |",
        case.call,
        case.input,
        times.library,
        times.plain,
        case.limit,
        if good { "ok" } else { "over" }
    );
    !good as usize
}

/// What an answer adds to a sum: anything, as long as both ways add the same.
fn sum_of<E>(answer: Result<Option<i64>, E>) -> u64 {
    answer.ok().flatten().unwrap_or(-1) as u64
}

fn units(answer: Result<Option<Decimal>, Refusal>) -> Result<Option<i64>, Refusal> {
    answer.map(|value| value.map(Decimal::units))
}

/// Widths, decimals and numbers of digits.
const FORMATS: [(usize, u32, u32); 5] =
    [(8, 3, 4), (8, 3, 7), (20, 0, 4), (20, 0, 18), (20, 6, 17)];

fn format_named(width: usize, decimals: u32, digits: u32) -> String {
    format!("width {width}, {decimals} decimals, up to {digits} digits")
}

fn number_reads(word: &str) -> usize {
    let mut r = Random::new(1);
    let mut over = 0;
    let mut lists = Vec::from(FORMATS.map(|(width, decimals, digits)| {
        let texts = inputs::texts(&mut r, width, decimals, digits);
        (format_named(width, decimals, digits), decimals, texts)
    }));
    let name = "width 8, 3 decimals, zero dropped".to_string();
    lists.push((name, 3, inputs::short_texts(&mut r, 8, 3)));
    for (input, decimals, texts) in lists {
        let case = Case {
            call: "numeric read",
            input,
            calls: texts.len(),
            limit: TEXT_AND_TABLE,
            prepare: Box::new(|| ()),
            library: Box::new(|| {
                let sums = texts
                    .iter()
                    .map(|t| sum_of(units(read_number(t, decimals))));
                sums.fold(0, u64::wrapping_add)
            }),
            plain: Box::new(|| {
                let sums = texts
                    .iter()
                    .map(|t| sum_of(reference::number_read(t, decimals)));
                sums.fold(0, u64::wrapping_add)
            }),
        };
        over += show(word, case, false);
    }
    over
}

fn number_writes(word: &str) -> usize {
    let mut r = Random::new(1);
    let mut over = 0;
    for (width, decimals, digits) in FORMATS {
        let values = inputs::values(&mut r, digits);
        let buffer = RefCell::new(vec![0; width]);
        let written = |write: &dyn Fn(&mut [u8], i64) -> bool| {
            let mut buffer = buffer.borrow_mut();
            let mut sum = 0u64;
            for &v in &values {
                sum += write(&mut buffer, v) as u64;
                sum += buffer[width - 1] as u64;
            }
            sum
        };
        let case = Case {
            call: "numeric write",
            input: format_named(width, decimals, digits),
            calls: values.len(),
            limit: TEXT_AND_TABLE,
            prepare: Box::new(|| ()),
            library: Box::new(|| written(&|b, v| write_number(b, decimals, v).is_ok())),
            plain: Box::new(|| written(&|b, v| reference::number_write(b, decimals, v).is_ok())),
        };
        over += show(word, case, false);
    }
    over
}

/// Records of the tables: their number does not matter, since every call checks the header.
const RECORDS: usize = 40;

fn tables(word: &str) -> usize {
    let mut r = Random::new(2);
    let mut over = 0;
    for fields in [5, 128] {
        let table = inputs::table(&mut r, fields, RECORDS);
        let input = format!("{fields} fields");
        let case = |call, calls, library, plain| Case {
            call,
            input: input.clone(),
            calls,
            limit: TEXT_AND_TABLE,
            prepare: Box::new(|| ()),
            library,
            plain,
        };
        over += show(word, check(&case, &table), false);
        over += show(word, reading(&case, &table, fields), false);
        over += show(word, walking(&case, &table), false);
        over += show(word, walking_live(&case, &table), false);
    }
    over
}

type Way<'a> = Box<dyn FnMut() -> u64 + 'a>;
type Make<'a, 'b> = &'b dyn Fn(&'static str, usize, Way<'a>, Way<'a>) -> Case<'a>;

fn check<'a>(case: Make<'a, '_>, table: &'a [u8]) -> Case<'a> {
    case(
        "table check",
        1,
        Box::new(|| Table::check(table).is_ok() as u64),
        Box::new(|| reference::check_table(table).is_ok() as u64),
    )
}

fn reading<'a>(case: Make<'a, '_>, table: &'a [u8], fields: usize) -> Case<'a> {
    let good = Table::new(table).unwrap();
    // the last field that is a number
    let field = if fields == 5 { 5 } else { 127 };
    case(
        "reading a number",
        RECORDS,
        Box::new(move || {
            let sums = (1..=RECORDS as u32).map(|i| sum_of(units(good.decimal(i, field))));
            sums.fold(0, u64::wrapping_add)
        }),
        Box::new(move || {
            let sums =
                (1..=RECORDS as u32).map(|i| sum_of(reference::read_number(table, i, field)));
            sums.fold(0, u64::wrapping_add)
        }),
    )
}

/// The sum of the numbers that a walk hands out until it is done.
fn steps(step: &mut dyn FnMut() -> Option<u32>) -> u64 {
    let mut sum = 0u64;
    while let Some(number) = step() {
        sum += number as u64;
    }
    sum
}

/// The number that a step of plain Rust hands out.
fn number(step: reference::Step) -> Option<u32> {
    match step {
        reference::Step::Record { number, .. } => Some(number),
        _ => None,
    }
}

fn walking<'a>(case: Make<'a, '_>, table: &'a [u8]) -> Case<'a> {
    let good = Table::new(table).unwrap();
    case(
        "walk",
        RECORDS + 1,
        Box::new(move || {
            let mut records = good.records();
            steps(&mut || Some(records.next()?.number()))
        }),
        Box::new(move || {
            let mut passed = 0;
            steps(&mut || number(reference::walk(table, &mut passed)))
        }),
    )
}

fn walking_live<'a>(case: Make<'a, '_>, table: &'a [u8]) -> Case<'a> {
    let good = Table::new(table).unwrap();
    let calls = good.live().count() + 1;
    case(
        "walk, skipping",
        calls,
        Box::new(move || {
            let mut live = good.live();
            steps(&mut || live.next()?.ok())
        }),
        Box::new(move || {
            let mut passed = 0;
            steps(&mut || number(reference::walk_live(table, &mut passed)))
        }),
    )
}

/// An append to tables of few and of many records: the time is that of the header and of one record.
fn appends(word: &str) -> usize {
    let mut r = Random::new(8);
    let mut over = 0;
    for (records, named) in [(10, "10"), (30_000, "30,000")] {
        let mut table = inputs::table(&mut r, 5, records);
        let length = table.len();
        let record = table[length - 32..].to_vec();
        table.resize(length + record.len() + 1, 0);
        let buffer = RefCell::new(table.clone());
        let appended = |append: &dyn Fn(&mut [u8]) -> Option<u64>| {
            let mut buffer = buffer.borrow_mut();
            // the count is set back, so that every append is the first
            buffer[4..8].copy_from_slice(&table[4..8]);
            let place = append(&mut buffer).unwrap_or(0);
            place + u32::from_le_bytes(buffer[4..8].try_into().unwrap()) as u64
        };
        let case = Case {
            call: "append",
            input: format!("{named} records of 5 fields"),
            calls: 1,
            limit: APPEND,
            prepare: Box::new(|| ()),
            library: Box::new(|| {
                appended(&|b| Some(Table::append(b, length, &record).ok()?.record.place))
            }),
            plain: Box::new(|| {
                appended(&|b| Some(reference::append(b, length, &record).ok()?[0].0))
            }),
        };
        over += show(word, case, false);
    }
    over
}

/// Key lengths, with how many entries a page has, about as many as random insertions leave, and how many bytes at the keys' start are all the same.
const KEYS: [(usize, usize, usize); 6] = [
    (5, 40, 0),
    (10, 24, 0),
    (10, 24, 6),
    (15, 18, 8),
    (100, 3, 0),
    (100, 3, 96),
];

fn named(size: &str, k: usize, alike: usize) -> String {
    match alike {
        0 => format!("{size} index, k = {k}"),
        _ => format!("{size} index, k = {k}, first {alike} bytes of all keys the same"),
    }
}

fn picked_pairs(r: &mut Random, entries: &[Entry], count: usize) -> Vec<Entry> {
    (0..count)
        .map(|_| entries[r.below(entries.len())].clone())
        .collect()
}

fn picked(r: &mut Random, entries: &[Entry]) -> Vec<Vec<u8>> {
    let pairs = picked_pairs(r, entries, 1000);
    pairs.into_iter().map(|pair| pair.0).collect()
}

/// How many records a key has in the indexes with features 0.
const RUN: usize = 8;

/// The indexes of a group of cases: their features, the number that their random keys start from, and the limit.
#[derive(Clone, Copy)]
struct Group {
    several: bool,
    seed: u64,
    limit: f64,
}

impl Group {
    fn index(
        &self,
        r: &mut Random,
        (k, per_page, alike): (usize, usize, usize),
        pages: usize,
    ) -> (Vec<u8>, Vec<Entry>) {
        if self.several {
            inputs::several(r, k, per_page, pages, alike, RUN)
        } else {
            inputs::index(r, k, per_page, pages, alike)
        }
    }

    fn named(&self, size: &str, (k, _, alike): (usize, usize, usize)) -> String {
        let name = named(size, k, alike);
        if self.several {
            format!("{name}, {RUN} records to a key")
        } else {
            name
        }
    }
}

/// What a lookup adds to a sum, both ways.
fn looked(answer: Answer<Lookup>) -> u64 {
    match answer {
        Ok(Lookup::Found { record, pages }) => record as u64 + pages as u64,
        Ok(Lookup::Absent { pages }) => pages as u64,
        Err(_) => 1000,
    }
}

fn looked_plainly(answer: reference::Looked) -> u64 {
    match answer {
        reference::Looked::Found(record, pages) => record as u64 + pages as u64,
        reference::Looked::Absent(pages) => pages as u64,
        reference::Looked::Refused(_) => 1000,
    }
}

fn lookups(word: &str) -> usize {
    all_lookups(
        word,
        Group {
            several: false,
            seed: 3,
            limit: LOOKUP,
        },
    )
}

fn lookups_of_several(word: &str) -> usize {
    all_lookups(
        word,
        Group {
            several: true,
            seed: 13,
            limit: SEVERAL,
        },
    )
}

fn all_lookups(word: &str, group: Group) -> usize {
    let mut r = Random::new(group.seed);
    let mut over = 0;
    for keys in KEYS {
        let (index, entries) = group.index(&mut r, keys, 2047);
        let name = group.named("1 MiB", keys);
        let hits = picked(&mut r, &entries);
        let misses = inputs::absent(&hits, &entries);
        for (what, keys) in [("hit", &hits), ("miss", &misses)] {
            let case = Case {
                call: "lookup",
                input: format!("{what}, {name}"),
                calls: keys.len(),
                limit: group.limit,
                prepare: Box::new(|| ()),
                library: Box::new(|| {
                    let looks = keys
                        .iter()
                        .map(|key| looked(Index::over(&index).lookup(key)));
                    looks.sum()
                }),
                plain: Box::new(|| {
                    let looks = keys.iter();
                    looks
                        .map(|key| looked_plainly(reference::lookup(&index, key)))
                        .sum()
                }),
            };
            over += show(word, case, false);
        }
    }
    over
}

fn audit(word: &str, index: &[u8], input: String, limit: f64) -> usize {
    let case = Case {
        call: AUDIT,
        input,
        calls: 1,
        limit,
        prepare: Box::new(|| ()),
        library: Box::new(|| Index::over(index).audit().is_ok() as u64),
        plain: Box::new(|| reference::audit(index).is_ok() as u64),
    };
    show(word, case, false)
}

fn audits(word: &str) -> usize {
    all_audits(
        word,
        Group {
            several: false,
            seed: 4,
            limit: WHOLE_INDEX,
        },
    )
}

fn audits_of_several(word: &str) -> usize {
    all_audits(
        word,
        Group {
            several: true,
            seed: 14,
            limit: SEVERAL,
        },
    )
}

fn all_audits(word: &str, group: Group) -> usize {
    let mut r = Random::new(group.seed);
    let mut over = 0;
    for keys in KEYS {
        let (index, _) = group.index(&mut r, keys, 2047);
        over += audit(word, &index, group.named("1 MiB", keys), group.limit);
    }
    over
}

/// Indexes of the largest size, which are made only if they are asked for.
fn largest_audits(word: &str) -> usize {
    let mut over = 0;
    for (k, per_page, alike) in KEYS {
        let input = named("16 MiB", k, alike);
        if is_asked(word, AUDIT, &input) {
            let (index, _) = inputs::index(&mut Random::new(11), k, per_page, 32767, alike);
            over += audit(word, &index, input, LARGEST);
        }
    }
    over
}

fn insertions(word: &str) -> usize {
    all_insertions(
        word,
        Group {
            several: false,
            seed: 5,
            limit: WHOLE_INDEX,
        },
    )
}

fn insertions_of_several(word: &str) -> usize {
    all_insertions(
        word,
        Group {
            several: true,
            seed: 15,
            limit: SEVERAL,
        },
    )
}

fn all_insertions(word: &str, group: Group) -> usize {
    let mut r = Random::new(group.seed);
    let mut over = 0;
    for keys in KEYS {
        let (mut index, entries) = group.index(&mut r, keys, 1023);
        let name = group.named("0.5 MiB", keys);
        index.resize(index.len() + 32 * 512, 0);
        let mut keys = picked(&mut r, &entries);
        if !group.several {
            keys = inputs::absent(&keys, &entries);
        }
        keys.truncate(8);
        let buffer = RefCell::new(index.clone());
        let inserted = |insert: &dyn Fn(&mut [u8], &[u8]) -> bool| {
            let mut buffer = buffer.borrow_mut();
            let good = keys.iter().filter(|key| insert(&mut buffer, key)).count();
            // where a page split, the file has grown
            good as u64 * 1_000_000 + u32::from_le_bytes(buffer[8..12].try_into().unwrap()) as u64
        };
        let case = Case {
            call: "insertion",
            input: name,
            calls: keys.len(),
            limit: group.limit,
            prepare: Box::new(|| buffer.borrow_mut().copy_from_slice(&index)),
            library: Box::new(|| inserted(&|b, key| Index::over(b).insert(key, 7).is_ok())),
            plain: Box::new(|| inserted(&|b, key| reference::insert(b, key, 7).is_ok())),
        };
        over += show(word, case, true);
    }
    over
}

fn removals(word: &str) -> usize {
    all_removals(
        word,
        Group {
            several: false,
            seed: 10,
            limit: REMOVAL,
        },
    )
}

fn removals_of_several(word: &str) -> usize {
    all_removals(
        word,
        Group {
            several: true,
            seed: 16,
            limit: SEVERAL,
        },
    )
}

fn all_removals(word: &str, group: Group) -> usize {
    let mut r = Random::new(group.seed);
    let mut over = 0;
    for keys in KEYS {
        let (index, entries) = group.index(&mut r, keys, 1023);
        let pairs = picked_pairs(&mut r, &entries, 8);
        let buffer = RefCell::new(index.clone());
        let removed = |remove: &dyn Fn(&mut [u8], &Entry) -> bool| {
            let mut buffer = buffer.borrow_mut();
            let good = pairs.iter().filter(|pair| remove(&mut buffer, pair));
            good.count() as u64
        };
        let case = Case {
            call: "removal",
            input: group.named("0.5 MiB", keys),
            calls: pairs.len(),
            limit: group.limit,
            prepare: Box::new(|| buffer.borrow_mut().copy_from_slice(&index)),
            library: Box::new(|| removed(&|b, e| Index::over(b).remove(&e.0, e.1).is_ok())),
            plain: Box::new(|| removed(&|b, e| reference::remove(b, &e.0, e.1).is_ok())),
        };
        over += show(word, case, true);
    }
    over
}

fn matches(word: &str) -> usize {
    let mut r = Random::new(6);
    let (table, index) = inputs::matching(&mut r, 30_000);
    let good = Table::new(&table).unwrap();
    let case = Case {
        call: "match",
        input: "30,000 records, k = 10".to_string(),
        calls: 1,
        limit: WHOLE_INDEX,
        prepare: Box::new(|| ()),
        library: Box::new(|| Index::over(&index).matches(&good, 1).is_ok() as u64),
        plain: Box::new(|| reference::match_index(&table, &index, 1).is_ok() as u64),
    };
    show(word, case, false)
}

/// NDX indexes by their size, key length and keys per page: small ones, the largest, and one of 15 levels.
fn ndx_indexes(r: &mut Random) -> Vec<(String, Vec<u8>, Vec<Entry>)> {
    let mut made = Vec::new();
    for pages in [1, 40, 32_767] {
        for k in [4, 10, 100] {
            let (index, entries) = inputs::ndx(r, k, pages);
            let size = match index.len() / 512 {
                n @ ..=100 => format!("{n} pages"),
                _ => "16 MiB".to_string(),
            };
            made.push((named(&size, k, 0), index, entries));
        }
    }
    let (index, entries) = inputs::deepest_ndx(r);
    made.push((
        "16 MiB index of 15 levels, k = 5".to_string(),
        index,
        entries,
    ));
    made
}

fn ndx_lookups(word: &str) -> usize {
    let mut r = Random::new(11);
    let mut over = 0;
    for (name, index, entries) in ndx_indexes(&mut r) {
        let hits = picked(&mut r, &entries);
        let misses = inputs::absent(&hits, &entries);
        for (what, keys) in [("hit", &hits), ("miss", &misses)] {
            let case = Case {
                call: "NDX lookup",
                input: format!("{what}, {name}"),
                calls: keys.len(),
                limit: NDX,
                prepare: Box::new(|| ()),
                library: Box::new(|| {
                    let looks = keys.iter();
                    looks
                        .map(|key| looked(NdxIndex::over(&index).lookup(key)))
                        .sum()
                }),
                plain: Box::new(|| {
                    let looks = keys.iter();
                    looks
                        .map(|key| looked_plainly(reference::ndx::lookup(&index, key)))
                        .sum()
                }),
            };
            over += show(word, case, false);
        }
    }
    over
}

fn ndx_audits(word: &str) -> usize {
    let mut r = Random::new(12);
    let mut over = 0;
    for (name, index, _) in ndx_indexes(&mut r) {
        let case = Case {
            call: "NDX audit",
            input: name,
            calls: 1,
            limit: NDX,
            prepare: Box::new(|| ()),
            library: Box::new(|| NdxIndex::over(&index).audit().is_ok() as u64),
            plain: Box::new(|| reference::ndx::audit(&index).is_ok() as u64),
        };
        over += show(word, case, false);
    }
    over
}

/// One barcode of a table that fills a file of the program `dilute`. The match takes nearly all the time: the record is found by the index.
fn dilutions(word: &str) -> usize {
    let mut r = Random::new(7);
    let (mut table, index) = inputs::matching(&mut r, 2_000);
    let (header, record) = (33 + 32 * 5, 32);
    table[header + 999 * record] = b' ';
    reference::number_write(&mut table[header + 999 * record + 11..][..8], 3, 2150)
        .expect("there is room");
    let barcode = table[header + 999 * record + 1..][..10].to_vec();
    let good = Table::new(&table).unwrap();
    let asked = Dilution {
        barcode_field: 1,
        concentration_field: 2,
        target: 2000,
        final_volume: 1000,
    };
    let case = Case {
        call: "dilution",
        input: "2,000 records, k = 10".to_string(),
        calls: 1,
        limit: WHOLE_INDEX,
        prepare: Box::new(|| ()),
        library: Box::new(|| {
            let volumes = Index::over(&index).dilute(&good, &barcode, &asked);
            volumes.map_or(0, |v| v.sample as u64)
        }),
        plain: Box::new(|| {
            let volumes = reference::dilute(&table, &index, (1, 2), &barcode, 2000, 1000);
            volumes.map_or(0, |v| v.0 as u64)
        }),
    };
    show(word, case, false)
}
