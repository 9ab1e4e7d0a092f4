//! The inputs of a round, and the calls made on them.
use crate::calls;
use crate::ndx;
use crate::tally::Tally;
use gatherloom_compare::generate::{
    index::{self, Entry, Fill},
    table, text,
};
use gatherloom_compare::lent::{Arena, Lent};
use gatherloom_compare::random::Random;
use gatherloom_compare::reference;

pub const MOST: usize = 16_777_216;

/// The longest list that is lent for the records of a key.
const LIST_MOST: usize = 4096;

/// Room for what a call is lent, each part watched for itself.
pub struct Arenas {
    table: Arena,
    memo: Arena,
    pub index: Arena,
    pub key: Arena,
    text: Arena,
    list: Arena,
    numbers: Arena,
    record: Arena,
}

impl Arenas {
    pub fn new() -> Arenas {
        Arenas {
            table: Arena::new(MOST + 4096),
            memo: Arena::new(MOST + 1),
            index: Arena::new(MOST + 4096),
            key: Arena::new(512),
            text: Arena::new(64),
            list: Arena::new(calls::ENTRY * 256),
            numbers: Arena::new(4 * LIST_MOST),
            record: Arena::new(4096),
        }
    }
}

pub fn round(r: &mut Random, a: &mut Arenas, tally: &mut Tally) {
    numbers(r, a, tally);
    for _ in 0..4 {
        a_table(r, a, tally);
    }
    for _ in 0..8 {
        a_laid_out_table(r, a, tally);
    }
    for _ in 0..4 {
        a_written_table(r, a, tally);
    }
    fresh_calls(r, a, tally);
    grown_index(r, a, tally);
    mixed_list(r, a, tally);
    made_index(r, a, tally);
    ndx::round(r, a, tally);
    for _ in 0..4 {
        a_match(r, a, tally);
        a_sheet(r, a, tally);
    }
    if r.one_in(20) {
        spine(r, a, tally);
    }
    if r.one_in(300) {
        large_index(r, a, tally);
    }
    if tally.round % 5000 == 1 {
        longest_files(r, a, tally);
        longest_append(r, a, tally);
    }
}

fn numbers(r: &mut Random, a: &mut Arenas, tally: &mut Tally) {
    for _ in 0..200 {
        let (width, decimals) = text::format(r);
        let made = text::number(r, width, decimals);
        let lent = a.text.lend(&made, r.one_in(2));
        calls::number_read(tally, &lent, decimals, r.bits() as i64);
    }
    for _ in 0..100 {
        let (width, decimals) = text::format(r);
        let before = r.bytes(width);
        let lent = a.text.lend(&before, r.one_in(2));
        calls::number_write(tally, &lent, decimals, text::value(r));
    }
}

// ---- the table

fn a_table(r: &mut Random, a: &mut Arenas, tally: &mut Tally) {
    let (memo, near) = table::memo(r);
    let mut bytes = table::table(r, &near);
    for _ in 0..r.pick(&[0, 0, 0, 0, 1, 1, 1, 2, 3]) {
        table::damage(r, &mut bytes);
    }
    if bytes.len() > MOST {
        return;
    }
    let lent = a.table.lend(&bytes, r.one_in(2));
    let memo = a.memo.lend(&memo, r.one_in(2));
    let (records, fields, reads) = match reference::check_table(&bytes) {
        Ok(shape) => (shape.records, shape.fields, 40),
        Err(_) => (3, 3, 4),
    };
    calls::table_check(tally, &lent);
    calls::table_shape(tally, &lent, r.word());
    for _ in 0..2 {
        let room = r.pick(&[0, fields.saturating_sub(1), fields, fields + 1, fields + 7]);
        let list = r.bytes(calls::ENTRY * room);
        let list = a.list.lend(&list, r.one_in(2));
        calls::fields(tally, &lent, &list);
    }
    walks(r, tally, &lent, records);
    for _ in 0..reads {
        a_read(r, tally, &lent, &memo, records, fields);
    }
}

/// Each walk from the start or from anywhere to its end, or some way, and steps from anywhere.
fn walks(r: &mut Random, tally: &mut Tally, table: &Lent, records: u32) {
    let from = match r.below(2) {
        0 => 0,
        _ => r.below(records as usize + 1) as u32,
    };
    let mut passed = from;
    for _ in 0..8 {
        let (answer, after) = calls::walk(tally, table, passed, r.word(), r.byte());
        passed = after;
        if answer != 0 && answer != 15 {
            break;
        }
    }
    passed = from;
    for _ in 0..8 {
        let (answer, after) = calls::walk_live(tally, table, passed, r.word());
        passed = after;
        if answer != 0 && answer != 15 {
            break;
        }
    }
    for _ in 0..2 {
        let passed = r.near(&[0, records, u32::MAX]);
        calls::walk(tally, table, passed, r.word(), r.byte());
        calls::walk_live(tally, table, passed, r.word());
    }
}

/// A read of some field, mostly by the call for its type.
fn a_read(
    r: &mut Random,
    tally: &mut Tally,
    table: &Lent,
    memo: &Lent,
    records: u32,
    fields: usize,
) {
    let record = match r.below(24) {
        0 => r.near(&[0, records]),
        _ => 1 + r.below(records as usize) as u32,
    };
    let field = match r.below(24) {
        0 => r.near(&[0, fields as u32]),
        _ => 1 + r.below(fields) as u32,
    };
    let at = (32 * field as usize).wrapping_add(11);
    let kind = table.was().get(at).copied().unwrap_or(b'C');
    let kind = if r.one_in(12) { r.pick(b"CNDL") } else { kind };
    match kind {
        b'N' => calls::read_number(tally, table, record, field, r.bits() as i64),
        b'D' => calls::read_date(tally, table, record, field, r.word()),
        b'L' => calls::read_logical(tally, table, record, field, r.byte()),
        _ => calls::text_part(tally, table, memo, record, field, r.bits()),
    }
}

/// Tables and memo files at the longest that is taken, and one byte longer.
fn longest_files(r: &mut Random, a: &mut Arenas, tally: &mut Tally) {
    let columns = [
        table::Column {
            kind: b'M',
            length: 10,
            decimals: 0,
        },
        table::column(r, b'C'),
    ];
    let record = 11 + columns[1].length as usize;
    let mut bytes = table::blank(&columns, 0xF5, (MOST - 98) / record, 0);
    let mut memo = vec![0; MOST + r.below(2)];
    memo[..8].copy_from_slice(&[0, 8, 0, 0, 0, 0, 2, 0]);
    let block = MOST - 512;
    memo[block..block + 8].copy_from_slice(&[0, 0, 0, 1, 0, 0, 1, 0xF8]);
    bytes[97 + 1..97 + 11].copy_from_slice(b"     32767");
    let memo = a.memo.lend(&memo, true);
    for length in [bytes.len(), MOST, MOST + 1] {
        bytes.resize(length, b' ');
        let count = (length - 97) / record;
        bytes[4..8].copy_from_slice(&(count as u32).to_le_bytes());
        let lent = a.table.lend(&bytes, true);
        calls::table_check(tally, &lent);
        calls::text_part(tally, &lent, &memo, 1, 1, r.bits());
        calls::text_part(tally, &lent, &memo, count as u32, 2, r.bits());
        calls::walk(tally, &lent, count as u32 - 1, r.word(), r.byte());
        calls::walk_live(tally, &lent, count as u32 - 1, r.word());
    }
}

// ---- writing a table

/// A table laid out from a list of fields, in a buffer of about its length.
fn a_laid_out_table(r: &mut Random, a: &mut Arenas, tally: &mut Tally) {
    let list = table::field_list(r);
    let table = 34 + 32 * (list.len() / calls::ENTRY);
    let length = match r.below(6) {
        0 => r.below(table + 1),
        _ => table + r.pick(&[0, 0, 1, 500]) - r.below(2),
    };
    let before = r.bytes(length);
    let date = update_date(r);
    let buffer = a.table.lend(&before, r.one_in(2));
    let list = a.list.lend(&list, r.one_in(2));
    calls::lay_out(tally, &buffer, &list, date);
}

/// A buffer's length for a table: so that a record or a few have room, or just none.
fn room_for(r: &mut Random, length: usize, record: usize) -> usize {
    let few = record * r.below(3);
    let near = r.pick(&[
        0,
        record - 1,
        record,
        record + 1,
        record + 2,
        2 * record + 1,
    ]);
    length + few + near
}

/// A table's length as a host may give it: mostly the right one.
fn length_given(r: &mut Random, right: usize, buffer: usize) -> usize {
    match r.below(16) {
        0 => r.pick(&[
            0,
            right.saturating_sub(1),
            right + 1,
            buffer,
            buffer + 1,
            usize::MAX,
        ]),
        _ => right,
    }
}

/// Appends and dates on a table in a longer buffer, and what a file then holds if power fails.
fn a_written_table(r: &mut Random, a: &mut Arenas, tally: &mut Tally) {
    let good = table::table(r, &[1, 16]);
    let record = u16::from_le_bytes([good[10], good[11]]) as usize;
    let mut own = good.clone();
    for _ in 0..r.pick(&[0, 0, 0, 0, 0, 1, 1, 2]) {
        table::damage(r, &mut own);
    }
    let mut length = own.len();
    let room = room_for(r, length, record);
    own.extend(r.bytes(room - length));
    let at_first = own.clone();
    let mut before = Vec::new();
    let lent = a.table.lend(&at_first, r.one_in(2));
    for _ in 0..6 {
        let given = length_given(r, length, room);
        let made = table::record(r, &good);
        let made = a.record.lend(&made, r.one_in(2));
        let held = r.bits();
        let answer = calls::append(tally, &lent, &mut own, &mut before, given, &made, held);
        if answer == 0 {
            length = reference::extent(&own[..room]).unwrap() as usize + 1;
        }
        if r.one_in(3) {
            let given = length_given(r, length, room);
            let date = update_date(r);
            calls::set_date(tally, &lent, &mut own, &mut before, given, date);
        }
    }
    extents(r, a, tally, &own, &before);
}

/// A date near the ends of the years that a header holds, mostly a good one.
fn update_date(r: &mut Random) -> [u32; 3] {
    let year = r.pick(&[1900, 1901, 2000, 2023, 2024, 2100, 2155]);
    match r.below(4) {
        0 => [r.near(&[1900, 2155]), r.near(&[1, 12]), r.near(&[1, 31])],
        1 => [year, 2, r.pick(&[28, 29, 30])],
        _ => [year, r.between(1, 12) as u32, r.between(1, 31) as u32],
    }
}

/// Extents of a table's file as it is, cut anywhere, and with a count that is not its own.
fn extents(r: &mut Random, a: &mut Arenas, tally: &mut Tally, new: &[u8], old: &[u8]) {
    let mut torn = new.to_vec();
    if r.one_in(2) && old.len() >= 8 {
        torn[4..8].copy_from_slice(&old[4..8]);
    }
    for _ in 0..4 {
        let cut = if r.one_in(4) {
            torn.len()
        } else {
            r.below(torn.len() + 1)
        };
        let file = a.table.lend(&torn[..cut], r.one_in(2));
        calls::extent(tally, &file, r.bits());
    }
}

/// Appends to a table until it is full, in a buffer that has room for more. With H = 65 and R = 5 the last end mark taken is the 16,777,216th byte; with H = 97
/// and R = 3 the first one refused would be the next.
fn longest_append(r: &mut Random, a: &mut Arenas, tally: &mut Tally) {
    for lengths in [&[4][..], &[1, 1]] {
        let column = |&length: &u8| table::Column {
            kind: b'C',
            length,
            decimals: 0,
        };
        let columns: Vec<table::Column> = lengths.iter().map(column).collect();
        let header = 33 + 32 * columns.len();
        let record = vec![b' '; 1 + lengths.iter().sum::<u8>() as usize];
        let mut own = table::blank(&columns, 0x03, (MOST - header) / record.len() - 1, 0);
        let mut length = own.len();
        own.resize(MOST + 2 * record.len(), b' ');
        let at_first = own.clone();
        let mut before = Vec::new();
        let lent = a.table.lend(&at_first, true);
        let made = a.record.lend(&record, true);
        while calls::append(tally, &lent, &mut own, &mut before, length, &made, r.bits()) == 0 {
            length += record.len();
        }
    }
}

// ---- the index

pub fn key_length(r: &mut Random) -> usize {
    match r.below(8) {
        0 => r.between(1, 100),
        _ => r.pick(&[1, 2, 8, 10, 46, 100]),
    }
}

fn expression(r: &mut Random) -> Vec<u8> {
    let length = match r.below(4) {
        0 => r.pick(&[0, 1, 219, 220, 221, 300]),
        _ => r.between(1, 40),
    };
    let mut made: Vec<u8> = (0..length).map(|_| r.between(0x20, 0x7E) as u8).collect();
    if r.one_in(8) && length > 0 {
        made[r.below(length)] = r.pick(&[0x1F, 0x20, 0x7E, 0x7F, 0, 0xFF]);
    }
    made
}

fn fresh_calls(r: &mut Random, a: &mut Arenas, tally: &mut Tally) {
    for _ in 0..8 {
        let length = r.pick(&[0, 511, 1023, 1024, 1025, 1536]) + r.below(2);
        let mut own = r.bytes(length);
        let before = own.clone();
        let expression = expression(r);
        let k = r.near(&[1, 50, 100]);
        let features = r.pick(&[0, 0, 1, 1, 1, 2, 255, 256, u32::MAX]);
        let index = a.index.lend(&before, r.one_in(2));
        let expression = a.key.lend(&expression, r.one_in(2));
        calls::fresh(tally, &index, &mut own, k, features, &expression);
    }
}

/// A key that is in the index, or near one that is, or any; now and then of a wrong length.
pub fn probe(r: &mut Random, k: usize, entries: &[Entry], style: usize) -> Vec<u8> {
    let mut key = if entries.is_empty() || r.one_in(4) {
        index::key(r, k, style)
    } else {
        let at = r.below(entries.len());
        entries[at].0.clone()
    };
    match r.below(12) {
        0..=3 => {
            let at = r.between(k.saturating_sub(2), k - 1);
            key[at] = key[at].wrapping_add(r.pick(&[1, 0xFF]));
        }
        4 => key.fill(r.pick(&[0, 0xFF])),
        5 if r.one_in(3) => key.resize(r.pick(&[0, k - 1, k + 1, 104]), b'B'),
        _ => (),
    }
    key
}

/// A key as it is offered to an insertion: for the most part without control bytes, now and then as it is or with one at any place.
fn offered(r: &mut Random, mut key: Vec<u8>) -> Vec<u8> {
    if r.one_in(8) {
        return key;
    }
    index::raise_control(&mut key);
    if r.one_in(12) && !key.is_empty() {
        let at = r.below(key.len());
        key[at] = r.pick(&[0, 1, 0x0D, 0x1F, 0x1F, 0x20]);
    }
    key
}

fn looks(r: &mut Random, key: &mut Arena, tally: &mut Tally, index: &Lent, own: &[u8], k: &[u8]) {
    let lent = key.lend(k, r.one_in(2));
    calls::lookup(tally, &calls::IDX, index, own, &lent, r.word());
}

/// A pair that is in the index, or one whose key is near one that is, or whose record is another's or next to its own.
fn probe_pair(r: &mut Random, k: usize, entries: &[Entry], style: usize) -> Entry {
    if entries.is_empty() {
        return (probe(r, k, entries, style), r.word());
    }
    let (at, other) = (r.below(entries.len()), r.below(entries.len()));
    let (key, record) = entries[at].clone();
    match r.below(8) {
        0 => (probe(r, k, entries, style), record),
        1 => (key, entries[other].1),
        2 => (key, record.wrapping_add(r.pick(&[1, u32::MAX]))),
        3 => (key, r.pick(&[0, 1, u32::MAX])),
        _ => (key, record),
    }
}

/// All records of a key: into a list that is long, then into one with about as much room as they take.
fn lists(
    r: &mut Random,
    a: (&mut Arena, &mut Arena),
    tally: &mut Tally,
    index: &Lent,
    own: &[u8],
    key: &[u8],
) {
    let key = a.0.lend(key, r.one_in(2));
    let mut room = r.pick(&[0, 3, 40, 300]);
    for _ in 0..2 {
        let before = r.bytes(4 * room);
        let list = a.1.lend(&before, r.one_in(2));
        let count = calls::records(tally, index, own, &key, &list, 7) as usize;
        let few = r.pick(&[1, 2, 8, 30]);
        room = r
            .pick(&[count.saturating_sub(1), count, count + 1, few])
            .min(LIST_MOST);
    }
}

/// An index grown from fresh by insertions, every one of them compared byte by byte.
fn grown_index(r: &mut Random, a: &mut Arenas, tally: &mut Tally) {
    let k = key_length(r);
    let length = 1024 + 512 * r.below(16) + r.pick(&[0, 0, 1, 511]);
    let mut own = if r.one_in(2) {
        vec![0; length]
    } else {
        r.bytes(length)
    };
    let at_first = own.clone();
    let lent = a.index.lend(&at_first, r.one_in(2));
    let mut before = Vec::new();
    let features = r.below(2) as u8;
    {
        let expression = a.key.lend(b"BARCODE", true);
        calls::fresh(
            tally,
            &lent,
            &mut own,
            k as u32,
            features.into(),
            &expression,
        );
    }
    let least = r.pick(&[0, 4, 4, 4]);
    let style = r.between(least, 7);
    let keys = ordered_entries(r, features, k, style);
    let mut refused = 0;
    for i in 0..keys.len() {
        let (key, record) = if r.one_in(10) {
            let (near, record) = probe_pair(r, k, &keys[..=i], style);
            (offered(r, near), record)
        } else {
            keys[i].clone()
        };
        let key = a.key.lend(&key, r.one_in(2));
        let answer = calls::insert(tally, &lent, &mut own, &mut before, &key, record);
        refused += (answer == 30) as usize;
        if refused > 3 {
            break;
        }
        if r.one_in(3) {
            let key = probe(r, k, &keys, style);
            looks(r, &mut a.key, tally, &lent, &own, &key);
        }
        if r.one_in(8) {
            let key = probe(r, k, &keys, style);
            lists(r, (&mut a.key, &mut a.numbers), tally, &lent, &own, &key);
        }
    }
    calls::audit(tally, &calls::IDX, &lent, &own);
}

/// Insertions, removals and lookups mixed in one list, every one of them compared byte by byte. The index grows and shrinks by turns, down to nothing.
fn mixed_list(r: &mut Random, a: &mut Arenas, tally: &mut Tally) {
    let k = r.pick(&[1, 2, 10, 46, 62, 100, 100, 100]);
    let length = 1024 + 512 * r.pick(&[1, 3, 8, 20, 60]) + r.pick(&[0, 0, 1, 511]);
    let mut own = r.bytes(length);
    let at_first = own.clone();
    let lent = a.index.lend(&at_first, r.one_in(2));
    let mut before = Vec::new();
    let features = r.below(2) as u8;
    {
        let expression = a.key.lend(b"BARCODE", true);
        calls::fresh(
            tally,
            &lent,
            &mut own,
            k as u32,
            features.into(),
            &expression,
        );
    }
    let style = r.between(4, 7);
    let draws = r.pick(&[8, 40, 120, 300]);
    let pairs = index::entries_for(r, features, k, draws, style);
    let list = if r.one_in(40) {
        r.between(2000, 5000)
    } else {
        r.between(20, 200)
    };
    let (mut growing, mut step, mut at) = (true, 1, 0);
    for _ in 0..list {
        if r.one_in(40) {
            growing = !growing;
            // in the keys' order, against it, or anyhow
            let any = r.below(pairs.len());
            step = r.pick(&[1, pairs.len() - 1, any]);
        }
        at = (at + step) % pairs.len();
        let (key, record) = if r.one_in(12) {
            probe_pair(r, k, &pairs, style)
        } else {
            pairs[at].clone()
        };
        if r.one_in(8) {
            looks(r, &mut a.key, tally, &lent, &own, &key);
        }
        if r.one_in(12) {
            lists(r, (&mut a.key, &mut a.numbers), tally, &lent, &own, &key);
        }
        let key = a.key.lend(&key, r.one_in(2));
        if growing != r.one_in(6) {
            calls::insert(tally, &lent, &mut own, &mut before, &key, record);
        } else {
            calls::remove(tally, &lent, &mut own, &mut before, &key, record);
        }
        if r.one_in(32) {
            calls::audit(tally, &calls::IDX, &lent, &own);
        }
    }
}

/// Entries in ascending, descending or random order.
fn ordered_entries(r: &mut Random, features: u8, k: usize, style: usize) -> Vec<Entry> {
    let draws = r.between(1, 90);
    let mut keys = index::entries_for(r, features, k, draws, style);
    match r.below(3) {
        0 => keys.reverse(),
        1 => r.shuffle(&mut keys),
        _ => (),
    }
    keys
}

/// Lookups, an audit, insertions and removals on an index; both ways have a copy of it to change.
fn use_index(
    r: &mut Random,
    a: &mut Arenas,
    tally: &mut Tally,
    bytes: &[u8],
    entries: &[Entry],
    style: usize,
) {
    let k = entries.first().map_or(1, |e| e.0.len());
    let lent = a.index.lend(bytes, r.one_in(2));
    calls::audit(tally, &calls::IDX, &lent, bytes);
    for _ in 0..6 {
        let key = probe(r, k, entries, style);
        looks(r, &mut a.key, tally, &lent, bytes, &key);
    }
    let key = probe(r, k, entries, style);
    lists(r, (&mut a.key, &mut a.numbers), tally, &lent, bytes, &key);
    let mut own = bytes.to_vec();
    let mut before = Vec::new();
    for _ in 0..r.pick(&[1, 1, 1, 6]) {
        let (key, record) = probe_pair(r, k, entries, style);
        let key = offered(r, key);
        let key = a.key.lend(&key, r.one_in(2));
        if calls::insert(tally, &lent, &mut own, &mut before, &key, record) == 25 {
            break;
        }
    }
    for _ in 0..r.pick(&[1, 1, 6, 30]) {
        let (key, record) = probe_pair(r, k, entries, style);
        let key = a.key.lend(&key, r.one_in(2));
        let answer = calls::remove(tally, &lent, &mut own, &mut before, &key, record);
        if answer == 24 || answer == 25 {
            break;
        }
    }
}

/// A sound tree of a random shape, its keys above pages exact or raised, with free pages or none, then damaged copies of it.
fn made_index(r: &mut Random, a: &mut Arenas, tally: &mut Tally) {
    let k = key_length(r);
    let style = r.below(8);
    let draws = r.pick(&[0, 1, 3, 10, 40, 120]);
    let features = r.below(2) as u8;
    let entries = index::entries_for(r, features, k, draws, style);
    let fill = match r.below(3) {
        0 => Fill::Full,
        1 => Fill::Any,
        _ => Fill::Exactly(r.between(1, index::capacity(k))),
    };
    let least = match r.below(4) {
        0 => r.between(1, 16),
        _ => 1,
    };
    let free = r.pick(&[0, 0, 1, 2, 5]);
    let mut sound = index::tree_and_free(r, k, &entries, fill, least, free);
    sound[14] = features;
    if r.one_in(2) {
        let share = r.pick(&[1, 2, 8]);
        index::raise(r, &mut sound, share);
    }
    let slack = r.pick(&[0, 0, 1, 512, 1024, 3000]);
    sound.extend(r.bytes(slack));
    use_index(r, a, tally, &sound, &entries, style);
    for _ in 0..8 {
        let mut bytes = sound.clone();
        match r.below(7) {
            0 => index::misplace(r, &mut bytes),
            1 => index::damage_free_list(r, &mut bytes),
            2 => index::meet(r, &mut bytes),
            _ => {
                for _ in 0..r.pick(&[1, 1, 1, 2, 4]) {
                    index::damage(r, &mut bytes);
                }
            }
        }
        if r.one_in(16) {
            bytes.truncate(r.below(bytes.len() + 1));
        }
        use_index(r, a, tally, &bytes, &entries, style);
    }
}

/// A path of full pages, so that an insertion splits every page on it, as far as there is room.
fn spine(r: &mut Random, a: &mut Arenas, tally: &mut Tally) {
    let k = r.pick(&[46, 62, 100]);
    let step = index::capacity(k) - 1;
    // as many leaves as make so many levels with the path full, or any
    let leaves = match r.below(4) {
        0 => r.between(1, 16 * step),
        _ => 1 + step * (r.pick(&[1, 2, 5, 9, 14, 15, 15, 16]) - 1),
    };
    let (mut bytes, key) = index::spine(r, k, leaves);
    bytes[14] = r.below(2) as u8;
    if r.one_in(4) {
        index::raise(r, &mut bytes, 2);
    }
    let slack = 512 * r.below(19);
    bytes.extend(r.bytes(slack));
    let lent = a.index.lend(&bytes, r.one_in(2));
    let mut own = bytes.clone();
    let mut before = Vec::new();
    calls::audit(tally, &calls::IDX, &lent, &bytes);
    for record in 1..4 {
        let mut key = key.clone();
        if record > 1 {
            key[k - 1] = r.byte();
        }
        looks(r, &mut a.key, tally, &lent, &own, &key);
        let key = a.key.lend(&key, r.one_in(2));
        calls::insert(tally, &lent, &mut own, &mut before, &key, record);
    }
    calls::audit(tally, &calls::IDX, &lent, &own);
}

/// An index of up to 1 MiB, or of up to 16 MiB: of as many pages as may be or one or two less, some of them free, and a damaged copy.
fn large_index(r: &mut Random, a: &mut Arenas, tally: &mut Tally) {
    let k = r.pick(&[3, 8, 10, 46, 100, 100]);
    let per_leaf = (index::capacity(k) - 1).min(6);
    let pages = if r.one_in(8) {
        r.pick(&[32767, 32766, 32765, 32760])
    } else {
        r.pick(&[2047, 2040, 700])
    };
    let free = r.pick(&[0, 0, 1, 3, 40]);
    let leaves = index::leaves_for(pages - free, per_leaf);
    let style = r.pick(&[0, 4, 4, 4]);
    let features = r.below(2) as u8;
    let entries = index::entries_for(r, features, k, leaves * per_leaf, style);
    let mut bytes = index::tree_and_free(r, k, &entries, Fill::Exactly(per_leaf), 1, free);
    bytes[14] = features;
    if r.one_in(2) {
        index::raise(r, &mut bytes, 2);
    }
    if r.one_in(2) {
        let most = if pages > 2047 { MOST } else { 1_048_576 };
        bytes.resize(most + r.pick(&[0, 1, 512, 2048]), 0x55);
    }
    crowd(r, a, tally, &bytes, &entries);
    use_index(r, a, tally, &bytes, &entries, style);
    index::damage(r, &mut bytes);
    use_index(r, a, tally, &bytes, &entries, style);
}

/// Insertions into one leaf, so that it splits again and again, as far as the file may grow; then removals of neighbouring keys.
fn crowd(r: &mut Random, a: &mut Arenas, tally: &mut Tally, bytes: &[u8], entries: &[Entry]) {
    let lent = a.index.lend(bytes, r.one_in(2));
    let mut own = bytes.to_vec();
    let mut before = Vec::new();
    let at = r.below(entries.len());
    for record in 1..=8 {
        let mut key = entries[at].0.clone();
        if bytes[14] != 0 || r.one_in(2) {
            *key.last_mut().unwrap() = r.byte();
        }
        let key = a.key.lend(&key, r.one_in(2));
        calls::insert(tally, &lent, &mut own, &mut before, &key, record);
    }
    // the pairs of one page and more, so that pages are emptied
    for (key, record) in entries.iter().skip(at).take(16) {
        let key = a.key.lend(key, r.one_in(2));
        calls::remove(tally, &lent, &mut own, &mut before, &key, *record);
    }
}

// ---- the match

/// A table with a C field as long as the keys, its records' keys distinct for the most part.
fn keyed_table(r: &mut Random, k: usize, keys: &[Entry]) -> (Vec<u8>, u32) {
    let field = r.below(3);
    let mut columns: Vec<table::Column> = (0..field + r.below(2))
        .map(|_| {
            let kind = r.pick(b"CNDL");
            table::column(r, kind)
        })
        .collect();
    let keyed = table::Column {
        kind: b'C',
        length: k as u8,
        decimals: 0,
    };
    columns.insert(field, keyed);
    let offset: usize = columns[..field].iter().map(|c| c.length as usize).sum();
    let mut bytes = table::blank(&columns, 0x03, keys.len(), 0);
    let header = 33 + 32 * columns.len();
    let record = 1 + columns.iter().map(|c| c.length as usize).sum::<usize>();
    for (i, key) in keys.iter().enumerate() {
        let at = header + i * record;
        bytes[at] = r.pick(b" *?");
        bytes[at + 1 + offset..][..k].copy_from_slice(&key.0);
    }
    (bytes, field as u32 + 1)
}

fn a_match(r: &mut Random, a: &mut Arenas, tally: &mut Tally) {
    let k = key_length(r);
    let draws = match r.below(30) {
        0 => 600,
        _ => r.below(14),
    };
    let style = r.below(4);
    let features = r.below(2) as u8;
    let mut keys = index::entries_for(r, features, k, draws, style);
    r.shuffle(&mut keys);
    let (mut table, field) = keyed_table(r, k, &keys);
    for (i, e) in keys.iter_mut().enumerate() {
        e.1 = i as u32 + 1;
    }
    keys.sort();
    spoil_entries(r, k, &mut keys);
    keys.sort();
    let free = r.pick(&[0, 0, 0, 2]);
    let mut index = index::tree_and_free(r, k, &keys, Fill::Any, 1, free);
    index[14] = features;
    if r.one_in(4) {
        index::raise(r, &mut index, 2);
    }
    match r.below(12) {
        0..=1 => table::damage(r, &mut table),
        2..=3 => index::damage(r, &mut index),
        4 => {
            let at = r.below(table.len());
            table[at] = r.byte();
        }
        _ => (),
    }
    if table.len() > MOST {
        return;
    }
    let field = if r.one_in(10) {
        r.near(&[0, 1, 2, 3, 4])
    } else {
        field
    };
    let table = a.table.lend(&table, r.one_in(2));
    let index = a.index.lend(&index, r.one_in(2));
    calls::match_index(tally, &table, &index, field);
}

/// Entries that are no longer the records': one lacks, one is too many, two name one record, or one names another.
fn spoil_entries(r: &mut Random, k: usize, keys: &mut Vec<Entry>) {
    if keys.is_empty() {
        return;
    }
    let (i, j) = (r.below(keys.len()), r.below(keys.len()));
    match r.below(10) {
        0 => {
            keys.remove(i);
        }
        1 => keys[i].1 = keys[j].1,
        2 => keys[i].1 = keys.len() as u32 + 1,
        3 => {
            let (one, other) = (keys[i].1, keys[j].1);
            keys[i].1 = other;
            keys[j].1 = one;
        }
        4 => {
            let record = r.pick(&[1, keys.len() as u32, keys.len() as u32 + 1, u32::MAX]);
            keys.push((index::key(r, k, 0), record));
            keys.sort();
            keys.dedup_by(|one, other| one.0 == other.0);
        }
        _ => (),
    }
}

// ---- the dilution

/// A concentration's text, for the most part one that is read: small ones, so that targets of their size are drawn, and long ones.
fn concentration(r: &mut Random, width: usize) -> Vec<u8> {
    if r.one_in(4) {
        return text::number(r, width, 3);
    }
    let most = 10u64.pow((width - 1).min(17) as u32);
    let units = match r.below(4) {
        0 => r.bits() % most,
        1 => r.below(10) as u64,
        _ => r.bits() % most.min(100_000),
    };
    format!(
        "{:>width$}",
        format!("{}.{:03}", units / 1000, units % 1000)
    )
    .into_bytes()
}

/// A table of barcodes and concentrations, with its index, each mostly good; barcodes are looked for that are there and that are not.
fn a_sheet(r: &mut Random, a: &mut Arenas, tally: &mut Tally) {
    let k = r.pick(&[1, 2, 8, 10, 10, 10, 46]);
    let mut keys = {
        let (draws, style) = (r.below(14), r.below(4));
        index::entries(r, k, draws, style)
    };
    r.shuffle(&mut keys);
    let width = r.between(5, 20);
    let decimals = if r.one_in(16) { r.below(4) } else { 3 };
    let (barcodes, concentrations) = (
        table::Column {
            kind: b'C',
            length: k as u8,
            decimals: 0,
        },
        table::Column {
            kind: b'N',
            length: width as u8,
            decimals: decimals as u8,
        },
    );
    let swapped = r.one_in(2);
    let columns = if swapped {
        [concentrations, barcodes]
    } else {
        [barcodes, concentrations]
    };
    let mut table = table::blank(&columns, 0x03, keys.len(), 0);
    for (i, e) in keys.iter_mut().enumerate() {
        let record = &mut table[97 + i * (1 + k + width)..][..1 + k + width];
        record[0] = r.pick(b"       *?");
        let (barcode, number) = if swapped { (1 + width, 1) } else { (1, 1 + k) };
        record[barcode..barcode + k].copy_from_slice(&e.0);
        record[number..number + width].copy_from_slice(&concentration(r, width));
        e.1 = i as u32 + 1;
    }
    let barcode = match r.below(8) {
        0 => {
            let length = r.pick(&[0, k, k - 1, k + 1]);
            r.bytes(length)
        }
        _ if keys.is_empty() => r.bytes(k),
        _ => {
            let i = r.below(keys.len());
            keys[i].0.clone()
        }
    };
    keys.sort();
    if r.one_in(12) {
        spoil_entries(r, k, &mut keys);
    }
    let mut index = index::tree(r, k, &keys, Fill::Any, 1);
    match r.below(24) {
        0 => table::damage(r, &mut table),
        1 => index::damage(r, &mut index),
        2 => index[14] = 0,
        _ => (),
    }
    let fields = if swapped { (2, 1) } else { (1, 2) };
    let near = |r: &mut Random, field: u32| {
        if r.one_in(24) {
            r.near(&[0, 1, 2, 3])
        } else {
            field
        }
    };
    let asked = calls::Dilution {
        fields: (near(r, fields.0), near(r, fields.1)),
        target: match r.below(8) {
            0 => r.pick(&[0, 1, 999_999_999, 1_000_000_000, 1_000_000_001, u64::MAX]),
            1 => r.bits() % 1_000_000_001,
            _ => 1 + r.bits() % 2000,
        },
        volume: match r.below(8) {
            0 => r.pick(&[0, 1, 9_999, 10_000, 10_001, u64::MAX]),
            _ => 1 + r.bits() % 10_000,
        },
    };
    let table = a.table.lend(&table, r.one_in(2));
    let index = a.index.lend(&index, r.one_in(2));
    let barcode = a.key.lend(&barcode, r.one_in(2));
    calls::dilute(tally, &table, &index, &barcode, &asked, r.word());
}
