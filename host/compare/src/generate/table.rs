//! Tables and memo files.
use super::text;
use crate::random::Random;

#[derive(Clone, Copy)]
pub struct Column {
    pub kind: u8,
    pub length: u8,
    pub decimals: u8,
}

pub fn column(r: &mut Random, kind: u8) -> Column {
    let (length, decimals) = match kind {
        b'C' if r.one_in(8) => (r.pick(&[1, 10, 46, 100, 253, 254]), 0),
        b'C' => (r.between(1, 12), 0),
        b'N' => {
            let length = r.between(1, 20);
            let most = length.saturating_sub(2).min(15);
            (length, if r.one_in(2) { 0 } else { r.below(most + 1) })
        }
        b'D' => (8, 0),
        b'L' => (1, 0),
        _ => (10, 0),
    };
    Column {
        kind,
        length: length as u8,
        decimals: decimals as u8,
    }
}

/// Sixteen C fields or so whose lengths make records about as long as any may be.
fn long_columns(r: &mut Random) -> Vec<Column> {
    let mut lengths = vec![250; 15];
    lengths.push(248 + r.below(4));
    if r.one_in(3) {
        let at = r.below(lengths.len());
        lengths[at] -= 1;
        lengths.push(1);
    }
    let c = |length: usize| Column {
        kind: b'C',
        length: length as u8,
        decimals: 0,
    };
    lengths.into_iter().map(c).collect()
}

pub fn columns(r: &mut Random, with_memo: bool) -> Vec<Column> {
    if !with_memo && r.one_in(60) {
        return long_columns(r);
    }
    let count = match r.below(100) {
        0 => 128,
        1..=2 => r.between(100, 128),
        3..=14 => r.between(7, 30),
        _ => r.between(1, 6),
    };
    let mut made: Vec<Column> = (0..count)
        .map(|_| {
            let kind = r.pick(b"CCCNNNNDDL");
            column(r, kind)
        })
        .collect();
    if with_memo {
        for _ in 0..r.between(1, 2) {
            let at = r.below(count);
            made[at] = column(r, b'M');
        }
    }
    made
}

/// Names that differ, some of them only in their last characters.
pub fn name(j: usize, shared: usize) -> [u8; 11] {
    let mut name = [0; 11];
    name[..shared].copy_from_slice(&b"SAMPLE_B"[..shared]);
    name[shared] = b'A' + (j / 26) as u8;
    name[shared + 1] = b'A' + (j % 26) as u8;
    name
}

/// A table's bytes: header and descriptors for the columns, and room for so many records, all blank.
pub fn blank(columns: &[Column], kind: u8, records: usize, shared: usize) -> Vec<u8> {
    let header = 33 + 32 * columns.len();
    let record = 1 + columns.iter().map(|c| c.length as usize).sum::<usize>();
    let mut t = vec![b' '; header + records * record];
    t[..header].fill(0);
    t[0] = kind;
    t[1..4].copy_from_slice(&[124, 2, 29]);
    t[4..8].copy_from_slice(&(records as u32).to_le_bytes());
    t[8..10].copy_from_slice(&(header as u16).to_le_bytes());
    t[10..12].copy_from_slice(&(record as u16).to_le_bytes());
    for (j, c) in columns.iter().enumerate() {
        let d = &mut t[32 + 32 * j..][..32];
        d[..11].copy_from_slice(&name(j, shared));
        d[11] = c.kind;
        d[16] = c.length;
        d[17] = c.decimals;
    }
    t[header - 1] = 0x0D;
    t
}

fn fill_cell(r: &mut Random, c: Column, cell: &mut [u8], memos: &[u64]) {
    match c.kind {
        b'C' => r.fill(cell),
        b'N' => cell.copy_from_slice(&text::number(r, cell.len(), c.decimals as u32)),
        b'D' => cell.copy_from_slice(&text::date(r)),
        b'L' => cell[0] = text::logical(r),
        _ => cell.copy_from_slice(&text::memo_number(r, memos)),
    }
}

/// Bytes of the header that no rule reads.
fn fill_unread(r: &mut Random, t: &mut [u8], fields: usize) {
    r.fill(&mut t[12..32]);
    for j in 0..fields {
        let d = &mut t[32 + 32 * j..][..32];
        r.fill(&mut d[12..16]);
        r.fill(&mut d[18..32]);
    }
}

/// A good table, its cells filled with texts that are mostly good.
pub fn table(r: &mut Random, memos: &[u64]) -> Vec<u8> {
    let with_memo = r.one_in(2);
    let columns = columns(r, with_memo);
    let records = match r.below(50) {
        0 => r.below(300),
        _ => r.below(7),
    };
    let kind = if with_memo { 0xF5 } else { 0x03 };
    let shared = r.below(9);
    let mut t = blank(&columns, kind, records, shared);
    if r.one_in(2) {
        fill_unread(r, &mut t, columns.len());
    }
    t[1..4].copy_from_slice(&[r.byte(), r.between(1, 12) as u8, r.between(1, 28) as u8]);
    let marks: &[u8] = r.pick(&[b"   *" as &[u8], b" *", b"*", b"  *\0", b"***+"]);
    let mut at = 33 + 32 * columns.len();
    for _ in 0..records {
        t[at] = r.pick(marks);
        at += 1;
        for &c in &columns {
            let length = c.length as usize;
            fill_cell(r, c, &mut t[at..at + length], memos);
            at += length;
        }
    }
    if r.one_in(2) {
        t.push(0x1A);
    }
    t
}

/// The columns of a table, as its descriptors have them.
fn columns_of(t: &[u8]) -> Vec<Column> {
    let header = u16::from_le_bytes([t[8], t[9]]) as usize;
    let column = |d: &[u8]| Column {
        kind: d[11],
        length: d[16],
        decimals: d[17],
    };
    t[32..header - 1].chunks_exact(32).map(column).collect()
}

/// A list of fields as its entries' bytes: those of a table's descriptors, damaged now and then, or too few or too many.
pub fn field_list(r: &mut Random) -> Vec<u8> {
    let with_memo = r.one_in(4);
    let mut columns = columns(r, with_memo);
    match r.below(30) {
        0 => columns.clear(),
        1 => {
            let one = column(r, b'L');
            columns.resize(r.between(127, 130), one);
        }
        _ => (),
    }
    let shared = r.below(9);
    let mut t = blank(&columns, 0x03, 0, shared);
    if r.one_in(4) {
        damage_descriptor(r, &mut t);
    }
    // the offset is any: laying out does not read it
    let entry = |d: &[u8]| [&d[..12], &d[16..18], &r.bytes(2)].concat();
    t[32..].chunks_exact(32).flat_map(entry).collect()
}

/// A text that is read for what it is.
fn fill_good(r: &mut Random, c: Column, cell: &mut [u8]) {
    match c.kind {
        b'C' => r.fill(cell),
        b'N' => cell.copy_from_slice(&text::good_number(r, cell.len(), c.decimals as u32)),
        b'D' => cell.copy_from_slice(&text::good_date(r)),
        b'L' => cell[0] = r.pick(b"TF "),
        _ => cell.copy_from_slice(&text::good_memo_number(r)),
    }
}

/// A record for a good table: good, or with a text, the deletion byte or the length that may be bad.
pub fn record(r: &mut Random, t: &[u8]) -> Vec<u8> {
    let columns = columns_of(t);
    let bad = match r.below(3) {
        0 => Some(r.below(columns.len())),
        _ => None,
    };
    let mut made = vec![r.pick(b" *")];
    for (j, &c) in columns.iter().enumerate() {
        let mut cell = vec![0; c.length as usize];
        if bad == Some(j) {
            fill_cell(r, c, &mut cell, &[1, 16]);
        } else {
            fill_good(r, c, &mut cell);
        }
        made.extend(cell);
    }
    match r.below(24) {
        0 => made[0] = r.byte(),
        1 => made.push(b' '),
        2 => {
            made.pop();
        }
        3 => made.clear(),
        _ => (),
    }
    made
}

/// A record count that gives the same length as the true one where the product is cut to 32 bits.
fn wrapped_count(r: &mut Random, t: &[u8]) -> u32 {
    let count = u32::from_le_bytes(t[4..8].try_into().unwrap());
    let record = u16::from_le_bytes(t[10..12].try_into().unwrap()).max(1);
    let step = 1u64 << (32 - record.trailing_zeros());
    (count as u64 + step * r.between(1, 3) as u64) as u32
}

fn damage_descriptor(r: &mut Random, t: &mut [u8]) {
    let fields = (t.len() - 33) / 32;
    let listed = (u16::from_le_bytes([t[8], t[9]]) as usize).saturating_sub(33) / 32;
    let fields = fields.min(listed);
    if fields == 0 {
        return;
    }
    let (j, other) = (r.below(fields), r.below(fields));
    let at = 32 + 32 * j;
    match r.below(8) {
        0 => t.copy_within(32 + 32 * other..32 + 32 * other + 11, at),
        1 => t[at + 11] = r.pick(b"CNDLMFPcn\0"),
        2 => t[at + 16] = r.pick(&[0, 1, 2, 8, 10, 20, 21, 254, 255]),
        3 => t[at + 17] = r.pick(&[0, 1, 2, 15, 16, 18, 255]),
        4 => t[at + 10] = r.pick(b"\0A1"),
        _ => t[at + r.below(11)] = r.pick(b"\0A_Z09a[@/: \xC1"),
    }
}

/// One change in the numbers of the header, near what they should be.
fn damage_numbers(r: &mut Random, t: &mut [u8]) {
    let header = u16::from_le_bytes([t[8], t[9]]);
    match r.below(4) {
        0 => {
            let count = wrapped_count(r, t);
            t[4..8].copy_from_slice(&count.to_le_bytes());
        }
        1 => t[r.between(4, 7)] = r.pick(&[0, 1, 2, 127, 128, 255]),
        2 => {
            let step = r.pick(&[1, 32, 0xFFFF, 0xFFE0]);
            let near = r.pick(&[header.wrapping_add(step), 0, 33, 65, 4129, 4161, 0xFFFF]);
            t[8..10].copy_from_slice(&near.to_le_bytes());
        }
        _ => t[r.between(10, 11)] = r.byte(),
    }
}

/// One change near a rule of the table's checks, or anywhere.
pub fn damage(r: &mut Random, t: &mut Vec<u8>) {
    if t.len() < 65 {
        return;
    }
    match r.below(14) {
        0 => t[0] = r.pick(&[0x03, 0xF5, 0x83, 0x04, 0x02, 0xF4, 0x30]),
        1 => t[r.between(1, 3)] = r.pick(&[0, 1, 2, 4, 12, 13, 28, 29, 30, 31, 32, 100, 200, 255]),
        2 => t[1..4].copy_from_slice(&[r.pick(&[0, 96, 100, 123, 124, 200]), 2, 29]),
        3..=6 => damage_numbers(r, t),
        7 => {
            let header = u16::from_le_bytes([t[8], t[9]]) as usize;
            if let Some(mark) = t.get_mut(header.wrapping_sub(1)) {
                *mark = r.pick(&[0x01, 0x0D, 0x0A, 0x00]);
            }
        }
        8 => t.push(r.pick(&[0x1A, 0x00, 0x20])),
        9 => t.truncate(r.below(t.len() + 1)),
        10 => {
            t.pop();
        }
        11 => {
            let at = r.below(t.len());
            t[at] = r.byte();
        }
        _ => damage_descriptor(r, t),
    }
}

/// A memo file, and numbers of places in it that are worth naming.
pub fn memo(r: &mut Random) -> (Vec<u8>, Vec<u64>) {
    let size: usize = match r.below(8) {
        0 => r.pick(&[0, 30, 31, 33, 513, 16_384, 16_386, 65_535]),
        1 => 2 * r.below(200),
        _ => r.pick(&[32, 34, 64, 512]),
    };
    let length = match r.below(16) {
        0 => r.pick(&[0, 1, 7, 8, 511, 512, 513, 519, 520, 521]),
        _ => 512 + r.below(1200),
    };
    let mut m = vec![0; length];
    if r.one_in(4) {
        r.fill(&mut m);
    }
    let step = size.max(1);
    let last = length.saturating_sub(8) / step;
    let mut near = vec![(512 / step) as u64, (length / step) as u64, last as u64];
    if length >= 512 {
        m[6..8].copy_from_slice(&(size as u16).to_be_bytes());
        place_blocks(r, &mut m, step, &mut near);
    }
    (m, near)
}

/// Blocks at multiples of the size, and the number of the next free one.
fn place_blocks(r: &mut Random, m: &mut [u8], step: usize, near: &mut Vec<u64>) {
    let blocks = m.len() / step;
    let free = match r.below(8) {
        0 => r.near(&[0, blocks as u32]),
        1 => r.below(blocks + 1) as u32,
        2 => (1u64 << (32 - step.trailing_zeros())) as u32,
        _ => blocks as u32 + 1,
    };
    m[..4].copy_from_slice(&free.to_be_bytes());
    for _ in 0..r.below(5) {
        let number = r.below(blocks + 1);
        let at = number * step;
        if at < 512 || at + 8 > m.len() {
            continue;
        }
        near.push(number as u64);
        // the same number, or the same place, where 32 bits are kept of it
        near.push(number as u64 + (1 << 32));
        near.push(number as u64 + (1 << (32 - step.trailing_zeros())));
        place_block(r, m, at, free as usize * step);
    }
}

/// A block whose text ends before, at or past the file's end or the first free block.
fn place_block(r: &mut Random, m: &mut [u8], at: usize, free: usize) {
    let room = m.len() - at - 8;
    let to_free = free.saturating_sub(at + 8);
    let text = match r.below(8) {
        0 => r.near(&[0, room as u32, to_free as u32]),
        1 => room as u32,
        2 => to_free as u32,
        3 => 0,
        _ => r.below(room + 2) as u32,
    };
    let kind = r.pick(&[1, 1, 1, 1, 1, 0, 2, 0x0100_0000, 0x0001_0001]);
    m[at..at + 4].copy_from_slice(&u32::to_be_bytes(kind));
    m[at + 4..at + 8].copy_from_slice(&text.to_be_bytes());
}
