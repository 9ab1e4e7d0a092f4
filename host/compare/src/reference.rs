//! Documents 01 and 02 in plain Rust, written from the papers and sharing nothing with the proved library: what that is compared with.
pub mod ndx;

/// A refusal's number.
pub type Refusal = u32;

// ---- the table

#[derive(Clone, Copy, Debug, PartialEq, Eq)]
pub struct Shape {
    pub kind: u8,
    pub records: u32,
    pub fields: usize,
    pub header_length: usize,
    pub record_length: usize,
}

impl Shape {
    /// H + n * R.
    fn end(&self) -> u64 {
        self.header_length as u64 + self.records as u64 * self.record_length as u64
    }
}

#[repr(C)]
#[derive(Clone, Copy, Debug, PartialEq, Eq)]
pub struct Field {
    pub name: [u8; 11],
    pub kind: u8,
    pub length: u8,
    pub decimals: u8,
    pub offset: u16,
}

fn le16(b: &[u8], at: usize) -> u32 {
    u16::from_le_bytes([b[at], b[at + 1]]) as u32
}

fn le32(b: &[u8], at: usize) -> u32 {
    u32::from_le_bytes([b[at], b[at + 1], b[at + 2], b[at + 3]])
}

fn be32(b: &[u8], at: usize) -> u32 {
    u32::from_be_bytes([b[at], b[at + 1], b[at + 2], b[at + 3]])
}

fn put_le16(b: &mut [u8], at: usize, x: u32) {
    b[at..at + 2].copy_from_slice(&(x as u16).to_le_bytes());
}

fn put_le32(b: &mut [u8], at: usize, x: u32) {
    b[at..at + 4].copy_from_slice(&x.to_le_bytes());
}

const MONTHS: [u32; 12] = [31, 28, 31, 30, 31, 30, 31, 31, 30, 31, 30, 31];

pub fn is_date(year: u32, month: u32, day: u32) -> bool {
    let leap = year.is_multiple_of(4) && (!year.is_multiple_of(100) || year.is_multiple_of(400));
    if !(1..=12).contains(&month) || day == 0 {
        return false;
    }
    day <= MONTHS[month as usize - 1] + (leap && month == 2) as u32
}

fn number_format_good(width: usize, decimals: u32) -> bool {
    (1..=20).contains(&width)
        && (decimals == 0 || (decimals <= 15 && decimals as usize + 2 <= width))
}

fn name_good(name: &[u8]) -> bool {
    let len = name.iter().position(|&c| c == 0).unwrap_or(11);
    (1..=10).contains(&len)
        && name[0].is_ascii_uppercase()
        && name[..len]
            .iter()
            .all(|c| c.is_ascii_uppercase() || c.is_ascii_digit() || *c == b'_')
        && name[len..].iter().all(|&c| c == 0)
}

fn descriptor_good(d: &[u8]) -> bool {
    let (kind, length, decimals) = (d[11], d[16] as usize, d[17] as u32);
    name_good(&d[..11])
        && match kind {
            b'N' => number_format_good(length, decimals),
            b'C' => (1..=254).contains(&length) && decimals == 0,
            b'D' => length == 8 && decimals == 0,
            b'L' => length == 1 && decimals == 0,
            b'M' => length == 10 && decimals == 0,
            _ => false,
        }
}

/// Checks 1 to 5, and the header's length.
fn header_length(t: &[u8]) -> Result<usize, Refusal> {
    if t.len() < 32 || t.len() > TABLE_MOST {
        return Err(1);
    }
    if t[0] != 0x03 && t[0] != 0xF5 {
        return Err(2);
    }
    if !is_date(1900 + t[1] as u32, t[2] as u32, t[3] as u32) {
        return Err(3);
    }
    let header = le16(t, 8) as usize;
    if header < 65
        || !(header - 33).is_multiple_of(32)
        || (header - 33) / 32 > 128
        || header > t.len()
    {
        return Err(4);
    }
    if t[header - 1] != 0x0D {
        return Err(5);
    }
    Ok(header)
}

fn names_differ(t: &[u8], fields: usize) -> bool {
    let name = |j: usize| &t[32 + 32 * j..][..11];
    (0..fields).all(|i| (i + 1..fields).all(|j| name(i) != name(j)))
}

/// Checks 1 to 9: all but the table's length.
fn check_form(t: &[u8]) -> Result<Shape, Refusal> {
    let header = header_length(t)?;
    let fields = (header - 33) / 32;
    let descriptors = || t[32..header - 1].chunks_exact(32);
    if !descriptors().all(descriptor_good) {
        return Err(6);
    }
    if !names_differ(t, fields) {
        return Err(7);
    }
    if descriptors().any(|d| d[11] == b'M') != (t[0] == 0xF5) {
        return Err(8);
    }
    let record = le16(t, 10) as usize;
    if record != 1 + descriptors().map(|d| d[16] as usize).sum::<usize>() || record > 4000 {
        return Err(9);
    }
    Ok(Shape {
        kind: t[0],
        records: le32(t, 4),
        fields,
        header_length: header,
        record_length: record,
    })
}

/// Checks 1 to 10.
pub fn check_table(t: &[u8]) -> Result<Shape, Refusal> {
    let shape = check_form(t)?;
    let (end, len) = (shape.end(), t.len() as u64);
    if len != end && !(len == end + 1 && t[end as usize] == 0x1A) {
        return Err(10);
    }
    Ok(shape)
}

fn field_from(t: &[u8], j: usize, offset: u16) -> Field {
    let d = &t[32 + 32 * j..][..32];
    Field {
        name: d[..11].try_into().unwrap(),
        kind: d[11],
        length: d[16],
        decimals: d[17],
        offset,
    }
}

fn field_at(t: &[u8], j: usize) -> Field {
    let before: u16 = (0..j).map(|i| t[32 + 32 * i + 16] as u16).sum();
    field_from(t, j, 1 + before)
}

/// The field list: 1 to 10, then 14.
pub fn list_fields(t: &[u8], entries: &mut [Field]) -> Result<(), Refusal> {
    let shape = check_table(t)?;
    if entries.len() < shape.fields {
        return Err(14);
    }
    let mut offset = 1;
    for (j, e) in entries[..shape.fields].iter_mut().enumerate() {
        *e = field_from(t, j, offset);
        offset += e.length as u16;
    }
    Ok(())
}

#[derive(Clone, Copy, Debug, PartialEq, Eq)]
pub enum Step {
    Record { number: u32, deleted: bool },
    Done,
    Refused(Refusal),
}

/// One step of the walk over every record; the position is moved on the spot.
pub fn walk(t: &[u8], passed: &mut u32) -> Step {
    let shape = match check_table(t) {
        Ok(shape) => shape,
        Err(n) => return Step::Refused(n),
    };
    if *passed >= shape.records {
        return Step::Done;
    }
    let mark = t[shape.header_length + *passed as usize * shape.record_length];
    *passed += 1;
    match mark {
        0x20 | 0x2A => Step::Record {
            number: *passed,
            deleted: mark == 0x2A,
        },
        _ => Step::Refused(15),
    }
}

/// One step of the walk that skips deleted records.
pub fn walk_live(t: &[u8], passed: &mut u32) -> Step {
    let shape = match check_table(t) {
        Ok(shape) => shape,
        Err(n) => return Step::Refused(n),
    };
    let mut i = *passed;
    while i < shape.records {
        let mark = t[shape.header_length + i as usize * shape.record_length];
        i += 1;
        match mark {
            0x2A => continue,
            0x20 => {
                *passed = i;
                return Step::Record {
                    number: i,
                    deleted: false,
                };
            }
            _ => {
                *passed = i;
                return Step::Refused(15);
            }
        }
    }
    Step::Done
}

/// A field of a record: its entry, and where its bytes start. 1 to 13, 15.
fn cell(t: &[u8], record: u32, field: u32, kinds: &[u8]) -> Result<(Field, usize), Refusal> {
    let shape = check_table(t)?;
    if record == 0 || record > shape.records {
        return Err(11);
    }
    if field == 0 || field as usize > shape.fields {
        return Err(12);
    }
    let j = field as usize - 1;
    let entry = field_at(t, j);
    if !kinds.contains(&entry.kind) {
        return Err(13);
    }
    let start = shape.header_length + (record as usize - 1) * shape.record_length;
    if t[start] != 0x20 && t[start] != 0x2A {
        return Err(15);
    }
    Ok((entry, start + entry.offset as usize))
}

/// A number in units of 10 to the -d; `None` for an empty field.
pub fn read_number(t: &[u8], record: u32, field: u32) -> Result<Option<i64>, Refusal> {
    let (entry, at) = cell(t, record, field, b"N")?;
    number_read(&t[at..at + entry.length as usize], entry.decimals as u32)
}

pub fn read_date(t: &[u8], record: u32, field: u32) -> Result<Option<(u32, u32, u32)>, Refusal> {
    let (_, at) = cell(t, record, field, b"D")?;
    date_text(&t[at..at + 8])
}

fn date_text(text: &[u8]) -> Result<Option<(u32, u32, u32)>, Refusal> {
    if text.iter().all(|&c| c == b' ') {
        return Ok(None);
    }
    if !text.iter().all(u8::is_ascii_digit) {
        return Err(20);
    }
    let n = |part: &[u8]| part.iter().fold(0, |n, c| 10 * n + (c - b'0') as u32);
    let (year, month, day) = (n(&text[..4]), n(&text[4..6]), n(&text[6..]));
    if year == 0 || !is_date(year, month, day) {
        return Err(20);
    }
    Ok(Some((year, month, day)))
}

pub fn read_logical(t: &[u8], record: u32, field: u32) -> Result<Option<bool>, Refusal> {
    let (_, at) = cell(t, record, field, b"L")?;
    logical_text(t[at])
}

fn logical_text(text: u8) -> Result<Option<bool>, Refusal> {
    match text {
        b'T' => Ok(Some(true)),
        b'F' => Ok(Some(false)),
        b' ' => Ok(None),
        _ => Err(20),
    }
}

/// The number of a memo's block.
fn memo_number(text: &[u8]) -> Result<Option<u64>, Refusal> {
    let Some(first) = text.iter().position(|&c| c != b' ') else {
        return Ok(None);
    };
    let digits = &text[first..];
    if digits[0] == b'0' || !digits.iter().all(u8::is_ascii_digit) {
        return Err(21);
    }
    let number = digits.iter().fold(0u64, |n, c| 10 * n + (c - b'0') as u64);
    Ok(Some(number))
}

/// Where a text lies: in the table, or in the memo file.
pub fn text_part(
    t: &[u8],
    memo: &[u8],
    record: u32,
    field: u32,
) -> Result<Option<(usize, usize)>, Refusal> {
    let (entry, at) = cell(t, record, field, b"CM")?;
    if entry.kind == b'C' {
        return Ok(Some((at, entry.length as usize)));
    }
    let Some(number) = memo_number(&t[at..at + 10])? else {
        return Ok(None);
    };
    if memo.len() < 512 || memo.len() > 16_777_216 {
        return Err(22);
    }
    let size = u16::from_be_bytes([memo[6], memo[7]]) as u64;
    if !size.is_multiple_of(2) || !(32..=16_384).contains(&size) {
        return Err(22);
    }
    let (start, len) = (number * size, memo.len() as u64);
    if start < 512 || start + 8 > len {
        return Err(21);
    }
    let at = start as usize;
    let length = be32(memo, at + 4) as u64;
    if start + 8 + length > len || start + 8 + length > be32(memo, 0) as u64 * size {
        return Err(21);
    }
    if be32(memo, at) != 1 {
        return Err(23);
    }
    Ok(Some((at + 8, length as usize)))
}

// ---- writing a table

const TABLE_MOST: usize = 16_777_216;

/// The table in a buffer's first `length` bytes: 10 if there are fewer, then 1 to 10.
fn check_held(buffer: &[u8], length: usize) -> Result<Shape, Refusal> {
    check_table(buffer.get(..length).ok_or(10u32)?)
}

/// A field's text, as reading takes it: 16 to 18, 20, or 21 for the form of a memo's number.
fn check_text(field: &Field, text: &[u8]) -> Result<(), Refusal> {
    match field.kind {
        b'N' => number_read(text, field.decimals as u32).map(|_| ()),
        b'D' => date_text(text).map(|_| ()),
        b'L' => logical_text(text[0]).map(|_| ()),
        b'M' => memo_number(text).map(|_| ()),
        _ => Ok(()),
    }
}

/// Bytes that were written: their place, and how many they are.
pub type Store = (u64, u64);

/// Appends a record, and gives the record's store and the count's.
pub fn append(buffer: &mut [u8], length: usize, record: &[u8]) -> Result<[Store; 2], Refusal> {
    let shape = check_held(buffer, length)?;
    if record.len() != shape.record_length {
        return Err(9);
    }
    if record[0] != 0x20 && record[0] != 0x2A {
        return Err(15);
    }
    let mut start = 1;
    for j in 0..shape.fields {
        let field = field_from(buffer, j, start as u16);
        let end = start + field.length as usize;
        check_text(&field, &record[start..end])?;
        start = end;
    }
    let place = shape.end() as usize;
    let mark = place + record.len();
    if mark + 1 > buffer.len() || mark + 1 > TABLE_MOST {
        return Err(30);
    }
    buffer[place..mark].copy_from_slice(record);
    buffer[mark] = 0x1A;
    put_le32(buffer, 4, shape.records + 1);
    Ok([(place as u64, record.len() as u64 + 1), (4, 4)])
}

/// An update date's bytes in the header, or 3.
fn date_bytes(year: u32, month: u32, day: u32) -> Result<[u8; 3], Refusal> {
    if !(1900..=2155).contains(&year) || !is_date(year, month, day) {
        return Err(3);
    }
    Ok([(year - 1900) as u8, month as u8, day as u8])
}

/// Lays out a table of no records: 3, 4 for the number of fields, 6, 7, 9, 30.
pub fn lay_out(
    buffer: &mut [u8],
    fields: &[Field],
    (year, month, day): (u32, u32, u32),
) -> Result<(), Refusal> {
    let date = date_bytes(year, month, day)?;
    if fields.is_empty() || fields.len() > 128 {
        return Err(4);
    }
    let header = 33 + 32 * fields.len();
    let mut t = vec![0; header + 1];
    for (d, field) in t[32..].chunks_exact_mut(32).zip(fields) {
        d[..11].copy_from_slice(&field.name);
        d[11] = field.kind;
        d[16] = field.length;
        d[17] = field.decimals;
    }
    if !t[32..].chunks_exact(32).all(descriptor_good) {
        return Err(6);
    }
    if !names_differ(&t, fields.len()) {
        return Err(7);
    }
    let record = 1 + fields.iter().map(|f| f.length as u32).sum::<u32>();
    if record > 4000 {
        return Err(9);
    }
    let made = buffer.get_mut(..=header).ok_or(30u32)?;
    let memo = fields.iter().any(|f| f.kind == b'M');
    t[0] = if memo { 0xF5 } else { 0x03 };
    t[1..4].copy_from_slice(&date);
    put_le16(&mut t, 8, header as u32);
    put_le16(&mut t, 10, record);
    t[header - 1] = 0x0D;
    t[header] = 0x1A;
    made.copy_from_slice(&t);
    Ok(())
}

/// Sets the update date: append's checks of the table, then 3.
pub fn set_date(
    buffer: &mut [u8],
    length: usize,
    (year, month, day): (u32, u32, u32),
) -> Result<(), Refusal> {
    check_held(buffer, length)?;
    let bytes = date_bytes(year, month, day)?;
    buffer[1..4].copy_from_slice(&bytes);
    Ok(())
}

/// The length that a file is shortened to after a power loss: 1 to 9, then 10 if the file is shorter.
pub fn extent(file: &[u8]) -> Result<u64, Refusal> {
    let shape = check_form(file)?;
    if shape.end() > file.len() as u64 {
        return Err(10);
    }
    Ok(shape.end())
}

// ---- numeric text

const PAST_DIGITS: u64 = 1_000_000_000_000_000_000;

pub fn number_read(text: &[u8], decimals: u32) -> Result<Option<i64>, Refusal> {
    if !number_format_good(text.len(), decimals) {
        return Err(6);
    }
    let Some(first) = text.iter().position(|&c| c != b' ') else {
        return Ok(None);
    };
    if text.contains(&b',') {
        return Err(16);
    }
    let t = &text[first..];
    let (negative, t) = match t.strip_prefix(b"-") {
        Some(rest) => (true, rest),
        None => (false, t),
    };
    let (value, large) = digits(t, decimals as usize).ok_or(17u32)?;
    if negative && value == 0 && !large {
        return Err(17);
    }
    if large {
        return Err(18);
    }
    Ok(Some(if negative {
        -(value as i64)
    } else {
        value as i64
    }))
}

/// The digits of a whole part, and of d decimals behind a point, as a number, and whether there are more than 18 of them. The whole part may be missing if d
/// is above 0 and a digit isn't zero.
fn digits(t: &[u8], d: usize) -> Option<(u64, bool)> {
    let whole = if d == 0 {
        t
    } else {
        if t.len() <= d || t[t.len() - d - 1] != b'.' {
            return None;
        }
        &t[..t.len() - d - 1]
    };
    let fraction = &t[t.len() - d..];
    match whole {
        [] if d == 0 || fraction.iter().all(|&c| c == b'0') => return None,
        [b'0', _, ..] => return None,
        _ => (),
    }
    let mut value: u64 = 0;
    let mut large = false;
    for c in whole.iter().chain(fraction) {
        if !c.is_ascii_digit() {
            return None;
        }
        large |= value >= PAST_DIGITS / 10;
        value = value.wrapping_mul(10).wrapping_add((c - b'0') as u64);
    }
    Some((value, large))
}

pub fn number_write(text: &mut [u8], decimals: u32, value: i64) -> Result<(), Refusal> {
    if !number_format_good(text.len(), decimals) {
        return Err(6);
    }
    let magnitude = value.unsigned_abs();
    if magnitude >= PAST_DIGITS {
        return Err(18);
    }
    let d = decimals as usize;
    let mut out = [b' '; 24];
    let mut at = out.len();
    let mut rest = magnitude;
    let mut digits = 0;
    while digits <= d || rest > 0 {
        if digits == d && d > 0 {
            at -= 1;
            out[at] = b'.';
        }
        at -= 1;
        out[at] = b'0' + (rest % 10) as u8;
        rest /= 10;
        digits += 1;
    }
    if value < 0 {
        at -= 1;
        out[at] = b'-';
    }
    let made = &out[at..];
    if made.len() > text.len() {
        return Err(19);
    }
    let blanks = text.len() - made.len();
    text[..blanks].fill(b' ');
    text[blanks..].copy_from_slice(made);
    Ok(())
}

// ---- the index

pub const NONE: u32 = 0xFFFF_FFFF;

const MAX_BYTES: u32 = 16_777_216;
const MAX_LEVELS: usize = 15;

struct Head {
    root: u32,
    free: u32,
    size: u32,
    k: usize,
    /// Features 0: a key may have several records.
    several: bool,
}

fn is_page(size: u32, p: u32) -> bool {
    p.is_multiple_of(512) && p >= 512 && p < size
}

fn header(b: &[u8]) -> Option<Head> {
    if b.len() < 512 {
        return None;
    }
    let head = Head {
        root: le32(b, 0),
        free: le32(b, 4),
        size: le32(b, 8),
        k: le16(b, 12) as usize,
        several: b[14] == 0,
    };
    let good = head.size.is_multiple_of(512)
        && (1024..=MAX_BYTES).contains(&head.size)
        && head.size as usize <= b.len()
        && is_page(head.size, head.root)
        && (head.free == NONE || is_page(head.size, head.free))
        && (1..=100).contains(&head.k)
        && b[14] <= 1;
    good.then_some(head)
}

fn capacity(k: usize) -> usize {
    500 / (k + 4)
}

/// A key with its record: pairs are ordered by key, then record number.
type Pair<'a> = (&'a [u8], u32);

struct Page<'a> {
    bytes: &'a [u8],
    k: usize,
}

impl<'a> Page<'a> {
    fn at(b: &'a [u8], k: usize, p: u32) -> Page<'a> {
        Page {
            bytes: &b[p as usize..p as usize + 512],
            k,
        }
    }

    fn attribute(&self) -> u32 {
        le16(self.bytes, 0)
    }

    fn leaf(&self) -> bool {
        self.attribute() & 2 != 0
    }

    fn count(&self) -> usize {
        le16(self.bytes, 2) as usize
    }

    fn left(&self) -> u32 {
        le32(self.bytes, 4)
    }

    fn right(&self) -> u32 {
        le32(self.bytes, 8)
    }

    /// The entries, as many as the count says: it is tested first.
    fn entries(&self) -> impl Iterator<Item = &'a [u8]> {
        self.bytes[12..].chunks_exact(self.k + 4).take(self.count())
    }

    /// The first entry at or above the key.
    fn reach(&self, key: &[u8]) -> Option<usize> {
        self.entries().position(|e| &e[..self.k] >= key)
    }

    fn key(&self, i: usize) -> &'a [u8] {
        &self.bytes[12 + i * (self.k + 4)..][..self.k]
    }

    fn number(&self, i: usize) -> u32 {
        be32(self.bytes, 12 + i * (self.k + 4) + self.k)
    }

    fn pair(&self, i: usize) -> Pair<'a> {
        (self.key(i), self.number(i))
    }

    fn count_good(&self) -> bool {
        let n = self.count();
        n <= capacity(self.k) && (n >= 1 || self.attribute() == 3)
    }
}

/// 24, 25, or sound.
pub fn audit(b: &[u8]) -> Result<(), Refusal> {
    let head = header(b).ok_or(24u32)?;
    if sound(b, &head) {
        Ok(())
    } else {
        Err(25)
    }
}

fn sound(b: &[u8], head: &Head) -> bool {
    let mut reached = vec![false; head.size as usize / 512];
    let mut level = vec![head.root];
    for depth in 1..=MAX_LEVELS {
        let Some(leaf) = level_good(b, head, &level, depth == 1, &mut reached) else {
            return false;
        };
        if leaf {
            return leaves_good(b, head, &level)
                && free_list_good(b, head, &mut reached)
                && reached[1..].iter().all(|&r| r)
                && leaf_bounds(b, head, head.root).is_some();
        }
        let Some(below) = children(b, head, &level) else {
            return false;
        };
        level = below;
    }
    false
}

/// Whether the pages of a level are leaves, if each of them is good by its header and reached for the first time.
fn level_good(
    b: &[u8],
    head: &Head,
    level: &[u32],
    top: bool,
    reached: &mut [bool],
) -> Option<bool> {
    let mut leaf = None;
    for (i, &p) in level.iter().enumerate() {
        if !is_page(head.size, p) || reached[p as usize / 512] {
            return None;
        }
        reached[p as usize / 512] = true;
        let page = Page::at(b, head.k, p);
        let left = if i == 0 { NONE } else { level[i - 1] };
        let right = level.get(i + 1).copied().unwrap_or(NONE);
        let a = page.attribute();
        if a > 3
            || (a & 1 == 1) != top
            || *leaf.get_or_insert(page.leaf()) != page.leaf()
            || !page.count_good()
            || page.left() != left
            || page.right() != right
        {
            return None;
        }
    }
    leaf
}

/// The children of a level's pages, if there are no more than pages in the file.
fn children(b: &[u8], head: &Head, level: &[u32]) -> Option<Vec<u32>> {
    let mut below = Vec::new();
    for &p in level {
        let page = Page::at(b, head.k, p);
        below.extend((0..page.count()).map(|i| page.number(i)));
        if below.len() > head.size as usize / 512 {
            return None;
        }
    }
    Some(below)
}

/// Whether each page of the free list is reached for the first time and is zero but for bytes 8 to 11, which name the next or none.
fn free_list_good(b: &[u8], head: &Head, reached: &mut [bool]) -> bool {
    let mut p = head.free;
    while p != NONE {
        if !is_page(head.size, p) || reached[p as usize / 512] {
            return false;
        }
        reached[p as usize / 512] = true;
        let page = &b[p as usize..][..512];
        if page[..8].iter().chain(&page[12..]).any(|&c| c != 0) {
            return false;
        }
        p = le32(page, 8);
    }
    true
}

/// The first and the last leaf key under a page of a tree of good shape, if each key above a child is at or above the leaf keys under the child, and below
/// those under the next child of its page; with several records to a key, it may equal them.
fn leaf_bounds<'a>(b: &'a [u8], head: &Head, p: u32) -> Option<(&'a [u8], &'a [u8])> {
    let page = Page::at(b, head.k, p);
    if page.leaf() {
        let mut keys = page.entries().map(|e| &e[..head.k]);
        let first = keys.next().unwrap_or(&[]);
        return Some((first, keys.last().unwrap_or(first)));
    }
    let (first, mut last) = leaf_bounds(b, head, page.number(0))?;
    for i in 1..page.count() {
        let (low, high) = leaf_bounds(b, head, page.number(i))?;
        let above = page.key(i - 1);
        if above < last || above > low || (above == low && !head.several) {
            return None;
        }
        last = high;
    }
    (page.key(page.count() - 1) >= last).then_some((first, last))
}

/// Whether the leaves' keys ascend, or their pairs if a key may have several records, and no record is 0.
fn leaves_good(b: &[u8], head: &Head, leaves: &[u32]) -> bool {
    let mut last: Option<Pair> = None;
    for &p in leaves {
        let page = Page::at(b, head.k, p);
        for entry in page.entries() {
            let pair = (&entry[..head.k], be32(entry, head.k));
            let ascends = match last {
                None => true,
                Some(last) if head.several => last < pair,
                Some(last) => last.0 < pair.0,
            };
            if !ascends || pair.1 == 0 {
                return false;
            }
            last = Some(pair);
        }
    }
    true
}

#[derive(Clone, Copy, Debug, PartialEq, Eq)]
pub enum Looked {
    Found(u32, u32),
    Absent(u32),
    Refused(Refusal),
}

/// Page p as the lookup reads it, if its number, attribute and count are good; only the first is the root.
fn visited<'a>(b: &'a [u8], head: &Head, p: u32, first: bool) -> Option<Page<'a>> {
    if !is_page(head.size, p) {
        return None;
    }
    let page = Page::at(b, head.k, p);
    let a = page.attribute();
    (a <= 3 && (a & 1 == 1) == first && page.count_good()).then_some(page)
}

pub fn lookup(b: &[u8], key: &[u8]) -> Looked {
    let Some(head) = header(b) else {
        return Looked::Refused(24);
    };
    if key.len() != head.k {
        return Looked::Refused(27);
    }
    let mut p = head.root;
    for pages in 1..=MAX_LEVELS as u32 {
        let Some(page) = visited(b, &head, p, pages == 1) else {
            return Looked::Refused(25);
        };
        if pages == MAX_LEVELS as u32 && !page.leaf() {
            return Looked::Refused(25);
        }
        let i = match page.reach(key) {
            Some(i) => i,
            None if pages == 1 || !head.several => return Looked::Absent(pages),
            None if page.leaf() => return lookup_beside(b, &head, page.right(), key, pages),
            None => page.count() - 1,
        };
        if page.leaf() {
            return decided(&page, i, key, pages);
        }
        p = page.number(i);
    }
    unreachable!("the last page is a leaf")
}

/// What an entry of a leaf says of a key that all entries before it are below.
fn decided(leaf: &Page, i: usize, key: &[u8], pages: u32) -> Looked {
    if leaf.key(i) == key {
        Looked::Found(leaf.number(i), pages)
    } else {
        Looked::Absent(pages)
    }
}

/// The lookup's step from a leaf whose entries are all below the key to its right neighbour p, whose first entry decides.
fn lookup_beside(b: &[u8], head: &Head, p: u32, key: &[u8], pages: u32) -> Looked {
    if p == NONE {
        return Looked::Absent(pages);
    }
    match visited(b, head, p, false) {
        Some(page) if page.leaf() => decided(&page, 0, key, pages + 1),
        _ => Looked::Refused(25),
    }
}

pub fn fresh(b: &mut [u8], k: u32, features: u32, expression: &[u8]) -> Result<(), Refusal> {
    if !(1..=100).contains(&k) {
        return Err(27);
    }
    if !(1..=220).contains(&expression.len())
        || !expression.iter().all(|c| (0x20..=0x7E).contains(c))
        || features > 1
    {
        return Err(24);
    }
    if b.len() < 1024 {
        return Err(30);
    }
    b[..1024].fill(0);
    put_le32(b, 0, 512);
    put_le32(b, 4, NONE);
    put_le32(b, 8, 1024);
    put_le16(b, 12, k);
    b[14] = features as u8;
    b[16..16 + expression.len()].copy_from_slice(expression);
    put_le16(b, 512, 3);
    put_le32(b, 516, NONE);
    put_le32(b, 520, NONE);
    Ok(())
}

pub fn insert(b: &mut [u8], key: &[u8], record: u32) -> Result<(), Refusal> {
    let head = header(b).ok_or(24u32)?;
    if key.len() != head.k {
        return Err(27);
    }
    if key.iter().any(|&c| c < 0x20) {
        return Err(32);
    }
    if record == 0 {
        return Err(28);
    }
    if !sound(b, &head) {
        return Err(25);
    }
    let k = head.k;
    let (path, present) = path_to_leaf(b, &head, key, record);
    if present {
        return Err(29);
    }
    let path = if head.several {
        path_to_pair(b, k, head.root, |pair| pair < (key, record))
    } else {
        path
    };
    let full = |(p, _): &&(u32, usize)| Page::at(b, k, *p).count() == capacity(k);
    let splits = path.iter().rev().take_while(full).count();
    let new_root = splits == path.len();
    let need = splits + new_root as usize;
    let size = head.size as usize + 512 * need.saturating_sub(free_pages(b, &head));
    let levels = path.len() + new_root as usize;
    if size > b.len() || size > MAX_BYTES as usize || levels > MAX_LEVELS {
        return Err(30);
    }
    put_in(b, k, &path, key, record);
    Ok(())
}

/// How many pages are on the free list of a sound index.
fn free_pages(b: &[u8], head: &Head) -> usize {
    let mut pages = 0;
    let mut p = head.free;
    while p != NONE {
        pages += 1;
        p = le32(b, p as usize + 8);
    }
    pages
}

/// A new page: the free list's first, else the one at the file's end. The header names what is left.
fn new_page(b: &mut [u8]) -> u32 {
    let (free, size) = (le32(b, 4), le32(b, 8));
    if free == NONE {
        put_le32(b, 8, size + 512);
        return size;
    }
    let next = le32(b, free as usize + 8);
    put_le32(b, 4, next);
    free
}

/// The pages from the root to a leaf, each with the entry gone through.
type Path = Vec<(u32, usize)>;

/// The path to the leaf's place where the key belongs, and whether the key is there; with several records to a key, the pair's.
fn path_to_leaf(b: &[u8], head: &Head, key: &[u8], record: u32) -> (Path, bool) {
    if head.several {
        let path = path_to_pair(b, head.k, head.root, |pair| pair <= (key, record));
        let (p, next) = path[path.len() - 1];
        let present = next > 0 && Page::at(b, head.k, p).pair(next - 1) == (key, record);
        return (path, present);
    }
    let mut path = Vec::new();
    let mut p = head.root;
    loop {
        let page = Page::at(b, head.k, p);
        let i = page.reach(key);
        if page.leaf() {
            path.push((p, i.unwrap_or(page.count())));
            return (path, i.is_some_and(|i| page.key(i) == key));
        }
        let i = i.unwrap_or(page.count() - 1);
        path.push((p, i));
        p = page.number(i);
    }
}

/// The path to the leaf with the greatest pair that is low, or the first leaf, and behind that pair: down the last child whose first pair is low. The pairs
/// before a low one are low too.
fn path_to_pair(b: &[u8], k: usize, root: u32, low: impl Fn(Pair) -> bool) -> Path {
    let mut path = Vec::new();
    let mut p = root;
    loop {
        let page = Page::at(b, k, p);
        if page.leaf() {
            let next = (0..page.count()).take_while(|&i| low(page.pair(i))).count();
            path.push((p, next));
            return path;
        }
        let later = 1..page.count();
        let i = later
            .take_while(|&i| low(first_pair(b, k, page.number(i))))
            .count();
        path.push((p, i));
        p = page.number(i);
    }
}

/// The first leaf pair under a page.
fn first_pair(b: &[u8], k: usize, p: u32) -> Pair<'_> {
    let page = Page::at(b, k, p);
    if page.leaf() {
        page.pair(0)
    } else {
        first_pair(b, k, page.number(0))
    }
}

/// The insertion itself, from the leaf up.
fn put_in(b: &mut [u8], k: usize, path: &[(u32, usize)], key: &[u8], record: u32) {
    // what the page below left for the one above: nothing, or the new page beside the old one
    let (leaf, i) = path[path.len() - 1];
    let mut carried = take_in(b, k, leaf, i, key, record);
    for depth in (0..path.len() - 1).rev() {
        let (p, i) = path[depth];
        if let Some(q) = carried {
            let high = Page::at(b, k, p).key(i).max(key).to_vec();
            let low = last_key(b, k, path[depth + 1].0);
            put_key(b, k, p, i, &low);
            carried = take_in(b, k, p, i + 1, &high, q);
        } else if Page::at(b, k, p).key(i) < key {
            put_key(b, k, p, i, key);
        }
    }
    if let Some(q) = carried {
        let (old, top) = (path[0].0, new_page(b));
        let mut entries = Vec::new();
        for p in [old, q] {
            entries.extend_from_slice(&last_key(b, k, p));
            entries.extend_from_slice(&p.to_be_bytes());
        }
        write_page(b, top, 1, 2, [NONE, NONE], &entries);
        put_le32(b, 0, top);
    }
}

fn put_key(b: &mut [u8], k: usize, p: u32, i: usize, key: &[u8]) {
    b[p as usize + 12 + i * (k + 4)..][..k].copy_from_slice(key);
}

fn last_key(b: &[u8], k: usize, p: u32) -> Vec<u8> {
    let page = Page::at(b, k, p);
    page.key(page.count() - 1).to_vec()
}

fn write_page(b: &mut [u8], p: u32, attribute: u32, count: usize, links: [u32; 2], entries: &[u8]) {
    let page = &mut b[p as usize..][..512];
    put_le16(page, 0, attribute);
    put_le16(page, 2, count as u32);
    put_le32(page, 4, links[0]);
    put_le32(page, 8, links[1]);
    page[12..12 + entries.len()].copy_from_slice(entries);
    page[12 + entries.len()..].fill(0);
}

/// Puts an entry into a page as its entry i; a page that then has too many is split, and its new neighbour is handed back.
fn take_in(b: &mut [u8], k: usize, p: u32, i: usize, key: &[u8], number: u32) -> Option<u32> {
    let page = Page::at(b, k, p);
    let (a, left, right, count) = (
        page.attribute(),
        page.left(),
        page.right(),
        page.count() + 1,
    );
    let mut entries = page.bytes[12..12 + page.count() * (k + 4)].to_vec();
    let at = i * (k + 4);
    entries.splice(at..at, key.iter().copied().chain(number.to_be_bytes()));
    if count <= capacity(k) {
        write_page(b, p, a, count, [left, right], &entries);
        return None;
    }
    let q = new_page(b);
    let kept = count.div_ceil(2);
    let (lower, upper) = entries.split_at(kept * (k + 4));
    write_page(b, p, a & !1, kept, [left, q], lower);
    write_page(b, q, a & !1, count - kept, [p, right], upper);
    if right != NONE {
        put_le32(b, right as usize + 4, q);
    }
    Some(q)
}

/// Strikes a key off, or, with several records to a key, a pair: 24, 27, 25, 33.
pub fn remove(b: &mut [u8], key: &[u8], record: u32) -> Result<(), Refusal> {
    let head = header(b).ok_or(24u32)?;
    if key.len() != head.k {
        return Err(27);
    }
    if !sound(b, &head) {
        return Err(25);
    }
    let (mut path, present) = path_to_leaf(b, &head, key, record);
    if !present {
        return Err(33);
    }
    if head.several {
        // the path leads behind the pair
        path.last_mut().unwrap().1 -= 1;
    }
    strike_off(b, head.k, &path);
    Ok(())
}

/// All records of a key, in order, into the beginning of a list, and how many they are: 24, 27, 25, 39.
pub fn records(b: &[u8], key: &[u8], list: &mut [u32]) -> Result<u32, Refusal> {
    let head = header(b).ok_or(24u32)?;
    if key.len() != head.k {
        return Err(27);
    }
    if !sound(b, &head) {
        return Err(25);
    }
    // all children before the first with a key at or above it have lower keys
    let mut page = Page::at(b, head.k, head.root);
    while !page.leaf() {
        let i = page.reach(key).unwrap_or(page.count() - 1);
        page = Page::at(b, head.k, page.number(i));
    }
    let mut found = Vec::new();
    loop {
        let same = (0..page.count()).filter(|&i| page.key(i) == key);
        found.extend(same.map(|i| page.number(i)));
        let past = page.count() > 0 && page.key(page.count() - 1) > key;
        if past || page.right() == NONE {
            break;
        }
        page = Page::at(b, head.k, page.right());
    }
    list.get_mut(..found.len())
        .ok_or(39u32)?
        .copy_from_slice(&found);
    Ok(found.len() as u32)
}

/// The removal itself, from the leaf up: a page that is emptied joins the free list and its parent's entry goes, but the root becomes an empty leaf.
fn strike_off(b: &mut [u8], k: usize, path: &[(u32, usize)]) {
    for (depth, &(p, i)) in path.iter().enumerate().rev() {
        take_out(b, k, p, i);
        if Page::at(b, k, p).count() > 0 {
            return;
        }
        if depth == 0 {
            write_page(b, p, 3, 0, [NONE, NONE], &[]);
        } else {
            unlink(b, k, p);
            let next = le32(b, 4);
            write_page(b, p, 0, 0, [0, next], &[]);
            put_le32(b, 4, p);
        }
    }
}

/// Takes entry i out of a page.
fn take_out(b: &mut [u8], k: usize, p: u32, i: usize) {
    let page = Page::at(b, k, p);
    let (a, links, count) = (page.attribute(), [page.left(), page.right()], page.count());
    let mut entries = page.bytes[12..12 + count * (k + 4)].to_vec();
    entries.drain(i * (k + 4)..(i + 1) * (k + 4));
    write_page(b, p, a, count - 1, links, &entries);
}

/// Links the neighbours of a page to each other.
fn unlink(b: &mut [u8], k: usize, p: u32) {
    let page = Page::at(b, k, p);
    let (left, right) = (page.left(), page.right());
    if left != NONE {
        put_le32(b, left as usize + 8, right);
    }
    if right != NONE {
        put_le32(b, right as usize + 4, left);
    }
}

/// An index against a table: 1 to 10, 24, 12, 13, 27, 25, 31.
pub fn match_index(t: &[u8], b: &[u8], field: u32) -> Result<(), Refusal> {
    let shape = check_table(t)?;
    let head = header(b).ok_or(24u32)?;
    if field == 0 || field as usize > shape.fields {
        return Err(12);
    }
    let entry = field_at(t, field as usize - 1);
    if entry.kind != b'C' {
        return Err(13);
    }
    if entry.length as usize != head.k {
        return Err(27);
    }
    if !sound(b, &head) {
        return Err(25);
    }
    let field_of = |r: usize| {
        let at = shape.header_length + (r - 1) * shape.record_length + entry.offset as usize;
        &t[at..at + head.k]
    };
    if entries_match(b, &head, shape.records as usize, field_of) {
        Ok(())
    } else {
        Err(31)
    }
}

/// Whether the leaves' entries are those of the records, each with its field as the key.
fn entries_match<'a>(
    b: &[u8],
    head: &Head,
    records: usize,
    field_of: impl Fn(usize) -> &'a [u8],
) -> bool {
    let mut seen = vec![false; records];
    let mut p = head.root;
    while !Page::at(b, head.k, p).leaf() {
        p = Page::at(b, head.k, p).number(0);
    }
    while p != NONE {
        let page = Page::at(b, head.k, p);
        for entry in page.entries() {
            let r = be32(entry, head.k) as usize;
            if r > records || std::mem::replace(&mut seen[r - 1], true) {
                return false;
            }
            if field_of(r) != &entry[..head.k] {
                return false;
            }
        }
        p = page.right();
    }
    seen.iter().all(|&s| s)
}

/// Sample and diluent for a barcode, in tenths of a microlitre: the match's refusals, but 24 for several records to a key too, then 12, 13, 27, 35, 15, 35, 16
/// to 18, 36, 37, 38. The record is sought in the table, not in the index.
pub fn dilute(
    t: &[u8],
    b: &[u8],
    fields: (u32, u32),
    barcode: &[u8],
    target: u64,
    volume: u64,
) -> Result<(u32, u32), Refusal> {
    let shape = check_table(t)?;
    if header(b).is_none_or(|head| head.several) {
        return Err(24);
    }
    match_index(t, b, fields.0)?;
    if fields.1 == 0 || fields.1 as usize > shape.fields {
        return Err(12);
    }
    let concentration = field_at(t, fields.1 as usize - 1);
    if (concentration.kind, concentration.decimals) != (b'N', 3) {
        return Err(13);
    }
    let key = field_at(t, fields.0 as usize - 1);
    let key_length = key.length as usize;
    if barcode.len() != key_length {
        return Err(27);
    }
    let record = t[shape.header_length..]
        .chunks_exact(shape.record_length)
        .take(shape.records as usize)
        .find(|record| &record[key.offset as usize..][..key_length] == barcode)
        .ok_or(35u32)?;
    match record[0] {
        b' ' => (),
        b'*' => return Err(35),
        _ => return Err(15),
    }
    let text = &record[concentration.offset as usize..][..concentration.length as usize];
    let c = match number_read(text, 3)? {
        Some(c) if c > 0 => c as u128,
        _ => return Err(36),
    };
    if !(1..=1_000_000_000).contains(&target) || !(1..=10_000).contains(&volume) {
        return Err(37);
    }
    if target as u128 > c {
        return Err(38);
    }
    let amount = target as u128 * volume as u128;
    let half = 2 * (amount % c) >= c;
    let sample = (amount / c) as u32 + half as u32;
    Ok((sample, volume as u32 - sample))
}
