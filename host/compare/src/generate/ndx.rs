//! NDX indexes: sound trees of any shape, and ways to damage them.
use super::index::{neighbour, within, Entry};
use crate::random::Random;

/// The most levels of an index.
pub const LEVELS: usize = 15;

/// The size of an entry with a key of k bytes.
pub fn entry_size(k: usize) -> usize {
    (k + 8).next_multiple_of(4)
}

/// The form of an index: key length, and keys per page.
#[derive(Clone, Copy)]
pub struct Form {
    pub k: usize,
    pub most: usize,
}

impl Form {
    /// As many keys per page as may be.
    pub fn full(k: usize) -> Form {
        Form {
            k,
            most: 504 / entry_size(k),
        }
    }

    /// The fewest and the most entries of a tree with so many levels under its root. A branch has two children at least.
    fn bounds(self, height: usize) -> (usize, usize) {
        let most = (self.most + 1).saturating_pow(height as u32);
        (1 << height, most.saturating_mul(self.most))
    }

    /// The levels under the root that a tree of n entries may have.
    fn heights(self, n: usize) -> Vec<usize> {
        let fits = |&h: &usize| self.bounds(h).0 <= n && n <= self.bounds(h).1;
        (0..LEVELS).filter(fits).collect()
    }
}

/// A page: its entries in a leaf, or its children with a key above each but the last.
struct Node {
    entries: Vec<Entry>,
    children: Vec<Node>,
    keys: Vec<Vec<u8>>,
}

impl Node {
    fn pages(&self) -> usize {
        1 + self.children.iter().map(Node::pages).sum::<usize>()
    }

    fn leaf(entries: &[Entry]) -> Node {
        Node {
            entries: entries.to_vec(),
            children: Vec::new(),
            keys: Vec::new(),
        }
    }
}

/// How many of n entries each child of a page gets, h levels under it.
fn shares(r: &mut Random, form: Form, n: usize, h: usize, full: bool) -> Vec<usize> {
    let (low, high) = form.bounds(h);
    let fewest = n.div_ceil(high).max(2);
    let children = if full {
        fewest
    } else {
        r.between(fewest, (n / low).min(form.most + 1))
    };
    let mut left = n;
    (1..=children)
        .map(|i| {
            let after = children - i;
            let least = left.saturating_sub(after.saturating_mul(high)).max(low);
            let most = (left - after * low).min(high);
            let share = if full { most } else { r.between(least, most) };
            left -= share;
            share
        })
        .collect()
}

fn node(
    r: &mut Random,
    form: Form,
    entries: &[Entry],
    height: usize,
    full: bool,
    raised: bool,
) -> Node {
    if height == 0 {
        return Node::leaf(entries);
    }
    let (mut children, mut keys) = (Vec::new(), Vec::new());
    let mut from = 0;
    for share in shares(r, form, entries.len(), height - 1, full) {
        let to = from + share;
        children.push(node(r, form, &entries[from..to], height - 1, full, raised));
        if let Some(next) = entries.get(to) {
            let last = &entries[to - 1].0;
            keys.push(if raised && r.one_in(2) {
                within(r, last, Some(&next.0))
            } else {
                last.clone()
            });
        }
        from = to;
    }
    Node {
        entries: Vec::new(),
        children,
        keys,
    }
}

fn put(b: &mut [u8], at: usize, number: u32) {
    b[at..at + 4].copy_from_slice(&number.to_le_bytes());
}

/// Writes a page and those under it on the places that are left, and gives its number.
fn write(b: &mut [u8], k: usize, node: &Node, places: &mut Vec<u32>) -> u32 {
    let page = places.pop().expect("a place for each page");
    let start = 512 * page as usize;
    let entry = |i: usize| start + 4 + i * entry_size(k);
    for (i, (key, record)) in node.entries.iter().enumerate() {
        put(b, entry(i), 0);
        put(b, entry(i) + 4, *record);
        b[entry(i) + 8..][..k].copy_from_slice(key);
    }
    if node.children.is_empty() {
        put(b, entry(0), 0);
        put(b, start, node.entries.len() as u32);
        return page;
    }
    for (i, child) in node.children.iter().enumerate() {
        let lower = write(b, k, child, places);
        put(b, entry(i), lower);
    }
    for (i, key) in node.keys.iter().enumerate() {
        b[entry(i) + 8..][..k].copy_from_slice(key);
    }
    put(b, start, node.keys.len() as u32);
    page
}

fn write_header(b: &mut [u8], form: Form, root: u32, pages: usize) {
    put(b, 0, root);
    put(b, 4, pages as u32);
    for (at, number) in [
        (12, form.k),
        (14, form.most),
        (16, 0),
        (18, entry_size(form.k)),
    ] {
        b[at..at + 2].copy_from_slice(&(number as u16).to_le_bytes());
    }
}

/// How a tree is made: with the fewest pages, its keys above raised within their bounds, and its pages anywhere in the file, with garbage where no rule reads.
#[derive(Clone, Copy)]
pub struct Shape {
    pub full: bool,
    pub raised: bool,
    pub scattered: bool,
}

/// A sound index of as many of the entries as some tree has, and those entries. There may be more pages than the limit lets be.
pub fn tree<'a>(
    r: &mut Random,
    form: Form,
    entries: &'a [Entry],
    shape: Shape,
) -> (Vec<u8>, &'a [Entry]) {
    let mut n = entries.len();
    while n > 0 && form.heights(n).is_empty() {
        n -= 1;
    }
    let entries = &entries[..n];
    let root = match form.heights(n)[..] {
        [] => Node::leaf(entries),
        ref heights if shape.full => node(r, form, entries, heights[0], true, shape.raised),
        ref heights => {
            let height = heights[r.below(heights.len())];
            node(r, form, entries, height, false, shape.raised)
        }
    };
    let pages = root.pages() + 1;
    let mut places: Vec<u32> = (1..pages as u32).rev().collect();
    let mut b = vec![0; 512 * pages];
    if shape.scattered {
        r.shuffle(&mut places);
        r.fill(&mut b);
    }
    let number = write(&mut b, form.k, &root, &mut places);
    write_header(&mut b, form, number, pages);
    (b, entries)
}

/// Pages one below the other, each a branch with both its children the next, and a leaf at the end: no sound index, but lookup goes down it.
pub fn chain(r: &mut Random, k: usize, levels: usize) -> (Vec<u8>, Entry) {
    let mut b = r.bytes(512 * (levels + 1));
    let entry = (r.bytes(k), r.word());
    for page in 1..=levels {
        let start = 512 * page;
        put(&mut b, start, 1);
        for at in [start + 4, start + 4 + entry_size(k)] {
            put(&mut b, at, if page == levels { 0 } else { page as u32 + 1 });
        }
    }
    let leaf = 512 * levels + 4;
    put(&mut b, leaf + 4, entry.1);
    b[leaf + 8..][..k].copy_from_slice(&entry.0);
    write_header(&mut b, Form { k, most: 1 }, 1, levels + 1);
    (b, entry)
}

/// A page of the file, or something that only looks like one.
fn place(r: &mut Random, pages: usize) -> u32 {
    match r.below(6) {
        0 => r.near(&[0, 1, pages as u32, 0x100, 0x80_0000, u32::MAX]),
        _ => r.below(pages + 1) as u32,
    }
}

fn damage_header(r: &mut Random, b: &mut [u8], pages: usize) {
    let held = |b: &[u8], at: usize| u16::from_le_bytes([b[at], b[at + 1]]);
    let (at, number) = match r.below(8) {
        0 => return put(b, 0, place(r, pages)),
        1 => return put(b, 4, r.near(&[0, 1, 2, pages as u32, 32_768, 0x80_0000])),
        2 => (
            12,
            r.pick(&[0, 1, 100, 101, held(b, 12) ^ 1, held(b, 12) | 0x100]),
        ),
        3 => (
            14,
            r.pick(&[
                0,
                1,
                held(b, 14).wrapping_add(1),
                held(b, 14).wrapping_sub(1),
                42,
                0xFFFF,
            ]),
        ),
        4 => (16, r.pick(&[0, 1, 0x100, 0xFFFF])),
        5 => (
            18,
            r.pick(&[
                held(b, 18) ^ 4,
                held(b, 18).wrapping_add(1),
                held(b, 18) | 0x100,
            ]),
        ),
        _ => {
            b[r.below(24)] = r.byte();
            return;
        }
    };
    b[at..at + 2].copy_from_slice(&number.to_le_bytes());
}

fn damage_entry(r: &mut Random, page: &mut [u8], k: usize, pages: usize) {
    let size = entry_size(k);
    let count = page[0] as usize;
    let last = 504 / size;
    let (i, j) = (
        r.below(count + 1).min(last - 1),
        r.below(count + 1).min(last - 1),
    );
    let entry = |i: usize| 4 + i * size;
    match r.below(8) {
        0 => put(page, entry(r.below(count + 1).min(last)), place(r, pages)),
        1 => put(page, entry(i), 0),
        2 => put(page, entry(i) + 4, r.pick(&[0, 1])),
        3 => page.copy_within(entry(i)..entry(i) + size, entry(j)),
        4 => page.copy_within(entry(i)..entry(i) + 4, entry(j)),
        5 => page.copy_within(entry(i) + 8..entry(i) + 8 + k, entry(j) + 8),
        6 => {
            let key = &mut page[entry(i) + 8..][..k];
            let up = r.one_in(2);
            if let Some(other) = neighbour(key, up) {
                key.copy_from_slice(&other);
            }
        }
        _ => page[entry(i) + r.below(size)] = r.byte(),
    }
}

/// One change in a page's count or entries, or in the header, or anywhere.
pub fn damage(r: &mut Random, b: &mut [u8]) {
    let pages = b.len() / 512;
    if pages < 2 {
        return;
    }
    let k = (u16::from_le_bytes([b[12], b[13]]) as usize).clamp(1, 100);
    let most = u32::from(b[14]);
    let at = 512 * r.between(1, pages - 1);
    let page = &mut b[at..at + 512];
    match r.below(12) {
        0 | 1 => damage_header(r, b, pages),
        2 | 3 => {
            let count = u32::from(page[0]);
            put(
                page,
                0,
                r.pick(&[
                    0,
                    1,
                    most,
                    most + 1,
                    count ^ 1,
                    count | 0x100,
                    count | 0x100_0000,
                ]),
            );
        }
        4 => {
            let other = 512 * r.between(1, pages - 1);
            b.copy_within(other..other + 512, at);
        }
        5 => b[r.below(b.len())] = r.byte(),
        _ => damage_entry(r, page, k, pages),
    }
}
