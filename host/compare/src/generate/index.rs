//! Indexes: sound trees of any shape, and ways to damage them.
use crate::random::Random;

pub const NONE: u32 = 0xFFFF_FFFF;

pub type Entry = (Vec<u8>, u32);

pub fn capacity(k: usize) -> usize {
    500 / (k + 4)
}

/// How full the pages of a tree are made.
#[derive(Clone, Copy)]
pub enum Fill {
    Full,
    Any,
    Exactly(usize),
}

impl Fill {
    fn of_page(self, r: &mut Random, k: usize) -> usize {
        match self {
            Fill::Full => capacity(k),
            Fill::Any => r.between(1, capacity(k)),
            Fill::Exactly(n) => n,
        }
    }
}

/// Adds 0x20 to each control byte of a key, so that an insertion does not refuse the key by 32.
pub fn raise_control(key: &mut [u8]) {
    for c in key.iter_mut().filter(|c| **c < 0x20) {
        *c += 0x20;
    }
}

/// A key: of few different bytes, or of any, or one that differs from others only at its end. A style from 4 on has no control bytes.
pub fn key(r: &mut Random, k: usize, style: usize) -> Vec<u8> {
    let mut key = vec![b'B'; k];
    match style % 4 {
        0 => r.fill(&mut key),
        1 => key.fill_with(|| r.pick(b"AB\x00\x7F\x80\xFF")),
        2 => {
            let tail = k.saturating_sub(2);
            r.fill(&mut key[tail..]);
        }
        _ => {
            let n = r.below(10_000).to_string().into_bytes();
            let shown = n.len().min(k);
            key.fill(b'0');
            key[k - shown..].copy_from_slice(&n[n.len() - shown..]);
        }
    }
    if style >= 4 {
        raise_control(&mut key);
    }
    key
}

/// Entries with distinct ascending keys, as many as come of so many draws.
pub fn entries(r: &mut Random, k: usize, draws: usize, style: usize) -> Vec<Entry> {
    let mut keys: Vec<Vec<u8>> = (0..draws).map(|_| key(r, k, style)).collect();
    keys.sort();
    keys.dedup();
    let mut made: Vec<Entry> = keys.into_iter().map(|key| (key, 0)).collect();
    for e in made.iter_mut() {
        e.1 = r.word().max(1);
    }
    made
}

/// Distinct pairs in the order of key, then record, as many as come of so many draws: of few keys with many records each, or of more.
fn repeated(r: &mut Random, k: usize, draws: usize, style: usize) -> Vec<Entry> {
    let few = r.pick(&[1, 2, 3, 8, 1 + draws / 3]);
    let keys: Vec<Vec<u8>> = (0..few).map(|_| key(r, k, style)).collect();
    let small = r.one_in(2);
    let mut made: Vec<Entry> = Vec::with_capacity(draws);
    for _ in 0..draws {
        let record = if small {
            r.between(1, 2 * draws) as u32
        } else {
            r.word().max(1)
        };
        let at = r.below(few);
        made.push((keys[at].clone(), record));
    }
    made.sort();
    made.dedup();
    made
}

/// Entries for an index with these features: with 0 a key has several records for the most part.
pub fn entries_for(
    r: &mut Random,
    features: u8,
    k: usize,
    draws: usize,
    style: usize,
) -> Vec<Entry> {
    if features == 0 && !r.one_in(6) {
        repeated(r, k, draws, style)
    } else {
        entries(r, k, draws, style)
    }
}

/// Groups of neighbouring entries, a group for each page of a level.
fn group(r: &mut Random, k: usize, entries: Vec<Entry>, fill: Fill) -> Vec<Vec<Entry>> {
    let mut pages = Vec::new();
    let mut left = entries.into_iter().peekable();
    while left.peek().is_some() {
        let n = fill.of_page(r, k);
        pages.push(left.by_ref().take(n).collect());
    }
    pages
}

/// How many leaves a tree has whose pages have so many entries each, if it is to have so many pages at most.
pub fn leaves_for(pages: usize, per_page: usize) -> usize {
    let all = |leaves: usize| {
        let mut level = leaves;
        let mut all = 1;
        while level > 1 {
            all += level;
            level = level.div_ceil(per_page);
        }
        all
    };
    (1..=pages).rev().find(|&n| all(n) <= pages).unwrap_or(1)
}

/// The entries over the pages of a level: each page's last key, and its number in the level.
fn over(below: &[Vec<Entry>]) -> Vec<Entry> {
    let key = |page: &Vec<Entry>| page.last().unwrap().0.clone();
    below.iter().map(key).zip(0..).collect()
}

/// The levels of a tree, leaves first. An entry above a leaf carries the number of its child in the level below.
fn levels(
    r: &mut Random,
    k: usize,
    entries: &[Entry],
    fill: Fill,
    least: usize,
) -> Vec<Vec<Vec<Entry>>> {
    let mut made = vec![group(r, k, entries.to_vec(), fill)];
    if made[0].is_empty() {
        made[0].push(Vec::new());
        return made;
    }
    loop {
        let below = made.last().unwrap();
        if below.len() == 1 && made.len() >= least {
            return made;
        }
        let above = over(below);
        // pages of one entry do not make a level smaller
        let fill = match fill {
            Fill::Any if made.len() < 4 => Fill::Any,
            Fill::Exactly(n) if n > 1 => fill,
            _ => Fill::Full,
        };
        let pages = group(r, k, above, fill);
        made.push(pages);
    }
}

/// An index whose pages have one entry, but for one path from the root to a leaf where they are full or lack one entry, and a key that goes into
/// that leaf. `pages` is the number of leaves; k is at least 2.
pub fn spine(r: &mut Random, k: usize, pages: usize) -> (Vec<u8>, Vec<u8>) {
    let numbered = |n: usize| {
        let mut key = vec![b'S'; k];
        // two digits to the base 224, none of them a control byte
        key[k - 2] = 0x20 + (n / 224) as u8;
        key[k - 1] = 0x20 + (n % 224) as u8;
        key
    };
    let almost = |r: &mut Random| capacity(k) - r.one_in(12) as usize;
    let mut on = r.below(pages);
    let mut next = 0;
    let mut level: Vec<Vec<Entry>> = Vec::new();
    for page in 0..pages {
        let n = if page == on { almost(r) } else { 1 };
        level.push(
            (next..next + n)
                .map(|i| (numbered(2 * i), 1 + i as u32))
                .collect(),
        );
        next += n;
    }
    let key = numbered(2 * (on + r.below(level[on].len())) + 1);
    let mut levels = vec![level];
    while levels.last().unwrap().len() > 1 {
        let below = levels.last().unwrap();
        let n = almost(r).min(below.len());
        let first = r.between((on + 1).saturating_sub(n), on.min(below.len() - n));
        let mut level: Vec<Vec<Entry>> = Vec::new();
        for (i, page) in below.iter().enumerate() {
            let e = (page.last().unwrap().0.clone(), i as u32);
            if i > first && i < first + n {
                level.last_mut().unwrap().push(e);
            } else {
                level.push(vec![e]);
            }
        }
        on = first;
        levels.push(level);
    }
    (laid_out(r, k, &levels, 0), key)
}

fn write_page(b: &mut [u8], k: usize, attribute: u16, links: [u32; 2], entries: &[Entry]) {
    b[..2].copy_from_slice(&attribute.to_le_bytes());
    b[2..4].copy_from_slice(&(entries.len() as u16).to_le_bytes());
    b[4..8].copy_from_slice(&links[0].to_le_bytes());
    b[8..12].copy_from_slice(&links[1].to_le_bytes());
    for (e, at) in entries.iter().zip(b[12..].chunks_exact_mut(k + 4)) {
        at[..k].copy_from_slice(&e.0);
        at[k..].copy_from_slice(&e.1.to_be_bytes());
    }
}

fn write_header(b: &mut [u8], k: usize, root: u32, size: u32) {
    b[..4].copy_from_slice(&root.to_le_bytes());
    b[4..8].copy_from_slice(&NONE.to_le_bytes());
    b[8..12].copy_from_slice(&size.to_le_bytes());
    b[12..14].copy_from_slice(&(k as u16).to_le_bytes());
    b[14] = 1;
}

/// An index of these entries, its pages anywhere in the file and of any fullness, with at least so many levels. What no rule reads is garbage.
pub fn tree(r: &mut Random, k: usize, entries: &[Entry], fill: Fill, least: usize) -> Vec<u8> {
    tree_and_free(r, k, entries, fill, least, 0)
}

/// Such an index with `free` pages on its free list, which lie anywhere too.
pub fn tree_and_free(
    r: &mut Random,
    k: usize,
    entries: &[Entry],
    fill: Fill,
    least: usize,
    free: usize,
) -> Vec<u8> {
    let levels = levels(r, k, entries, fill, least);
    laid_out(r, k, &levels, free)
}

/// The levels and `free` free pages as bytes, each page anywhere in the file.
fn laid_out(r: &mut Random, k: usize, levels: &[Vec<Vec<Entry>>], free: usize) -> Vec<u8> {
    let pages = levels.iter().map(Vec::len).sum::<usize>() + free;
    let mut places: Vec<u32> = (1..=pages as u32).map(|p| p * 512).collect();
    r.shuffle(&mut places);
    let mut b = vec![0; 512 * (pages + 1)];
    if r.one_in(2) {
        r.fill(&mut b);
    }
    let mut first = 0;
    let mut below: &[u32] = &[];
    for (height, level) in levels.iter().enumerate() {
        let here = &places[first..first + level.len()];
        let attribute = (height == 0) as u16 * 2 + (height + 1 == levels.len()) as u16;
        for (i, page) in level.iter().enumerate() {
            let mut page = page.clone();
            if height > 0 {
                page.iter_mut().for_each(|e| e.1 = below[e.1 as usize]);
            }
            let left = if i == 0 { NONE } else { here[i - 1] };
            let right = here.get(i + 1).copied().unwrap_or(NONE);
            let at = here[i] as usize;
            write_page(&mut b[at..at + 512], k, attribute, [left, right], &page);
        }
        below = here;
        first += level.len();
    }
    let size = b.len() as u32;
    write_header(&mut b, k, below[0], size);
    for &p in &places[first..] {
        free_page(&mut b, p as usize);
    }
    b
}

/// Puts a page at the head of the free list.
fn free_page(b: &mut [u8], p: usize) {
    b[p..p + 512].fill(0);
    b.copy_within(4..8, p + 8);
    b[4..8].copy_from_slice(&(p as u32).to_le_bytes());
}

/// The most levels of an index.
pub const LEVELS: usize = 15;

/// An index of as many levels as may be: `leaves` one-entry leaves, over them levels of one-entry pages, and full pages at the top. k is at least 2.
pub fn chains(r: &mut Random, k: usize, leaves: usize) -> Vec<u8> {
    let numbered = |n: u16| {
        let mut key = vec![b'S'; k];
        key[k - 2..].copy_from_slice(&(16 * n).to_be_bytes());
        (key, 1 + n as u32)
    };
    let entries = (0..leaves as u16).map(numbered).collect();
    let mut full = 0;
    let mut width = leaves;
    while width > 1 {
        width = width.div_ceil(capacity(k));
        full += 1;
    }
    let mut made = vec![group(r, k, entries, Fill::Exactly(1))];
    while made.len() < LEVELS {
        let fill = if made.len() < LEVELS - full {
            Fill::Exactly(1)
        } else {
            Fill::Full
        };
        let above = over(made.last().unwrap());
        made.push(group(r, k, above, fill));
    }
    laid_out(r, k, &made, 0)
}

/// A key above a page: where it stands, the last leaf key under its child, and the least key that is too high, if there is one: the first under the next child
/// of its page, or with features 0 the key after that.
struct Above {
    at: usize,
    low: Vec<u8>,
    high: Option<Vec<u8>>,
}

/// Collects the keys above pages under the page at p of a sound index. The result is the first and the last leaf key under that page.
fn keys_above(b: &[u8], k: usize, p: usize, found: &mut Vec<Above>) -> (Vec<u8>, Vec<u8>) {
    let count = u16::from_le_bytes([b[p + 2], b[p + 3]]) as usize;
    let entry = |i: usize| p + 12 + i * (k + 4);
    let key = |i: usize| b[entry(i)..entry(i) + k].to_vec();
    if count == 0 {
        return (Vec::new(), Vec::new());
    }
    if b[p] & 2 != 0 {
        return (key(0), key(count - 1));
    }
    let child = |i: usize| {
        let at = entry(i) + k;
        u32::from_be_bytes(b[at..at + 4].try_into().unwrap()) as usize
    };
    let bounds: Vec<_> = (0..count)
        .map(|i| keys_above(b, k, child(i), found))
        .collect();
    for i in 0..count {
        let next = bounds.get(i + 1).map(|next| next.0.clone());
        found.push(Above {
            at: entry(i),
            low: bounds[i].1.clone(),
            high: if b[14] == 0 {
                next.and_then(|key| neighbour(&key, true))
            } else {
                next
            },
        });
    }
    (bounds[0].0.clone(), bounds[count - 1].1.clone())
}

fn all_keys_above(b: &[u8]) -> (usize, Vec<Above>) {
    let k = b[12] as usize;
    let root = u32::from_le_bytes(b[..4].try_into().unwrap()) as usize;
    let mut found = Vec::new();
    keys_above(b, k, root, &mut found);
    (k, found)
}

/// The key one above, or one below, as numbers of k bytes; none past the ends.
pub fn neighbour(key: &[u8], up: bool) -> Option<Vec<u8>> {
    let (end, start) = if up { (0xFF, 0) } else { (0, 0xFF) };
    let mut key = key.to_vec();
    let i = key.iter().rposition(|&c| c != end)?;
    key[i] = key[i].wrapping_add(if up { 1 } else { 0xFF });
    key[i + 1..].fill(start);
    Some(key)
}

/// A key at or above `low` and below `high`, if there is one, at either end or between.
pub fn within(r: &mut Random, low: &[u8], high: Option<&[u8]>) -> Vec<u8> {
    let key = match r.below(4) {
        0 => neighbour(low, true),
        1 => {
            let mut key = low.to_vec();
            let from = r.below(key.len());
            r.fill(&mut key[from..]);
            Some(key)
        }
        _ => high.map_or(Some(vec![0xFF; low.len()]), |h| neighbour(h, false)),
    };
    key.filter(|key| &key[..] >= low && high.is_none_or(|h| &key[..] < h))
        .unwrap_or(low.to_vec())
}

/// Raises keys above the pages of a sound index within their bounds, one in so many.
pub fn raise(r: &mut Random, b: &mut [u8], one_in: usize) {
    let (k, found) = all_keys_above(b);
    for above in found {
        if r.one_in(one_in) {
            let key = within(r, &above.low, above.high.as_deref());
            b[above.at..above.at + k].copy_from_slice(&key);
        }
    }
}

/// Puts a key above a page of a sound index just outside its bounds: one below the last leaf key under its child, or the least that is too high.
pub fn misplace(r: &mut Random, b: &mut [u8]) {
    let (k, found) = all_keys_above(b);
    if found.is_empty() {
        return;
    }
    let above = &found[r.below(found.len())];
    let wrong = if r.one_in(2) {
        neighbour(&above.low, false)
    } else {
        above.high.clone()
    };
    if let Some(key) = wrong {
        b[above.at..above.at + k].copy_from_slice(&key);
    }
}

/// The leaves of a sound index, in order.
fn leaves(b: &[u8]) -> Vec<usize> {
    let k = b[12] as usize;
    let link = |at: usize| u32::from_le_bytes(b[at..at + 4].try_into().unwrap());
    let mut p = link(0);
    while b[p as usize] & 2 == 0 {
        let child = p as usize + 12 + k;
        p = u32::from_be_bytes(b[child..child + 4].try_into().unwrap());
    }
    let mut found = Vec::new();
    while p != NONE {
        found.push(p as usize);
        p = link(p as usize + 8);
    }
    found
}

/// Puts the last pair of a leaf of a sound index at the beginning of the next leaf, with its record or one beside it.
pub fn meet(r: &mut Random, b: &mut [u8]) {
    let leaves = leaves(b);
    if leaves.len() < 2 {
        return;
    }
    let width = b[12] as usize + 4;
    let i = r.below(leaves.len() - 1);
    let count = u16::from_le_bytes([b[leaves[i] + 2], b[leaves[i] + 3]]) as usize;
    let last = leaves[i] + 12 + (count - 1) * width;
    let first = leaves[i + 1] + 12;
    b.copy_within(last..last + width, first);
    let record = &mut b[first + width - 4..first + width];
    let beside =
        u32::from_be_bytes(record.try_into().unwrap()).wrapping_add(r.pick(&[0, 0, 1, u32::MAX]));
    record.copy_from_slice(&beside.to_be_bytes());
}

/// The pages of a sound index's free list, from the head on.
fn free_list(b: &[u8]) -> Vec<usize> {
    let named = |at: usize| u32::from_le_bytes(b[at..at + 4].try_into().unwrap());
    let mut found = Vec::new();
    let mut p = named(4);
    while p != NONE {
        found.push(p as usize);
        p = named(p as usize + 8);
    }
    found
}

/// Damages the free list of a sound index: it leads in a circle, into the tree, out of the file or nowhere, leaves a page out, or one of its pages has a byte
/// that is not zero.
pub fn damage_free_list(r: &mut Random, b: &mut [u8]) {
    let pages = b.len() / 512;
    let free = free_list(b);
    let at = if free.is_empty() {
        0
    } else {
        free[r.below(free.len())]
    };
    // where the list names a page: the header, or a page of it
    let name = if at == 0 || r.one_in(3) { 4 } else { at + 8 };
    let held = |at: usize| u32::from_le_bytes(b[at..at + 4].try_into().unwrap());
    let wrong = match r.below(6) {
        0 if at != 0 => free[r.below(free.len())] as u32,
        1 => held(0),
        2 => r.pick(&[NONE, 0, held(8), 0xFFFF_FE00]),
        3 if at != 0 => held(at + 8),
        4 if at != 0 => {
            let any = r.below(512);
            let byte = r.pick(&[0, 2, 4, 7, 12, 13, 511, any]);
            b[at + byte] ^= 1 << r.below(8);
            return;
        }
        _ => place(r, pages),
    };
    b[name..name + 4].copy_from_slice(&wrong.to_le_bytes());
}

/// A page of the file, or something that only looks like one.
fn place(r: &mut Random, pages: usize) -> u32 {
    match r.below(8) {
        0 => r.near(&[0, 512, NONE, 0xFFFF_FE00, 512 * pages as u32]),
        1 => 512 * r.below(pages + 2) as u32 + r.below(512) as u32,
        _ => 512 * r.between(1, pages.max(2) - 1) as u32,
    }
}

fn damage_header(r: &mut Random, b: &mut [u8], pages: usize) {
    match r.below(6) {
        0 => b[..4].copy_from_slice(&place(r, pages).to_le_bytes()),
        1 => {
            let free = if r.one_in(2) { NONE } else { place(r, pages) };
            b[4..8].copy_from_slice(&free.to_le_bytes());
        }
        2 => b[8..12].copy_from_slice(&place(r, pages).to_le_bytes()),
        3 => {
            let k = u16::from_le_bytes([b[12], b[13]]);
            let near = r.pick(&[0, 1, 100, 101, k ^ 1, k + 1, k | 0x100, 0xFFFF]);
            b[12..14].copy_from_slice(&near.to_le_bytes());
        }
        4 => b[14] = r.pick(&[0, 1, 2, 3, 0xFF]),
        _ => b[r.below(16)] = r.byte(),
    }
}

fn damage_entry(r: &mut Random, page: &mut [u8], k: usize, pages: usize) {
    let count = (u16::from_le_bytes([page[2], page[3]]) as usize).clamp(1, capacity(k));
    let width = k + 4;
    let (i, j) = (r.below(count), r.below(count));
    let entry = |i: usize| 12 + i * width;
    match r.below(7) {
        0 => page[entry(i) + k..entry(i) + width].fill(0),
        1 => page[entry(i) + k..entry(i) + width].copy_from_slice(&place(r, pages).to_be_bytes()),
        2 => page.copy_within(entry(i)..entry(i) + width, entry(j)),
        3 => page.copy_within(entry(i) + k..entry(i) + width, entry(j) + k),
        4 => page.copy_within(entry(i)..entry(i) + k, entry(j)),
        5 => {
            let last = entry(i) + k - 1;
            page[last] = page[last].wrapping_add(r.pick(&[1, 0xFF]));
        }
        _ => page[entry(i) + r.below(width)] = r.byte(),
    }
}

/// One change in a page's numbers or entries, or in the header, or anywhere.
pub fn damage(r: &mut Random, b: &mut [u8]) {
    let pages = b.len() / 512;
    if pages < 2 {
        return;
    }
    let k = (u16::from_le_bytes([b[12], b[13]]) as usize).clamp(1, 100);
    let at = 512 * r.between(1, pages - 1);
    let page = &mut b[at..at + 512];
    let count = u16::from_le_bytes([page[2], page[3]]);
    match r.below(16) {
        0 => damage_header(r, b, pages),
        1..=2 => page[0] = r.pick(&[0, 1, 2, 3, 4, 5]),
        3 => page[1] = 1,
        4..=5 => {
            let full = capacity(k) as u16;
            let near = r.pick(&[
                0,
                1,
                full,
                full + 1,
                0xFFFF,
                count ^ 1,
                count.wrapping_sub(1),
            ]);
            page[2..4].copy_from_slice(&near.to_le_bytes());
        }
        6 => page[4..8].copy_from_slice(&place(r, pages).to_le_bytes()),
        7 => page[8..12].copy_from_slice(&place(r, pages).to_le_bytes()),
        8 => page[4 + r.below(8)] ^= 1 << r.below(8),
        9 => {
            let other = 512 * r.between(1, pages - 1);
            b.copy_within(other..other + 512, at);
        }
        10 => b[r.below(b.len())] = r.byte(),
        _ => damage_entry(r, page, k, pages),
    }
}
