//! K13 in plain Rust: NDX indexes, written from the paper and sharing nothing with the library.
use super::{le16, le32, Looked, Refusal, MAX_BYTES, MAX_LEVELS};

struct Head {
    root: u32,
    pages: u32,
    k: usize,
    most: usize,
    entry: usize,
}

impl Head {
    fn has(&self, p: u32) -> bool {
        (1..self.pages).contains(&p)
    }
}

fn header(b: &[u8]) -> Option<Head> {
    if b.len() < 512 {
        return None;
    }
    let head = Head {
        root: le32(b, 0),
        pages: le32(b, 4),
        k: le16(b, 12) as usize,
        most: le16(b, 14) as usize,
        entry: le16(b, 18) as usize,
    };
    let bytes = head.pages as u64 * 512;
    let good = le16(b, 16) == 0
        && bytes <= b.len() as u64
        && bytes <= MAX_BYTES as u64
        && head.has(head.root)
        && (1..=100).contains(&head.k)
        && head.entry == (head.k + 8).next_multiple_of(4)
        && head.most >= 1
        && head.most * head.entry <= 504;
    good.then_some(head)
}

struct Page<'a> {
    bytes: &'a [u8],
    k: usize,
    entry: usize,
}

impl<'a> Page<'a> {
    fn at(b: &'a [u8], head: &Head, p: u32) -> Page<'a> {
        Page {
            bytes: &b[512 * p as usize..][..512],
            k: head.k,
            entry: head.entry,
        }
    }

    fn count(&self) -> usize {
        le32(self.bytes, 0) as usize
    }

    fn lower(&self, i: usize) -> u32 {
        le32(self.bytes, 4 + i * self.entry)
    }

    fn record(&self, i: usize) -> u32 {
        le32(self.bytes, 8 + i * self.entry)
    }

    fn key(&self, i: usize) -> &'a [u8] {
        &self.bytes[12 + i * self.entry..][..self.k]
    }

    fn leaf(&self) -> bool {
        self.lower(0) == 0
    }

    fn count_good(&self, head: &Head, root: bool) -> bool {
        let n = self.count();
        n <= head.most && (n >= 1 || (root && self.leaf()))
    }
}

/// 24, 25, or sound.
pub fn audit(b: &[u8]) -> Result<(), Refusal> {
    let head = header(b).ok_or(24u32)?;
    let mut walk = Walk {
        b,
        reached: vec![false; head.pages as usize],
        leaves: None,
        head,
    };
    let good = walk.bounds(walk.head.root, 1).is_some();
    if good && walk.reached[1..].iter().all(|&r| r) {
        Ok(())
    } else {
        Err(25)
    }
}

struct Walk<'a> {
    b: &'a [u8],
    head: Head,
    reached: Vec<bool>,
    /// The level of the first leaf, the root's being 1.
    leaves: Option<usize>,
}

impl<'a> Walk<'a> {
    /// The first and the last leaf key under a page, if all is good there.
    fn bounds(&mut self, p: u32, level: usize) -> Option<(&'a [u8], &'a [u8])> {
        if !self.head.has(p) || self.reached[p as usize] {
            return None;
        }
        self.reached[p as usize] = true;
        let page = Page::at(self.b, &self.head, p);
        if !page.count_good(&self.head, level == 1) {
            return None;
        }
        if page.leaf() {
            let here = *self.leaves.get_or_insert(level) == level;
            return leaf_bounds(&page).filter(|_| here);
        }
        if level == MAX_LEVELS {
            return None;
        }
        let (first, mut last) = self.bounds(page.lower(0), level + 1)?;
        for i in 0..page.count() {
            let (low, high) = self.bounds(page.lower(i + 1), level + 1)?;
            if page.key(i) < last || page.key(i) >= low {
                return None;
            }
            last = high;
        }
        Some((first, last))
    }
}

/// The first and the last key of a leaf, if its entries are good.
fn leaf_bounds<'a>(page: &Page<'a>) -> Option<(&'a [u8], &'a [u8])> {
    let n = page.count();
    if n == 0 {
        return Some((&[], &[]));
    }
    let mut last = page.key(0);
    for i in 0..n {
        let key = page.key(i);
        if page.lower(i) != 0 || page.record(i) == 0 || (i > 0 && key <= last) {
            return None;
        }
        last = key;
    }
    Some((page.key(0), last))
}

pub fn lookup(b: &[u8], key: &[u8]) -> Looked {
    let Some(head) = header(b) else {
        return Looked::Refused(24);
    };
    if key.len() != head.k {
        return Looked::Refused(27);
    }
    let mut p = head.root;
    for pages in 1..=MAX_LEVELS as u32 {
        if !head.has(p) {
            return Looked::Refused(25);
        }
        let page = Page::at(b, &head, p);
        let last = pages == MAX_LEVELS as u32;
        if !page.count_good(&head, pages == 1) || (last && !page.leaf()) {
            return Looked::Refused(25);
        }
        let n = page.count();
        let i = (0..n).find(|&i| page.key(i) >= key).unwrap_or(n);
        if page.leaf() {
            return if i < n && page.key(i) == key {
                Looked::Found(page.record(i), pages)
            } else {
                Looked::Absent(pages)
            };
        }
        p = page.lower(i);
    }
    unreachable!("the last page is a leaf")
}
