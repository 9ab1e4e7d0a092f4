//! The inputs of a round for NDX indexes, and the calls made on them.
use crate::calls::{self, NDX};
use crate::rounds::{key_length, probe, Arenas, MOST};
use crate::tally::Tally;
use gatherloom_compare::generate::index::{self, Entry};
use gatherloom_compare::generate::ndx::{self, Form, Shape};
use gatherloom_compare::random::Random;

pub fn round(r: &mut Random, a: &mut Arenas, tally: &mut Tally) {
    made_index(r, a, tally);
    if r.one_in(4) {
        chain(r, a, tally);
    }
    if r.one_in(300) {
        large_index(r, a, tally);
    }
    if r.one_in(600) {
        deepest_index(r, a, tally);
    }
}

/// An audit and lookups on an index.
fn use_index(
    r: &mut Random,
    a: &mut Arenas,
    tally: &mut Tally,
    bytes: &[u8],
    entries: &[Entry],
    style: usize,
) {
    let k = entries.first().map_or(1, |e| e.0.len());
    let lent = a.index.lend(bytes, r.one_in(2));
    calls::audit(tally, &NDX, &lent, bytes);
    for _ in 0..6 {
        let key = probe(r, k, entries, style);
        let key = a.key.lend(&key, r.one_in(2));
        calls::lookup(tally, &NDX, &lent, bytes, &key, r.word());
    }
}

/// A sound tree of a random shape, its keys above exact or raised, then damaged copies of it.
fn made_index(r: &mut Random, a: &mut Arenas, tally: &mut Tally) {
    let k = key_length(r);
    let style = r.below(8);
    let draws = r.pick(&[0, 1, 2, 4, 10, 40, 120]);
    let entries = index::entries(r, k, draws, style);
    let full = Form::full(k);
    let most = match r.below(3) {
        0 => full.most,
        1 => r.between(1, full.most),
        _ => r.between(1, full.most.min(3)),
    };
    let shape = Shape {
        full: r.one_in(4),
        raised: r.one_in(2),
        scattered: r.one_in(2),
    };
    let (mut sound, entries) = ndx::tree(r, Form { k, most }, &entries, shape);
    let slack = r.pick(&[0, 0, 1, 512, 1024, 3000]);
    sound.extend(r.bytes(slack));
    use_index(r, a, tally, &sound, entries, style);
    for _ in 0..8 {
        let mut bytes = sound.clone();
        for _ in 0..r.pick(&[1, 1, 1, 2, 4]) {
            ndx::damage(r, &mut bytes);
        }
        if r.one_in(16) {
            bytes.truncate(r.below(bytes.len() + 1));
        }
        use_index(r, a, tally, &bytes, entries, style);
    }
}

/// A path of up to 17 pages, whose end lookup reaches or is refused at.
fn chain(r: &mut Random, a: &mut Arenas, tally: &mut Tally) {
    let k = key_length(r);
    let levels = r.pick(&[1, 2, 9, 14, 15, 15, 16, 17]);
    let (mut bytes, entry) = ndx::chain(r, k, levels);
    use_index(r, a, tally, &bytes, &[entry.clone()], 0);
    ndx::damage(r, &mut bytes);
    use_index(r, a, tally, &bytes, &[entry], 0);
}

/// An index of up to 16 MiB, with few pages less than may be or some more, and a damaged copy.
fn large_index(r: &mut Random, a: &mut Arenas, tally: &mut Tally) {
    let form = Form::full(r.pick(&[8, 46, 100, 100]));
    // a full page of n keys over n + 1 full leaves, and so on: nearly n / (n + 1) of the pages are leaves
    let leaves = 32_767 * form.most / (form.most + 1);
    let draws = leaves * form.most + 1 - r.below(2 * form.most);
    let style = r.pick(&[0, 4]);
    let entries = index::entries(r, form.k, draws, style);
    let shape = Shape {
        full: true,
        raised: r.one_in(2),
        scattered: r.one_in(2),
    };
    let (mut bytes, entries) = ndx::tree(r, form, &entries, shape);
    bytes.truncate(MOST + 4096);
    use_index(r, a, tally, &bytes, entries, style);
    ndx::damage(r, &mut bytes);
    use_index(r, a, tally, &bytes, entries, style);
}

/// 15 levels of one key a page, which fill 16 MiB, and a damaged copy.
fn deepest_index(r: &mut Random, a: &mut Arenas, tally: &mut Tally) {
    let form = Form { k: 5, most: 1 };
    let entries = index::entries(r, form.k, 16_500, 4);
    let shape = Shape {
        full: true,
        raised: r.one_in(2),
        scattered: r.one_in(2),
    };
    let (mut bytes, entries) = ndx::tree(r, form, &entries, shape);
    use_index(r, a, tally, &bytes, entries, 4);
    ndx::damage(r, &mut bytes);
    use_index(r, a, tally, &bytes, entries, 4);
}
