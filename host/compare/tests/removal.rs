//! What removal means to a host: levels never fall but to one, so insertions can be refused by 30 with few keys left, and a fresh index is the way out.
use gatherloom::Index;
use gatherloom_compare::reference;

const K: usize = 100;

type Insert = fn(&mut [u8], &[u8]) -> u32;
type Remove = fn(&mut [u8], &[u8]) -> u32;

fn count(b: &[u8], p: usize) -> usize {
    u16::from_le_bytes([b[p + 2], b[p + 3]]) as usize
}

fn is_leaf(b: &[u8], p: usize) -> bool {
    b[p] & 2 != 0
}

fn root(b: &[u8]) -> usize {
    u32::from_le_bytes(b[..4].try_into().unwrap()) as usize
}

fn child(b: &[u8], p: usize, i: usize) -> usize {
    let at = p + 12 + i * (K + 4) + K;
    u32::from_be_bytes(b[at..at + 4].try_into().unwrap()) as usize
}

fn keys(b: &[u8], p: usize) -> Vec<Vec<u8>> {
    let key = |i: usize| b[p + 12 + i * (K + 4)..][..K].to_vec();
    if is_leaf(b, p) {
        return (0..count(b, p)).map(key).collect();
    }
    (0..count(b, p))
        .flat_map(|i| keys(b, child(b, p, i)))
        .collect()
}

/// The keys that can go without emptying a child of the right edge's pages: all but the first under each child that is no last one. And the levels.
fn spare(b: &[u8]) -> (Vec<Vec<u8>>, usize) {
    let (mut found, mut levels, mut p) = (Vec::new(), 1, root(b));
    while !is_leaf(b, p) {
        let last = count(b, p) - 1;
        for i in 0..last {
            found.extend(keys(b, child(b, p, i)).into_iter().skip(1));
        }
        levels += 1;
        p = child(b, p, last);
    }
    (found, levels)
}

fn number(i: usize) -> Vec<u8> {
    format!("{i:0100}").into_bytes()
}

/// Inserts ascending keys and strikes off those that can be spared, until there are 12 levels. Each level more takes three times as many insertions.
fn fill(insert: Insert, remove: Remove) {
    let mut b = vec![0; 1_048_576];
    reference::fresh(&mut b, K as u32, 1, b"KEY").unwrap();
    let mut made = 0;
    while spare(&b).1 < 12 {
        for key in spare(&b).0 {
            assert_eq!(remove(&mut b, &key), 0);
        }
        assert_eq!(insert(&mut b, &number(made + 1)), 0);
        made += 1;
    }
    let left = keys(&b, root(&b));
    assert_eq!((made, left.len()), (265_721, 35));
    // the way out
    reference::fresh(&mut b, K as u32, 1, b"KEY").unwrap();
    for key in left {
        assert_eq!(insert(&mut b, &key), 0);
    }
    assert_eq!(insert(&mut b, &number(made + 1)), 0);
    assert_eq!(spare(&b).1, 3);
}

#[test]
fn few_keys_in_twelve_levels_by_the_library() {
    fill(
        |b, key| {
            Index::over(b)
                .insert(key, 1)
                .err()
                .map_or(0, |refusal| refusal.code())
        },
        |b, key| {
            Index::over(b)
                .remove(key, 0)
                .err()
                .map_or(0, |refusal| refusal.code())
        },
    );
}

#[test]
fn few_keys_in_twelve_levels_in_plain_rust() {
    fill(
        |b, key| reference::insert(b, key, 1).err().unwrap_or(0),
        |b, key| reference::remove(b, key, 0).err().unwrap_or(0),
    );
}
