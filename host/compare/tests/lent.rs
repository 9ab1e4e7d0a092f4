//! What watches lent memory does notice a byte written inside it, and one written beside it.
use gatherloom_compare::lent::{Arena, Out};

#[test]
fn a_byte_changed_inside_is_noticed() {
    let mut arena = Arena::new(100);
    for at_end in [false, true] {
        let lent = arena.lend(b"0123456789", at_end);
        assert!(lent.kept());
        unsafe { *lent.place().add(9) ^= 1 };
        assert!(!lent.kept());
        assert!(lent.holds(b"0123456788"));
    }
}

#[test]
fn a_byte_changed_beside_is_noticed() {
    let mut arena = Arena::new(100);
    let lent = arena.lend(b"0123456789", false);
    unsafe { *lent.place().add(10) ^= 1 };
    assert!(!lent.kept());
    let lent = arena.lend(b"0123456789", true);
    assert!(lent.kept());
    unsafe { *lent.place().sub(1) ^= 1 };
    assert!(!lent.kept());
}

#[test]
fn a_number_written_too_wide_is_noticed() {
    let mut out = Out::new(7u64);
    assert!(out.intact());
    unsafe { *out.place().add(1) = 0 };
    assert!(!out.intact());
    let mut out = Out::new(7u64);
    unsafe { *out.place().sub(1) = 0 };
    assert!(!out.intact());
}
