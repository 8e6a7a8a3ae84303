//! Which lanes are legal.

use model::lanes::lanes_legal;

#[test]
fn legal_lanes_are_aligned_and_adjacent() {
    assert!(lanes_legal(0b1100, 4));
    assert!(lanes_legal(0b1111, 4));
    assert!(!lanes_legal(0b0110, 4));
    assert!(!lanes_legal(0b0000, 4));
}

#[test]
fn a_width_has_as_many_legal_lanes_as_aligned_parts() {
    let legal = |width| (0..=255).filter(|&lanes| lanes_legal(lanes, width)).count();
    assert_eq!([1, 2, 4, 8].map(legal), [1, 3, 7, 15]);
}
