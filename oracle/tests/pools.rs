//! The random pools reach what they are for: no sample, lengths about a clip's end, and samples of every kind.

use oracle::generate::pools::pool_for;
use oracle::text::from_text;
use std::collections::BTreeSet;

#[test]
fn every_kind_and_length_is_reached() {
    let tape = from_text("create 1 all 1\npush 0 1 0 0 smooth clip 100 50\n").expect("a tape");
    let pools: Vec<_> = (0..200).map(|seed| pool_for(&tape, seed).0).collect();
    let lengths: BTreeSet<usize> = pools.iter().map(|pool| pool.len()).collect();
    for length in [0, 1, 99, 100, 101, 149, 150, 151, 4096] {
        assert!(lengths.contains(&length), "{length}");
    }
    let any = |test: fn(&f32) -> bool| pools.iter().any(|pool| pool.iter().any(test));
    let all = |test: fn(&f32) -> bool| {
        let mut pools = pools.iter().filter(|pool| !pool.is_empty());
        pools.any(|pool| pool.iter().all(test))
    };
    assert!(all(|x| x.is_normal() && *x < 0.0));
    assert!(all(|x| x.is_subnormal()));
    assert!(any(|x| x.is_nan() && x.is_sign_negative()));
    assert!(any(|x| *x == f32::INFINITY) && any(|x| *x == f32::NEG_INFINITY));
}

#[test]
fn a_seed_has_one_pool() {
    let tape = from_text("create 1 all 1\ntick\n").expect("a tape");
    let bits = |seed| -> Vec<u32> {
        let (pool, _) = pool_for(&tape, seed);
        pool.iter().map(|sample| sample.to_bits()).collect()
    };
    assert_eq!(bits(7), bits(7));
    assert_ne!(bits(7), bits(8));
}
