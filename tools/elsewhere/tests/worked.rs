//! Worked cases, through the wrapper.

use elsewhere::{Bank, Cut, Found, Place, Refusal};
use std::thread;

/// The keys 1 to 12 in order, each under ten times itself, in place 0.
fn twelve(nodes: u16) -> Bank {
    let mut bank = Bank::new(nodes).unwrap();
    for key in 1..=12 {
        assert_eq!(bank.insert(0, key, 10 * key), Ok(None));
    }
    bank
}

/// The keys of the root of a place, and those of its children, where these are leaves.
fn rows(bank: &Bank, at: usize) -> (Vec<u32>, Vec<Vec<u32>>) {
    let Some(Place::Tree { root, height, .. }) = bank.place(at) else {
        panic!("no tree stands in {at}");
    };
    let root = bank.node(root).unwrap();
    let leaves = match height {
        0 => Vec::new(),
        1 => (root.edges.iter())
            .map(|edge| bank.node(*edge).unwrap().keys.to_vec())
            .collect(),
        _ => panic!("the tree is too high"),
    };
    (root.keys.to_vec(), leaves)
}

#[test]
fn twelve_in_order_split_the_leaf_at_seven() {
    let bank = twelve(8);
    let leaves = vec![(1..=6).collect(), (8..=12).collect::<Vec<u32>>()];
    assert_eq!(rows(&bank, 0), (vec![7], leaves));
    assert_eq!(bank.count(0), Ok(12));
    assert_eq!(bank.unused(), 5);
    assert_eq!(bank.audit(), Ok(true));
}

#[test]
fn values_are_found_under_their_keys() {
    let mut bank = twelve(8);
    let seven = Found {
        value: Some(70),
        comparisons: 1,
    };
    assert_eq!(bank.lookup(0, 7), Ok(seven));
    assert_eq!(bank.lookup(0, 13).unwrap().value, None);
    assert_eq!(bank.insert(0, 7, 71), Ok(Some(70)));
    assert_eq!(bank.lookup(0, 7).unwrap().value, Some(71));
    assert_eq!(
        bank.lookup(1, 7),
        Ok(Found {
            value: None,
            comparisons: 0
        })
    );
}

#[test]
fn a_cut_at_seven_leaves_six_on_each_side() {
    let mut bank = twelve(8);
    let parts = Cut {
        left: 6,
        right: 6,
        comparisons: 7,
    };
    assert_eq!(bank.cut(0, 1, 7), Ok(parts));
    assert_eq!(rows(&bank, 0), ((1..=6).collect(), Vec::new()));
    assert_eq!(rows(&bank, 1), ((7..=12).collect(), Vec::new()));
    assert_eq!(bank.unused(), 6);
    assert_eq!(bank.audit(), Ok(true));
}

#[test]
fn a_cut_without_nodes_is_declined_and_changes_nothing() {
    let mut bank = twelve(4);
    let short = Refusal::Short {
        needed: 2,
        allowance: 1,
    };
    let before = rows(&bank, 0);
    assert_eq!(bank.cut(0, 1, 7), Err(short));
    assert_eq!(rows(&bank, 0), before);
    assert_eq!(bank.place(1), Some(Place::Bare));
    assert_eq!(bank.unused(), 1);
    assert_eq!(bank.audit(), Ok(true));
}

#[test]
fn an_insertion_without_nodes_is_refused_and_changes_nothing() {
    let mut bank = Bank::new(1).unwrap();
    for key in 1..=11 {
        assert_eq!(bank.insert(0, key, key), Ok(None));
    }
    let short = Refusal::Short {
        needed: 2,
        allowance: 0,
    };
    assert_eq!(bank.insert(0, 12, 12), Err(short));
    assert_eq!(bank.count(0), Ok(11));
    assert_eq!(bank.insert(0, 11, 110), Ok(Some(11)));
    assert_eq!(bank.audit(), Ok(true));
}

#[test]
fn a_walk_hands_out_from_both_ends() {
    let mut bank = twelve(8);
    bank.open(0).unwrap();
    assert_eq!(bank.place(0), Some(Place::Walk { left: 12 }));
    for key in 1..=7 {
        assert_eq!(bank.next(0), Ok(Some((key, 10 * key))));
    }
    assert_eq!(bank.next_back(0), Ok(Some((12, 120))));
    assert_eq!(bank.count(0), Ok(4));
    assert_eq!(bank.audit(), Ok(true));
    assert_eq!(bank.close(0), Ok(4));
    assert_eq!(bank.place(0), Some(Place::Bare));
    assert_eq!(bank.unused(), 8);
}

#[test]
fn a_walk_ends_where_its_ends_meet() {
    let mut bank = Bank::new(1).unwrap();
    bank.insert(3, 1, 10).unwrap();
    bank.insert(3, 2, 20).unwrap();
    bank.open(3).unwrap();
    assert_eq!(bank.next_back(3), Ok(Some((2, 20))));
    assert_eq!(bank.next(3), Ok(Some((1, 10))));
    assert_eq!(bank.next(3), Ok(None));
    assert_eq!(bank.next_back(3), Ok(None));
    assert_eq!(bank.close(3), Ok(0));
}

#[test]
fn a_release_drops_all() {
    let mut bank = twelve(8);
    assert_eq!(bank.release(0), Ok(12));
    assert_eq!(bank.count(0), Ok(0));
    assert_eq!(bank.unused(), 8);
}

#[test]
fn there_is_no_place_sixteen() {
    let mut bank = twelve(8);
    assert_eq!(bank.insert(16, 1, 1), Err(Refusal::Place));
    assert_eq!(bank.insert(usize::MAX, 1, 1), Err(Refusal::Place));
    assert_eq!(bank.lookup(16, 1), Err(Refusal::Place));
    assert_eq!(bank.count(16), Err(Refusal::Place));
    assert_eq!(bank.cut(0, 16, 1), Err(Refusal::Place));
    assert_eq!(bank.open(16), Err(Refusal::Place));
    assert_eq!(bank.next(16), Err(Refusal::Place));
    assert_eq!(bank.next_back(16), Err(Refusal::Place));
    assert_eq!(bank.close(16), Err(Refusal::Place));
    assert_eq!(bank.release(16), Err(Refusal::Place));
    assert_eq!(bank.insert(15, 1, 1), Ok(None));
}

#[test]
fn what_stands_in_a_place_may_not_allow_the_call() {
    let mut bank = twelve(8);
    for place in [0, 1] {
        assert_eq!(bank.next(place), Err(Refusal::Kind));
        assert_eq!(bank.next_back(place), Err(Refusal::Kind));
        assert_eq!(bank.close(place), Err(Refusal::Kind));
    }
    assert_eq!(bank.cut(0, 0, 7), Err(Refusal::Kind));
    bank.insert(1, 1, 1).unwrap();
    assert_eq!(bank.cut(0, 1, 7), Err(Refusal::Kind));
    bank.open(0).unwrap();
    assert_eq!(bank.insert(0, 1, 1), Err(Refusal::Kind));
    assert_eq!(bank.lookup(0, 1), Err(Refusal::Kind));
    assert_eq!(bank.cut(0, 2, 7), Err(Refusal::Kind));
    assert_eq!(bank.cut(1, 0, 7), Err(Refusal::Kind));
    assert_eq!(bank.open(0), Err(Refusal::Kind));
    assert_eq!(bank.release(0), Err(Refusal::Kind));
    assert_eq!(bank.count(0), Ok(12));
}

#[test]
fn calls_fit_into_64_kib_of_stack() {
    let mut bank = Bank::new(4096).unwrap();
    let calls = move || {
        for key in 0..20_000 {
            bank.insert(0, key, key).unwrap();
        }
        bank.cut(0, 1, 9_000).unwrap();
        bank.open(0).unwrap();
        while bank.next(0).unwrap().is_some() {}
        bank.close(0).unwrap();
        assert_eq!(bank.audit(), Ok(true));
        bank.release(1).unwrap()
    };
    let thread = thread::Builder::new().stack_size(64 << 10).spawn(calls);
    assert_eq!(thread.unwrap().join().unwrap(), 11_000);
}

#[test]
fn a_bank_has_one_to_4096_nodes() {
    assert_eq!(Bank::new(0).unwrap_err(), Refusal::Tables);
    assert!(Bank::new(1).is_ok());
    assert!(Bank::new(4096).is_ok());
    assert_eq!(Bank::new(4097).unwrap_err(), Refusal::Tables);
}
