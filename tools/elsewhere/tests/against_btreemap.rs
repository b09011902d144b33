//! Random calls, whose answers are compared with those of std's map.

use elsewhere::{Bank, Cut, Place, Refusal};
use std::collections::BTreeMap;

/// Numbers in no particular order, the same at each run.
struct Numbers(u64);

impl Numbers {
    fn below(&mut self, bound: u32) -> u32 {
        self.0 = self
            .0
            .wrapping_mul(6364136223846793005)
            .wrapping_add(1442695040888963407);
        ((self.0 >> 32) % u64::from(bound)) as u32
    }
}

/// What stands in a place, as std's map has it.
enum Book {
    Map(BTreeMap<u32, u32>),
    Walk(BTreeMap<u32, u32>),
}

impl Book {
    fn entries(&self) -> &BTreeMap<u32, u32> {
        match self {
            Book::Map(entries) | Book::Walk(entries) => entries,
        }
    }
}

/// Performs so many calls on a bank of so many nodes, and answers how many were refused for want of nodes.
fn run(start: u64, nodes: u16, calls: usize) -> usize {
    const PLACES: u32 = 4;
    let mut numbers = Numbers(start);
    let mut bank = Bank::new(nodes).unwrap();
    let mut books: Vec<Book> = (0..PLACES).map(|_| Book::Map(BTreeMap::new())).collect();
    let mut short = 0;
    for call in 0..calls {
        let place = numbers.below(PLACES) as usize;
        let key = numbers.below(2_000);
        match (numbers.below(40), &mut books[place]) {
            (0..=24, Book::Map(map)) => {
                let value = numbers.below(u32::MAX);
                match bank.insert(place, key, value) {
                    Ok(old) => assert_eq!(old, map.insert(key, value)),
                    Err(refusal) => {
                        assert!(matches!(refusal, Refusal::Short { .. }));
                        assert!(!map.contains_key(&key));
                        short += 1;
                    }
                }
            }
            (25..=33, Book::Map(map)) => {
                assert_eq!(
                    bank.lookup(place, key).unwrap().value,
                    map.get(&key).copied()
                );
            }
            (34 | 35, Book::Map(_)) => {
                let other = numbers.below(PLACES) as usize;
                match cut(&mut bank, &mut books, place, other, key) {
                    Ok(()) | Err(Refusal::Kind) => (),
                    Err(refusal) => {
                        assert!(matches!(refusal, Refusal::Short { .. }));
                        short += 1;
                    }
                }
            }
            (36, Book::Map(map)) => {
                bank.open(place).unwrap();
                books[place] = Book::Walk(std::mem::take(map));
            }
            (37, Book::Map(map)) if call % 8 == 0 => {
                assert_eq!(bank.release(place), Ok(map.len()));
                map.clear();
            }
            (0..=17, Book::Walk(left)) => assert_eq!(bank.next(place), Ok(left.pop_first())),
            (18..=35, Book::Walk(left)) => assert_eq!(bank.next_back(place), Ok(left.pop_last())),
            (36 | 37, Book::Walk(left)) => {
                assert_eq!(bank.close(place), Ok(left.len()));
                books[place] = Book::Map(BTreeMap::new());
            }
            (38, book) => assert_eq!(bank.count(place), Ok(book.entries().len())),
            _ => assert_eq!(bank.audit(), Ok(true)),
        }
    }
    for (place, book) in books.iter_mut().enumerate() {
        if let Book::Map(map) = book {
            bank.open(place).unwrap();
            while let Some(entry) = bank.next(place).unwrap() {
                assert_eq!(Some(entry), map.pop_first());
            }
            assert!(map.is_empty());
        }
        bank.close(place).unwrap();
    }
    assert_eq!(bank.unused(), nodes);
    short
}

/// Cuts a map, and compares; a walk or entries in the other place forbid it.
fn cut(
    bank: &mut Bank,
    books: &mut [Book],
    place: usize,
    other: usize,
    key: u32,
) -> Result<(), Refusal> {
    let allowed = place != other && bank.place(other) == Some(Place::Bare);
    let answer = bank.cut(place, other, key);
    assert_eq!(answer != Err(Refusal::Kind), allowed);
    let Cut { left, right, .. } = answer?;
    let Book::Map(map) = &mut books[place] else {
        panic!("a walk was cut");
    };
    let rest = map.split_off(&key);
    assert_eq!((left, right), (map.len(), rest.len()));
    books[other] = Book::Map(rest);
    Ok(())
}

#[test]
fn a_large_bank_answers_as_maps_do() {
    for start in 0..4 {
        assert_eq!(run(start, 4096, 20_000), 0);
    }
}

#[test]
fn a_small_bank_refuses_for_want_of_nodes_alone() {
    let short: usize = (0..8).map(|start| run(100 + start, 24, 5_000)).sum();
    assert!(short > 0);
}
