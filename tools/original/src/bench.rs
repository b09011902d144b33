//! Times the original's map and std's, with the same calls as crates/bench makes on a bank. Prints a line for each map, order of keys and call, with
//! the nanoseconds of the shortest of several rounds.
use std::hint::black_box;
use std::time::Instant;

const ENTRIES: u32 = 20_000;
const CUTS: u32 = 15;

type Theirs = original::btree::map::BTreeMap<u32, u32>;
type Std = std::collections::BTreeMap<u32, u32>;

fn mixed(idx: u32) -> u32 {
    idx.wrapping_mul(2_654_435_761)
}

fn rising(idx: u32) -> u32 {
    idx
}

/// A map as the rounds use it.
trait Map: Sized {
    fn empty() -> Self;
    fn put(&mut self, key: u32, value: u32);
    fn look(&self, key: u32) -> Option<u32>;
    fn cut(&mut self, key: u32) -> Self;
    fn walk(self) -> u64;
}

impl Map for Theirs {
    fn empty() -> Theirs {
        Theirs::new()
    }
    fn put(&mut self, key: u32, value: u32) {
        self.try_insert(key, value).expect("memory");
    }
    fn look(&self, key: u32) -> Option<u32> {
        self.get(&key).copied()
    }
    fn cut(&mut self, key: u32) -> Theirs {
        self.split_off(&key).expect("memory")
    }
    fn walk(self) -> u64 {
        self.into_iter().map(|(_, value)| u64::from(value)).sum()
    }
}

impl Map for Std {
    fn empty() -> Std {
        Std::new()
    }
    fn put(&mut self, key: u32, value: u32) {
        self.insert(key, value);
    }
    fn look(&self, key: u32) -> Option<u32> {
        self.get(&key).copied()
    }
    fn cut(&mut self, key: u32) -> Std {
        self.split_off(&key)
    }
    fn walk(self) -> u64 {
        self.into_iter().map(|(_, value)| u64::from(value)).sum()
    }
}

fn full<M: Map>(key: fn(u32) -> u32) -> M {
    let mut map = M::empty();
    for idx in 0..ENTRIES {
        map.put(key(idx), idx);
    }
    map
}

/// What a function gives, and the nanoseconds that it takes.
fn timed<R>(f: impl FnOnce() -> R) -> (R, u64) {
    let start = Instant::now();
    let given = black_box(f());
    (given, start.elapsed().as_nanos() as u64)
}

fn round<M: Map>(key: fn(u32) -> u32, most: u32) -> [u64; 5] {
    let (mut map, insert) = timed(|| full::<M>(key));
    let (_, lookup) = timed(|| (0..ENTRIES).map(|idx| u64::from(map.look(key(idx)).unwrap_or(0))).sum::<u64>());
    let (parts, cut) = timed(|| {
        (1..=CUTS)
            .map(|part| map.cut((most / (CUTS + 1)).wrapping_mul(CUTS + 1 - part)))
            .collect::<Vec<M>>()
    });
    drop(parts);
    let map = full::<M>(key);
    let (_, walk) = timed(|| map.walk());
    let map = full::<M>(key);
    let (_, release) = timed(|| drop(map));
    [insert, lookup, cut, walk, release]
}

fn print<M: Map>(name: &str, rounds: u32) {
    for (order, key, most) in [("mixed", mixed as fn(u32) -> u32, u32::MAX), ("rising", rising, ENTRIES)] {
        let mut least = [u64::MAX; 5];
        for _ in 0..rounds {
            for (kept, new) in least.iter_mut().zip(round::<M>(key, most)) {
                *kept = (*kept).min(new);
            }
        }
        for (call, nanos) in ["insert", "lookup", "cut", "walk", "release"].iter().zip(least) {
            println!("{name} {order} {call} {nanos}");
        }
    }
}

fn main() {
    let rounds = std::env::args().nth(1).map_or(5, |word| word.parse().expect("a number of rounds"));
    print::<Theirs>("original", rounds);
    print::<Std>("std", rounds);
}
