//! A bank of sixteen ordered books of 32-bit keys and values, in safe Rust over the static library of `crates/bank_c`.
//!
//! A [`Bank`] owns its tables, and nothing but the library writes to them. So the library is never called with tables that do not fit, and what it
//! proves of a bank in good form holds of each call.

pub mod sys;

use std::error::Error;
use std::fmt;

/// The most entries in a node.
pub const CAPACITY: usize = 11;

/// Why a call was refused. Where it is not for a breach, nothing has changed.
#[derive(Clone, Copy, PartialEq, Eq, Debug)]
pub enum Refusal {
    /// The tables do not fit together, or are not of the bank's size.
    Tables,
    /// The supply is of another size than the tables, or a node is in use.
    Supply,
    /// There is no such place.
    Place,
    /// What stands in the place does not allow the call.
    Kind,
    /// The bank or its tables are not in good form.
    Breach,
    /// More nodes are needed than are left.
    Short { needed: u16, allowance: u16 },
    /// The fields of the bank are not those of a bank.
    NotABank,
}

impl fmt::Display for Refusal {
    fn fmt(&self, f: &mut fmt::Formatter<'_>) -> fmt::Result {
        match self {
            Refusal::Tables => write!(f, "the tables are not those of the bank"),
            Refusal::Supply => write!(f, "the supply is not that of the tables"),
            Refusal::Place => write!(f, "there is no such place"),
            Refusal::Kind => write!(f, "what stands in the place does not allow the call"),
            Refusal::Breach => write!(f, "the bank is not in good form"),
            Refusal::Short { needed, allowance } => {
                write!(f, "{needed} nodes are needed, and {allowance} are left")
            }
            Refusal::NotABank => write!(f, "the fields are not those of a bank"),
        }
    }
}

impl Error for Refusal {}

impl sys::Verdict {
    /// Whether the call was granted, or why not.
    pub fn granted(self) -> Result<(), Refusal> {
        Err(match self.code {
            0 => return Ok(()),
            1 => Refusal::Tables,
            2 => Refusal::Supply,
            3 => Refusal::Place,
            4 => Refusal::Kind,
            5 => Refusal::Breach,
            6 => Refusal::Short {
                needed: self.needed,
                allowance: self.allowance,
            },
            sys::NOT_A_BANK => Refusal::NotABank,
            code => unreachable!("the library answers no {code}"),
        })
    }
}

/// A value, if there is one, and the comparisons made for it.
#[derive(Clone, Copy, PartialEq, Eq, Debug)]
pub struct Found {
    pub value: Option<u32>,
    pub comparisons: usize,
}

/// The entries of both parts, and the comparisons made.
#[derive(Clone, Copy, PartialEq, Eq, Debug)]
pub struct Cut {
    pub left: usize,
    pub right: usize,
    pub comparisons: usize,
}

/// What stands in a place.
#[derive(Clone, Copy, PartialEq, Eq, Debug)]
pub enum Place {
    Bare,
    Tree {
        root: u16,
        height: u16,
        count: usize,
    },
    Walk {
        left: usize,
    },
}

/// A node as it stands in the tables. In a leaf the edges say nothing.
#[derive(Clone, Copy, PartialEq, Eq, Debug)]
pub struct Node<'a> {
    pub keys: &'a [u32],
    pub values: &'a [u32],
    pub edges: &'a [u16],
}

/// Sixteen books over so many nodes.
#[derive(Clone, Debug)]
pub struct Bank {
    bank: Box<sys::Bank>,
    heads: Vec<sys::Head>,
    keys: Vec<u32>,
    values: Vec<u32>,
}

// Each of these calls the library with the bank and its tables.
//
// SAFETY: the declarations are those of `bank.h`. Each pointer and length are those of one `Vec`, and the bank's pointer that of a `Box`, so they are
// aligned, not null, within memory that is written, and apart from each other. Both are lent for the call: `&mut` where the library writes.
macro_rules! call {
    ($self:ident.$name:ident, $bank:expr, $pointer:ident; $($arg:expr),*) => {
        unsafe {
            sys::$name(
                $bank,
                $self.heads.$pointer(), $self.heads.len(),
                $self.keys.$pointer(), $self.keys.len(),
                $self.values.$pointer(), $self.values.len(),
                $($arg),*
            )
        }
    };
}

macro_rules! reading {
    ($self:ident.$name:ident($($arg:expr),*)) => {
        call!($self.$name, &*$self.bank, as_ptr; $($arg),*)
    };
}

macro_rules! writing_bank {
    ($self:ident.$name:ident($($arg:expr),*)) => {
        call!($self.$name, &mut *$self.bank, as_ptr; $($arg),*)
    };
}

macro_rules! writing_all {
    ($self:ident.$name:ident($($arg:expr),*)) => {
        call!($self.$name, &mut *$self.bank, as_mut_ptr; $($arg),*)
    };
}

impl Bank {
    /// A bank of 1 to 4096 nodes, with bare places. Any other number is refused.
    pub fn new(nodes: u16) -> Result<Bank, Refusal> {
        let cells = CAPACITY * usize::from(nodes);
        let head = sys::Head {
            parent: 0,
            place: 0,
            len: 0,
            edges: [0; 12],
        };
        let mut bank = Bank {
            // SAFETY: the declaration is that of `bank.h`, and the function asks nothing.
            bank: Box::new(unsafe { sys::bank_new(nodes) }),
            heads: vec![head; usize::from(nodes)],
            keys: vec![0; cells],
            values: vec![0; cells],
        };
        writing_bank!(bank.bank_lay_out()).granted()?;
        Ok(bank)
    }

    /// Puts an entry into a bare place or a tree. Answers the old value, where the key was there.
    pub fn insert(&mut self, place: usize, key: u32, value: u32) -> Result<Option<u32>, Refusal> {
        let reply = writing_all!(self.bank_insert(place, key, value));
        reply.verdict.granted()?;
        Ok(reply.replaced.then_some(reply.old))
    }

    /// The value under a key of a bare place or a tree.
    pub fn lookup(&self, place: usize, key: u32) -> Result<Found, Refusal> {
        let reply = reading!(self.bank_lookup(place, key));
        reply.verdict.granted()?;
        Ok(Found {
            value: reply.found.then_some(reply.value),
            comparisons: reply.comparisons,
        })
    }

    /// How many entries a place has, or a walk has left.
    pub fn count(&self, place: usize) -> Result<usize, Refusal> {
        let reply = reading!(self.bank_count(place));
        reply.verdict.granted()?;
        Ok(reply.count)
    }

    /// Cuts a bare place or a tree at a key: what is below it stays, and the rest goes to the bare place `other`.
    pub fn cut(&mut self, place: usize, other: usize, key: u32) -> Result<Cut, Refusal> {
        let reply = writing_all!(self.bank_cut(place, other, key));
        reply.verdict.granted()?;
        Ok(Cut {
            left: reply.left,
            right: reply.right,
            comparisons: reply.comparisons,
        })
    }

    /// Makes a bare place or a tree a walk over all its entries.
    pub fn open(&mut self, place: usize) -> Result<(), Refusal> {
        writing_bank!(self.bank_open(place)).granted()
    }

    /// Hands out the least entry left of a walk.
    pub fn next(&mut self, place: usize) -> Result<Option<(u32, u32)>, Refusal> {
        let reply = writing_bank!(self.bank_next(place));
        reply.verdict.granted()?;
        Ok(reply.handed.then_some((reply.key, reply.value)))
    }

    /// Hands out the greatest entry left of a walk.
    pub fn next_back(&mut self, place: usize) -> Result<Option<(u32, u32)>, Refusal> {
        let reply = writing_bank!(self.bank_next_back(place));
        reply.verdict.granted()?;
        Ok(reply.handed.then_some((reply.key, reply.value)))
    }

    /// Closes a walk, and answers how many entries were dropped.
    pub fn close(&mut self, place: usize) -> Result<usize, Refusal> {
        let reply = writing_bank!(self.bank_close(place));
        reply.verdict.granted()?;
        Ok(reply.count)
    }

    /// Releases a bare place or a tree, and answers how many entries were dropped.
    pub fn release(&mut self, place: usize) -> Result<usize, Refusal> {
        let reply = writing_bank!(self.bank_release(place));
        reply.verdict.granted()?;
        Ok(reply.count)
    }

    /// Whether the bank is in good form.
    pub fn audit(&self) -> Result<bool, Refusal> {
        let reply = reading!(self.bank_audit());
        reply.verdict.granted()?;
        Ok(reply.good)
    }

    /// What stands in a place, if there is such a one.
    pub fn place(&self, at: usize) -> Option<Place> {
        let place = self.bank.places.get(at)?;
        Some(match place.kind {
            1 => Place::Tree {
                root: place.root,
                height: place.height,
                count: place.count,
            },
            2 => Place::Walk { left: place.count },
            _ => Place::Bare,
        })
    }

    /// A node of the tables, if there is such a one.
    pub fn node(&self, number: u16) -> Option<Node<'_>> {
        let head = self.heads.get(usize::from(number))?;
        let len = usize::from(head.len).min(CAPACITY);
        let start = CAPACITY * usize::from(number);
        Some(Node {
            keys: &self.keys[start..start + len],
            values: &self.values[start..start + len],
            edges: &head.edges[..=len],
        })
    }

    /// How many nodes are in no book.
    pub fn unused(&self) -> u16 {
        self.bank.supply.left
    }
}
