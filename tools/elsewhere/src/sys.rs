//! The static library as it is: `bank.h` in Rust.

pub const PLACES: usize = 16;
pub const MOST_NODES: usize = 4096;

/// The number of the refusal of fields that are not those of a bank.
pub const NOT_A_BANK: u16 = 65535;

#[repr(C)]
#[derive(Clone, Copy, PartialEq, Eq, Debug)]
pub struct Head {
    pub parent: u16,
    pub place: u16,
    pub len: u16,
    pub edges: [u16; 12],
}

#[repr(C)]
#[derive(Clone, Copy, PartialEq, Eq, Debug)]
pub struct Place {
    pub kind: u16,
    pub root: u16,
    pub height: u16,
    pub front_node: u16,
    pub front_edge: u16,
    pub back_node: u16,
    pub back_edge: u16,
    pub count: usize,
}

#[repr(C)]
#[derive(Clone, Copy, PartialEq, Eq, Debug)]
pub struct Supply {
    pub size: u16,
    pub left: u16,
    pub head: u16,
    pub links: [u16; MOST_NODES],
}

#[repr(C)]
#[derive(Clone, Copy, PartialEq, Eq, Debug)]
pub struct Bank {
    pub nodes: usize,
    pub places: [Place; PLACES],
    pub supply: Supply,
}

#[repr(C)]
#[derive(Clone, Copy, PartialEq, Eq, Debug)]
pub struct Verdict {
    pub code: u16,
    pub needed: u16,
    pub allowance: u16,
}

#[repr(C)]
pub struct InsertReply {
    pub verdict: Verdict,
    pub replaced: bool,
    pub old: u32,
}

#[repr(C)]
pub struct LookupReply {
    pub verdict: Verdict,
    pub found: bool,
    pub value: u32,
    pub comparisons: usize,
}

#[repr(C)]
pub struct CountReply {
    pub verdict: Verdict,
    pub count: usize,
}

#[repr(C)]
pub struct CutReply {
    pub verdict: Verdict,
    pub left: usize,
    pub right: usize,
    pub comparisons: usize,
}

#[repr(C)]
pub struct StepReply {
    pub verdict: Verdict,
    pub handed: bool,
    pub key: u32,
    pub value: u32,
}

#[repr(C)]
pub struct AuditReply {
    pub verdict: Verdict,
    pub good: bool,
}

// The sizes that a C compiler gives the structs of `bank.h` (`example.c`).
const _: () = {
    assert!(size_of::<Head>() == 30);
    assert!(size_of::<Place>() == 24);
    assert!(size_of::<Supply>() == 8198);
    assert!(size_of::<Bank>() == 8592);
    assert!(size_of::<InsertReply>() == 12);
    assert!(size_of::<LookupReply>() == 24);
    assert!(size_of::<CountReply>() == 16);
    assert!(size_of::<CutReply>() == 32);
    assert!(size_of::<StepReply>() == 16);
    assert!(size_of::<AuditReply>() == 8);
};

/// Declares the calls that read the tables, and those that write them too: the bank, then each table as a pointer and a length, then the rest.
macro_rules! calls {
    ($(fn $name:ident($pass:ident $table:ident $($arg:ident: $kind:ty),*) -> $reply:ty;)*) => {
        unsafe extern "C" {
            $(pub fn $name(
                bank: calls!(@$pass Bank),
                heads: calls!(@$table Head), heads_len: usize,
                keys: calls!(@$table u32), keys_len: usize,
                values: calls!(@$table u32), values_len: usize,
                $($arg: $kind),*
            ) -> $reply;)*
        }
    };
    (@read $target:ty) => { *const $target };
    (@write $target:ty) => { *mut $target };
}

calls! {
    fn bank_lay_out(write read) -> Verdict;
    fn bank_insert(write write place: usize, key: u32, value: u32) -> InsertReply;
    fn bank_lookup(read read place: usize, key: u32) -> LookupReply;
    fn bank_count(read read place: usize) -> CountReply;
    fn bank_cut(write write place: usize, other: usize, key: u32) -> CutReply;
    fn bank_open(write read place: usize) -> Verdict;
    fn bank_next(write read place: usize) -> StepReply;
    fn bank_next_back(write read place: usize) -> StepReply;
    fn bank_close(write read place: usize) -> CountReply;
    fn bank_release(write read place: usize) -> CountReply;
    fn bank_audit(read read) -> AuditReply;
}

unsafe extern "C" {
    pub fn bank_new(nodes: u16) -> Bank;
}
