//! Calls with anything in the bank and in the tables: each comes to an end, and answers one of the numbers that there are.

use elsewhere::sys::{self, Bank, Head, MOST_NODES, NOT_A_BANK};

struct Numbers(u64);

impl Numbers {
    fn word(&mut self) -> u32 {
        self.0 = self
            .0
            .wrapping_mul(6364136223846793005)
            .wrapping_add(1442695040888963407);
        (self.0 >> 32) as u32
    }

    /// Small numbers, numbers near the limits, and any.
    fn number(&mut self) -> u16 {
        match self.word() % 4 {
            0 => (self.word() % 3) as u16,
            1 => (self.word() % 16) as u16,
            2 => [11, 12, 4095, 4096, 65534, 65535][self.word() as usize % 6],
            _ => self.word() as u16,
        }
    }
}

struct Tables {
    heads: Vec<Head>,
    keys: Vec<u32>,
    values: Vec<u32>,
}

impl Tables {
    fn any(numbers: &mut Numbers, nodes: usize, cells: usize) -> Tables {
        let head = |numbers: &mut Numbers| Head {
            parent: numbers.number(),
            place: numbers.number(),
            len: numbers.number(),
            edges: std::array::from_fn(|_| numbers.number()),
        };
        Tables {
            heads: (0..nodes).map(|_| head(numbers)).collect(),
            keys: (0..cells).map(|_| numbers.word()).collect(),
            values: (0..cells).map(|_| numbers.word()).collect(),
        }
    }
}

/// A call with the bank and the tables to be written, whatever it asks for.
macro_rules! call {
    ($name:ident, $bank:expr, $tables:expr $(, $arg:expr)*) => {{
        let (bank, tables): (&mut Bank, &mut Tables) = ($bank, $tables);
        // SAFETY: each pointer and length are those of one `Vec` that is lent alone.
        unsafe {
            sys::$name(
                bank,
                tables.heads.as_mut_ptr(), tables.heads.len(),
                tables.keys.as_mut_ptr(), tables.keys.len(),
                tables.values.as_mut_ptr(), tables.values.len(),
                $($arg),*
            )
        }
    }};
}

/// The codes of one call of each kind.
fn codes(numbers: &mut Numbers, bank: &mut Bank, tables: &mut Tables) -> Vec<u16> {
    let place = (numbers.word() % 17) as usize;
    let other = (numbers.word() % 17) as usize;
    let key = numbers.word();
    vec![
        call!(bank_audit, bank, tables).verdict.code,
        call!(bank_count, bank, tables, place).verdict.code,
        call!(bank_lookup, bank, tables, place, key).verdict.code,
        call!(bank_insert, bank, tables, place, key, 1).verdict.code,
        call!(bank_cut, bank, tables, place, other, key)
            .verdict
            .code,
        call!(bank_open, bank, tables, place).code,
        call!(bank_next, bank, tables, place).verdict.code,
        call!(bank_next_back, bank, tables, place).verdict.code,
        call!(bank_close, bank, tables, place).verdict.code,
        call!(bank_release, bank, tables, other).verdict.code,
        call!(bank_lay_out, bank, tables).code,
    ]
}

/// A bank that the library made and laid out.
fn laid_out(tables: &mut Tables) -> Box<Bank> {
    // SAFETY: the function asks nothing.
    let mut bank = Box::new(unsafe { sys::bank_new(tables.heads.len() as u16) });
    assert_eq!(call!(bank_lay_out, &mut bank, tables).code, 0);
    bank
}

#[test]
fn any_tables_and_places_are_answered() {
    let mut numbers = Numbers(1);
    for _ in 0..3_000 {
        let nodes = 1 + (numbers.word() % 12) as usize;
        let mut tables = Tables::any(&mut numbers, nodes, 11 * nodes);
        let mut bank = laid_out(&mut tables);
        for place in &mut bank.places {
            place.kind = (numbers.word() % 3) as u16;
            place.root = numbers.number();
            place.height = numbers.number();
            place.front_node = numbers.number();
            place.front_edge = numbers.number();
            place.back_node = numbers.number();
            place.back_edge = numbers.number();
            place.count = numbers.number() as usize;
        }
        for code in codes(&mut numbers, &mut bank, &mut tables) {
            assert!(code <= 6);
        }
    }
}

#[test]
fn fields_that_are_no_bank_are_refused_and_kept() {
    let mut numbers = Numbers(2);
    let mut tables = Tables::any(&mut numbers, 4, 44);
    let spoil: [fn(&mut Bank); 7] = [
        |bank| bank.places[15].kind = 3,
        |bank| bank.supply.size = 4097,
        |bank| bank.supply.left = 3,
        |bank| bank.supply.head = 4,
        |bank| bank.supply.head = 65535,
        |bank| bank.supply.links[1] = 0,
        |bank| bank.supply.links[2] = 65535,
    ];
    for spoil in spoil {
        let mut bank = laid_out(&mut tables);
        spoil(&mut bank);
        let before = *bank;
        let heads = tables.heads.clone();
        for code in codes(&mut numbers, &mut bank, &mut tables) {
            assert_eq!(code, NOT_A_BANK);
        }
        assert!(*bank == before && tables.heads == heads);
    }
}

#[test]
fn any_fields_are_answered() {
    let mut numbers = Numbers(3);
    let mut tables = Tables::any(&mut numbers, 4, 44);
    for round in 0..3_000 {
        let mut bank = laid_out(&mut tables);
        bank.supply.size = numbers.number();
        bank.supply.left = numbers.number();
        bank.supply.head = numbers.number();
        if round % 2 == 0 {
            bank.supply.links = std::array::from_fn(|_| numbers.number());
        }
        bank.nodes = numbers.number() as usize;
        for code in codes(&mut numbers, &mut bank, &mut tables) {
            assert!(code <= 6 || code == NOT_A_BANK);
        }
    }
}

#[test]
fn tables_that_do_not_fit_are_refused() {
    let mut numbers = Numbers(4);
    for (nodes, cells) in [
        (0, 0),
        (4, 43),
        (4, 45),
        (5, 55),
        (3, 33),
        (MOST_NODES + 1, 11 * (MOST_NODES + 1)),
    ] {
        let mut bank = laid_out(&mut Tables::any(&mut numbers, 4, 44));
        let mut tables = Tables::any(&mut numbers, nodes, cells);
        let before = *bank;
        let codes = codes(&mut numbers, &mut bank, &mut tables);
        let (lay_out, others) = codes.split_last().unwrap();
        assert!(others.iter().all(|code| *code == 1));
        assert_eq!(
            *lay_out,
            if cells == 11 * nodes && (1..=MOST_NODES).contains(&nodes) {
                2
            } else {
                1
            }
        );
        assert!(*bank == before);
    }
}
