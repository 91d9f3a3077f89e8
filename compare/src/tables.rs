//! Good tables, mostly small so that transactions meet on the same objects.

use crate::draft::{Tables, CEILING_2};
use crate::random::Random;
use std::ops::RangeInclusive;

const MOST_TRANSACTIONS: usize = 64;
pub const MOST_DEPENDENCIES: usize = 128;
/// Kinds from this one to 7 bar a begin, lower ones a commit.
pub const LOWEST_BEGIN_KIND: u32 = 4;

/// Tables that are taken.
pub fn good_tables(random: &mut Random) -> Tables {
    let steps = saga_steps(random);
    let in_sagas = 2 * steps.iter().sum::<u32>() as usize;
    let room = MOST_TRANSACTIONS - in_sagas;
    let plain = match random.below(30) {
        0 => room,
        1 => 0,
        _ => random.within(1..=9).min(room),
    };
    let objects = match random.below(30) {
        0 => 0,
        1 => 32,
        2..=9 => 1,
        _ => random.within(1..=4),
    };
    let mut tables = Tables {
        records: office_records(random),
        steps,
        plain: plain as u32,
        objects: objects as u32,
        dependencies: Vec::new(),
    };
    let entries = match random.below(40) {
        0 => MOST_DEPENDENCIES,
        1..=15 => 0,
        _ => random.within(1..=8),
    };
    declare_dependencies(random, &mut tables, entries);
    tables
}

/// Every third time a book is in edition 2: then the pupil records that its
/// operations are about, most of them at the ends of what one, two or three
/// groups hold.
pub fn office_records(random: &mut Random) -> Option<Vec<u32>> {
    random.one_in(3).then(|| {
        let records = random.within(1..=12);
        (0..records).map(|_| record(random)).collect()
    })
}

fn record(random: &mut Random) -> u32 {
    const ENDS: [u32; 11] = [
        0, 1, 127, 128, 16_383, 16_384, 65_535, 65_536, 70_000, 2_097_150, CEILING_2,
    ];
    match random.below(4) {
        0 => random.below(CEILING_2 as usize + 1) as u32,
        _ => random.pick(&ENDS),
    }
}

fn saga_steps(random: &mut Random) -> Vec<u32> {
    match random.below(40) {
        0 => vec![2; 16],
        1 => vec![16, 16],
        2 => vec![1; 16],
        3 => vec![16],
        4..=9 => Vec::new(),
        _ => (0..random.within(1..=4))
            .map(|_| random.within(1..=5) as u32)
            .collect(),
    }
}

/// Declares up to so many entries, all of them allowed and rising. Those of
/// kinds 4 to 7 follow one order of the transactions, so they lead nowhere back.
fn declare_dependencies(random: &mut Random, tables: &mut Tables, entries: usize) {
    let order = random.shuffled(depending_numbers(tables));
    if order.len() < 2 {
        return;
    }
    // Some are drawn twice, so this may fall short of the number asked for.
    for _ in 0..2 * entries {
        let (one, other) = (random.below(order.len()), random.below(order.len()));
        if one == other {
            continue;
        }
        let kind = random.within(allowed_kinds(tables, order[one])) as u32;
        let entry = if kind >= LOWEST_BEGIN_KIND {
            [order[one.max(other)], order[one.min(other)], kind]
        } else {
            [order[one], order[other], kind]
        };
        tables.dependencies.push(entry);
    }
    put_in_order(tables);
    while tables.dependencies.len() > entries {
        let surplus = random.below(tables.dependencies.len());
        tables.dependencies.remove(surplus);
    }
}

/// Makes the entries rising, each of them once.
pub fn put_in_order(tables: &mut Tables) {
    tables.dependencies.sort_unstable();
    tables.dependencies.dedup();
}

/// The kinds of entries in which the transaction may be the dependent.
fn allowed_kinds(tables: &Tables, dependent: u32) -> RangeInclusive<usize> {
    if plain_numbers(tables).contains(&dependent) {
        1..=7
    } else {
        4..=7
    }
}

/// The numbers of the transactions that may depend and be depended on.
pub fn depending_numbers(tables: &Tables) -> Vec<u32> {
    [saga_numbers(tables), plain_numbers(tables)].concat()
}

/// The numbers of the transactions S.
pub fn saga_numbers(tables: &Tables) -> Vec<u32> {
    let mut first = 0;
    let mut numbers = Vec::new();
    for steps in &tables.steps {
        numbers.push(first);
        first += 2 * steps;
    }
    numbers
}

/// The numbers of the plain transactions.
pub fn plain_numbers(tables: &Tables) -> Vec<u32> {
    let transactions = tables.transactions();
    (transactions - tables.plain..transactions).collect()
}

/// Good tables in which an event can come to be refused by the number.
pub fn tables_for(random: &mut Random, number: u8) -> Tables {
    loop {
        let tables = good_tables(random);
        let has_undo = tables.steps.iter().any(|steps| *steps > 1);
        let some_meet = tables.plain >= 2 && tables.objects > 0;
        let suits = match number {
            9 => some_meet || has_undo,
            10 | 11 => tables.transactions() > 0,
            12 | 15 | 16 | 18 | 20 => some_meet,
            13 => !tables.steps.is_empty(),
            14 => !tables.dependencies.is_empty(),
            17 => some_meet && has_undo,
            22 => has_undo && tables.plain >= 4 && tables.objects >= 3,
            _ => true,
        };
        if suits {
            return tables;
        }
    }
}
