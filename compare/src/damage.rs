//! Books with something wrong in their bytes or their tables.

use crate::books::Made;
use crate::draft::{encode, encode_field, Draft, Tables, CEILING_1, CEILING_2};
use crate::random::Random;
use crate::story::short_story;
use crate::tables::{office_records, plain_numbers, saga_numbers};

fn made(bytes: Vec<u8>, kind: &'static str) -> Made {
    Made { bytes, kind }
}

/// The bytes of each field, so that single ones can be spoilt.
fn pieces(draft: &Draft) -> Vec<Vec<u8>> {
    draft.fields().into_iter().map(encode_field).collect()
}

/// A book torn off somewhere.
pub fn torn(random: &mut Random) -> Made {
    let draft = short_story(random).draft;
    let fields = draft.fields();
    let tables = draft.tables.fields().len();
    let starts = draft.event_starts();
    let upto = |field: usize| encode(&fields[..field]);
    match random.below(6) {
        0 => {
            let bytes = upto(tables);
            let end = random.below(bytes.len());
            made(bytes[..end].to_vec(), "torn in the tables")
        }
        1 => {
            let mut bytes = upto(random.below(fields.len()));
            for _ in 0..random.within(1..=2) {
                bytes.push(random.byte() | 0x80);
            }
            made(bytes, "torn inside a number")
        }
        2 => {
            let event = random.below(starts.len());
            let last_field = draft.fields_of_events()[event].len() - 1;
            let bytes = upto(starts[event] + random.within(1..=last_field));
            made(bytes, "torn between fields")
        }
        3 => made(upto(random.pick(&starts)), "torn between events"),
        4 => {
            let mut bytes = upto(random.pick(&starts));
            let unknown = random.pick(&[64, 127, 128, CEILING_1, draft.tables.ceiling()]);
            bytes.extend(encode(&[random.within(4..=8) as u32, unknown]));
            made(bytes, "torn behind an unknown transaction")
        }
        _ => made(upto(random.pick(&starts) + 1), "torn after an event code"),
    }
}

/// A number in a longer form than the shortest, or in too many groups.
pub fn overlong(random: &mut Random) -> Made {
    let draft = short_story(random).draft;
    let mut pieces = pieces(&draft);
    let field = random.below(pieces.len());
    pieces[field] = match random.below(6) {
        0 => vec![0x80, 0x00],
        1 => vec![0x80, 0x80, 0x00],
        2 => vec![0x80, 0x80, 0x80],
        3 if draft.tables.ceiling() == CEILING_1 => vec![0xFF, 0xFF, 0x04],
        3 => vec![0xFF, 0xFF, 0xFF, 0x03],
        4 => vec![random.byte() | 0x80, random.byte() | 0x80, 0x81],
        _ => stretched(&pieces[field]),
    };
    made(pieces.concat(), "number in a bad form")
}

/// The same value with a further group of zero.
fn stretched(piece: &[u8]) -> Vec<u8> {
    let mut bytes = piece.to_vec();
    if let Some(last) = bytes.last_mut() {
        *last |= 0x80;
    }
    bytes.push(0);
    bytes
}

/// A number above 65,535 in a book of edition 1, or in the place of the edition.
pub fn above_the_highest_value(random: &mut Random) -> Made {
    let mut draft = short_story(random).draft;
    let of_edition_2 = draft.tables.records.is_some();
    if of_edition_2 && random.one_in(2) {
        draft.tables.records = None;
    }
    let mut pieces = pieces(&draft);
    let field = match draft.tables.records {
        Some(_) => 0,
        None => random.below(pieces.len()),
    };
    let third = random.within(0x04..=0x7F) as u8;
    pieces[field] = match random.below(3) {
        0 => vec![0x80, 0x80, 0x04],
        _ => vec![random.byte() | 0x80, random.byte() | 0x80, third],
    };
    made(pieces.concat(), "value above 65,535")
}

/// A book of edition 2 in which some field is above 65,535, where there is no
/// record; every other time it would be known if it were cut to 16 bits.
pub fn large_value(random: &mut Random) -> Made {
    let mut draft = short_story(random).draft;
    draft.tables.records.get_or_insert_with(|| vec![300]);
    let mut fields = draft.fields();
    let field = random.within(1..=fields.len() - 1);
    fields[field] = match random.below(4) {
        0 => CEILING_2,
        1 => random.within(CEILING_1 as usize + 1..=CEILING_2 as usize) as u32,
        _ => fields[field] % (CEILING_1 + 1) + CEILING_1 + 1,
    };
    made(encode(&fields), "large value")
}

/// One count of the tables out of its range.
pub fn bad_count(random: &mut Random) -> Made {
    let draft = short_story(random).draft;
    let mut fields = draft.fields();
    let sagas = draft.tables.steps.len();
    let (kind, field, outside): (_, _, &[u32]) = match random.below(6) {
        0 => ("bad number of sagas", 1, &[17, 18, 127, 128]),
        1 if sagas > 0 => {
            let field = 2 + random.below(sagas);
            ("saga of no steps", field, &[0])
        }
        2 if sagas > 0 => {
            let field = 2 + random.below(sagas);
            ("saga of too many steps", field, &[17, 18, 32, 128])
        }
        3 => ("bad number of plain ones", 2 + sagas, &[65, 66, 128]),
        4 => ("bad number of objects", 3 + sagas, &[33, 34, 128]),
        _ => ("bad number of dependencies", 4 + sagas, &[129, 130]),
    };
    fields[field] = match random.below(4) {
        0 if outside != [0] => far_outside(random, &draft.tables),
        _ => random.pick(outside),
    };
    made(encode(&fields), kind)
}

/// One of the highest values of the edition, or one that would come to little
/// if it were cut to 16 bits.
fn far_outside(random: &mut Random, tables: &Tables) -> u32 {
    let few = random.within(0..=3) as u32;
    let ends = [CEILING_1, CEILING_1 + 1 + few, CEILING_2];
    let mut within = ends.into_iter().filter(|value| *value <= tables.ceiling());
    let most = within.clone().count();
    within.nth(random.below(most)).unwrap_or(CEILING_1)
}

/// More than 64 transactions, at the steps of a saga or the plain ones.
pub fn too_many_transactions(random: &mut Random) -> Made {
    let at_plain = random.one_in(3);
    let mut tables = Tables {
        records: office_records(random),
        objects: random.below(4) as u32,
        ..Tables::default()
    };
    let kind = if at_plain {
        let sagas = random.within(1..=16);
        let all_steps = random.within(sagas..=32.min(16 * sagas));
        tables.steps = split_steps(random, sagas, all_steps);
        let too_many = 65 - 2 * all_steps;
        tables.plain = pick_low(random, too_many, 64) as u32;
        "too many transactions at the plain ones"
    } else {
        // Before the third saga there can't be more than 64.
        let before = random.within(2..=15);
        let all_steps = random.within(before.max(17)..=32);
        tables.steps = split_steps(random, before, all_steps);
        let too_many = 33 - all_steps;
        tables.steps.push(pick_low(random, too_many, 16) as u32);
        for _ in 0..random.within(0..=15 - before) {
            tables.steps.push(random.within(1..=16) as u32);
        }
        "too many transactions at a saga"
    };
    made(encode(&tables.fields()), kind)
}

/// Often the lowest of the range, else any of it.
fn pick_low(random: &mut Random, low: usize, high: usize) -> usize {
    if random.one_in(2) {
        low
    } else {
        random.within(low..=high)
    }
}

/// So many sagas of 1 to 16 steps with so many steps together.
fn split_steps(random: &mut Random, sagas: usize, all_steps: usize) -> Vec<u32> {
    let mut steps = vec![1; sagas];
    for _ in sagas..all_steps {
        let open: Vec<usize> = (0..sagas).filter(|saga| steps[*saga] < 16).collect();
        steps[random.pick(&open)] += 1;
    }
    steps
}

/// Tables with an entry that can't stand there.
pub fn bad_dependency(random: &mut Random) -> Made {
    let mut tables = Tables {
        records: office_records(random),
        steps: vec![random.within(2..=4) as u32, random.within(1..=3) as u32],
        plain: random.within(3..=6) as u32,
        objects: random.below(3) as u32,
        dependencies: Vec::new(),
    };
    let (kind, bad) = bad_entries(random, &tables);
    tables.dependencies = bad;
    if random.one_in(8) {
        let fields = tables.fields();
        let left_out = random.within(1..=2);
        let bytes = encode(&fields[..fields.len() - left_out]);
        return made(bytes, "torn in a bad dependency");
    }
    let mut bytes = encode(&tables.fields());
    for _ in 0..random.below(4) {
        bytes.extend([1, random.below(4) as u8]);
    }
    made(bytes, kind)
}

/// Entries of which the last is bad in one way, the others good.
fn bad_entries(random: &mut Random, tables: &Tables) -> (&'static str, Vec<[u32; 3]>) {
    let saga = random.pick(&saga_numbers(tables));
    let step = random.within(1..=tables.steps[0] as usize) as u32;
    let undo = random.within(1..=tables.steps[0] as usize - 1) as u32 + tables.steps[0];
    let plain = plain_numbers(tables);
    let first = random.below(plain.len() - 2);
    let (low, middle, high) = (plain[first], plain[first + 1], plain[first + 2]);
    let unknown = match random.below(5) {
        0 => far_outside(random, tables),
        _ => tables.transactions() + random.pick(&[0, 1, 200, 60_000]),
    };
    let kind = random.within(1..=7) as u32;
    let to_commit = random.within(1..=3) as u32;
    let to_begin = random.within(4..=7) as u32;
    match random.below(16) {
        0 => ("dependency: unknown dependent", vec![[unknown, low, kind]]),
        1 => ("dependency: unknown base", vec![[low, unknown, kind]]),
        2 => ("dependency: on itself", vec![[low, low, kind]]),
        3 => ("dependency: saga on itself", vec![[saga, saga, to_begin]]),
        4 => ("dependency: kind 0", vec![[low, high, 0]]),
        5 => ("dependency: kind 8", vec![[low, high, 8]]),
        6 => {
            let far = match random.below(4) {
                0 => far_outside(random, tables),
                _ => random.pick(&[9, 127, 128, 257]),
            };
            ("dependency: kind above 8", vec![[low, high, far]])
        }
        7 => ("dependency: step as base", vec![[low, step, kind]]),
        8 => ("dependency: undo as base", vec![[low, undo, kind]]),
        9 => ("dependency: step as dependent", vec![[step, low, kind]]),
        10 => ("dependency: undo as dependent", vec![[undo, low, kind]]),
        11 => (
            "dependency: saga may not depend so",
            vec![[saga, low, to_commit]],
        ),
        12 => {
            let entry = [middle, high, kind];
            ("dependency: equal to the one before", vec![entry, entry])
        }
        13 => {
            let entries = vec![[middle, high, 1], [low, high, kind]];
            ("dependency: falling by dependent", entries)
        }
        14 => {
            let entries = vec![[low, high, 1], [low, middle, kind]];
            ("dependency: falling by base", entries)
        }
        _ => {
            let before = random.within(2..=7);
            let after = random.within(1..=before - 1);
            let entries = vec![[low, high, before as u32], [low, high, after as u32]];
            ("dependency: falling by kind", entries)
        }
    }
}

pub fn bad_edition(random: &mut Random) -> Made {
    let mut fields = short_story(random).draft.fields();
    fields[0] = match random.below(4) {
        0 => random.pick(&[0, 3]),
        1 => random.pick(&[127, 128, 257, 258, CEILING_1]),
        2 => return made(in_the_other_edition(fields), "the other edition"),
        _ => random.within(3..=CEILING_1 as usize) as u32,
    };
    made(encode(&fields), "bad edition")
}

/// The same fields said to be of the other edition. They are no longer the same
/// events if there is an operation among them.
fn in_the_other_edition(mut fields: Vec<u32>) -> Vec<u8> {
    fields[0] = 3 - fields[0];
    encode(&fields)
}

/// A code that is no event, in the place of one or at the end.
pub fn bad_event_code(random: &mut Random) -> Made {
    let draft = short_story(random).draft;
    let mut fields = draft.fields();
    let code = match random.below(4) {
        0 => far_outside(random, &draft.tables),
        _ => random.pick(&[0, 9, 10, 11, 127, 128, 256, 257, 264, 16_385]),
    };
    if random.one_in(2) {
        fields.push(code);
    } else {
        fields[random.pick(&draft.event_starts())] = code;
    }
    made(encode(&fields), "bad event code")
}

pub fn flipped(random: &mut Random) -> Made {
    let mut bytes = short_story(random).draft.bytes();
    for _ in 0..random.within(1..=3) {
        let place = random.below(bytes.len());
        bytes[place] ^= 1 << random.below(8);
    }
    made(bytes, "flipped bits")
}

pub fn deleted(random: &mut Random) -> Made {
    let mut bytes = short_story(random).draft.bytes();
    for _ in 0..random.within(1..=3) {
        bytes.remove(random.below(bytes.len()));
    }
    made(bytes, "deleted bytes")
}

pub fn inserted(random: &mut Random) -> Made {
    let mut bytes = short_story(random).draft.bytes();
    for _ in 0..random.within(1..=3) {
        let byte = if random.one_in(2) {
            random.byte()
        } else {
            random.below(8) as u8
        };
        bytes.insert(random.within(0..=bytes.len()), byte);
    }
    made(bytes, "inserted bytes")
}

pub fn swapped(random: &mut Random) -> Made {
    let mut draft = short_story(random).draft;
    for _ in 0..random.within(1..=2) {
        let one = random.below(draft.events.len());
        let other = if random.one_in(2) {
            random.below(draft.events.len())
        } else {
            (one + 1) % draft.events.len()
        };
        draft.events.swap(one, other);
    }
    made(draft.bytes(), "swapped events")
}
