//! Books that are hardly books: noise, nothing at all, and the longest.

use crate::books::Made;
use crate::draft::{encode, Draft, Event, Tables};
use crate::random::Random;
use crate::stuck::never_moving_story;
use crate::tables::{good_tables, office_records};

const MOST_BYTES: usize = 65_536;

fn noise_bytes(random: &mut Random, length: usize) -> Vec<u8> {
    let small = random.one_in(2);
    (0..length)
        .map(|_| match small {
            true => random.below(9) as u8,
            false => random.byte(),
        })
        .collect()
}

/// Noise, alone or after a good beginning.
pub fn noise(random: &mut Random) -> Made {
    let length = random.within(0..=200);
    let tail = noise_bytes(random, length);
    let (start, kind) = match random.below(3) {
        0 => (Vec::new(), "noise"),
        1 => (vec![random.pick(&[1, 2])], "noise after a good edition"),
        _ => (
            encode(&good_tables(random).fields()),
            "noise after good tables",
        ),
    };
    Made {
        bytes: [start, tail].concat(),
        kind,
    }
}

pub fn empty(_: &mut Random) -> Made {
    Made {
        bytes: Vec::new(),
        kind: "empty",
    }
}

/// A book of exactly 65,536 bytes.
pub fn longest(random: &mut Random) -> Made {
    let (bytes, kind) = match random.below(4) {
        0 => {
            let records = office_records(random);
            (handed_to_and_fro(MOST_BYTES, records), "longest, accepted")
        }
        1 => {
            let object_of_two_bytes = [4, 0, 0x80, 0x01];
            let length = MOST_BYTES - object_of_two_bytes.len();
            let mut bytes = handed_to_and_fro(length, office_records(random));
            bytes.extend(object_of_two_bytes);
            (bytes, "longest, a field missing")
        }
        _ => long_bytes(random, MOST_BYTES, "longest, noise"),
    };
    Made { bytes, kind }
}

/// A book of 65,537 bytes, or somewhat more.
pub fn too_long(random: &mut Random) -> Made {
    let length = MOST_BYTES + pick_excess(random);
    let (bytes, kind) = match random.below(2) {
        0 => {
            let records = office_records(random);
            let bytes = handed_to_and_fro(length, records);
            (bytes, "too long, good to the end")
        }
        _ => long_bytes(random, length, "too long, noise"),
    };
    Made { bytes, kind }
}

fn pick_excess(random: &mut Random) -> usize {
    match random.below(4) {
        0 => random.within(2..=3000),
        _ => 1,
    }
}

/// A good edition and noise, or tables, now and then such as can never move,
/// and one event over and over.
fn long_bytes(random: &mut Random, length: usize, kind: &'static str) -> (Vec<u8>, &'static str) {
    let bytes = if random.one_in(2) {
        let edition = random.pick(&[1, 2]);
        [vec![edition], noise_bytes(random, length - 1)].concat()
    } else {
        let tables = match random.below(4) {
            0 => never_moving_story(random).0.draft.tables,
            _ => good_tables(random),
        };
        let mut bytes = encode(&tables.fields());
        let event = [random.within(1..=3) as u8, random.below(4) as u8];
        bytes.extend(event.into_iter().cycle().take(length - bytes.len()));
        bytes
    };
    (bytes, kind)
}

/// A good book of exactly so many bytes, padded with delegations: two plain
/// transactions hand operations to and fro. Handing operation 128 takes 5
/// bytes, operation 0 takes 4, so every length can be met.
pub fn handed_to_and_fro(length: usize, records: Option<Vec<u32>>) -> Vec<u8> {
    encode(&fields_handed_to_and_fro(length, records))
}

/// The fields of that book.
pub fn fields_handed_to_and_fro(length: usize, records: Option<Vec<u32>>) -> Vec<u32> {
    let tables = Tables {
        records,
        plain: 2,
        objects: 1,
        ..Tables::default()
    };
    let begun = [Event::Begin(0), Event::Begin(1)];
    let reads = [Event::Operation(0, 0, 0)].repeat(129);
    let events = [&begun[..], &reads].concat();
    let mut fields = Draft { tables, events }.fields();
    let room = length - encode(&fields).len();
    let of_five_bytes = room % 4;
    let of_four_bytes = (room - 5 * of_five_bytes) / 4;
    hand_over(&mut fields, 128, of_five_bytes);
    hand_over(&mut fields, 0, of_four_bytes);
    fields
}

fn hand_over(fields: &mut Vec<u32>, operation: u32, times: usize) {
    for time in 0..times {
        let giver = (time % 2) as u32;
        fields.extend([5, giver, 1 - giver, operation]);
    }
}
