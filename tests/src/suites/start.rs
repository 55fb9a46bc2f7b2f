//! Start on the library against the reference: every refusal in its order and at every
//! boundary, any old content, the words beyond and around the area kept.

use super::{Outcome, Tally};
use crate::call::Call;
use crate::guarded::Guarded;
use crate::library;
use crate::random::Random;
use crate::reference::{self, Shape};

const PROCESSES: [u16; 12] = [0, 1, 2, 3, 50, 1022, 1023, 1024, 1025, 2047, 32_769, 65_535];
const BYTES: [u16; 9] = [0, 1, 2, 254, 255, 256, 257, 4096, 65_535];
const PARKS: [u16; 10] = [0, 1, 7, 8, 9, 15, 16, 17, 256, 65_535];
const LARGE: [u8; 6] = [8, 9, 15, 16, 128, 255];

pub fn run(tally: &mut Tally, random: &mut Random) -> Outcome {
    let mut codes = [0_u64; 6];
    for processes in PROCESSES {
        for locks in BYTES {
            for conditions in BYTES {
                for parks in PARKS {
                    let shape = Shape {
                        processes,
                        locks,
                        conditions,
                        parks,
                    };
                    let priorities = priorities(random, &shape);
                    let len = area_length(random, &shape);
                    compare(tally, random, shape, priorities, len, &mut codes)?;
                }
            }
        }
    }
    for _ in 0..300 {
        let shape = crate::sample::small_shape(random);
        each_fault(tally, random, shape, &mut codes)?;
    }
    for processes in [1, 2, 1022, 1023] {
        let shape = Shape {
            processes,
            locks: 255,
            conditions: 255,
            parks: 8,
        };
        each_fault(tally, random, shape, &mut codes)?;
    }
    each_large_priority(tally, random, &mut codes)?;
    match [0, 2, 3, 4, 5].iter().find(|&&code| codes[code] < 50) {
        None => Ok(()),
        Some(code) => Err(format!("code {code} was hardly met: {codes:?}")),
    }
}

fn right_priorities(random: &mut Random, shape: &Shape) -> Vec<u8> {
    (0..shape.processes)
        .map(|_| random.between(0, 7) as u8)
        .collect()
}

/// A list that is right, or too short, or too long, or has a priority above 7.
fn priorities(random: &mut Random, shape: &Shape) -> Vec<u8> {
    let mut list = right_priorities(random, shape);
    match random.below(8) {
        0 => drop(list.pop()),
        1 => list.push(3),
        2 => list.clear(),
        3 if !list.is_empty() => {
            let place = random.pick(&[0, list.len() / 2, list.len() - 1]);
            list[place] = random.pick(&LARGE);
        }
        _ => {}
    }
    list
}

fn area_length(random: &mut Random, shape: &Shape) -> usize {
    let size = if shape.in_range() { shape.size() } else { 40 };
    match random.below(6) {
        0 => size - 1,
        1 => random.below(size),
        2 => size + random.below(40),
        _ => size,
    }
}

/// Every set of faults that the list and the area can have, at every near length.
fn each_fault(
    tally: &mut Tally,
    random: &mut Random,
    shape: Shape,
    codes: &mut [u64; 6],
) -> Outcome {
    let right = right_priorities(random, &shape);
    let size = shape.size();
    let mut lists = vec![
        right.clone(),
        right[1..].to_vec(),
        [&right[..], &[0]].concat(),
        Vec::new(),
    ];
    lists.push([&right[..], &vec![0; 65_536]].concat());
    for mut list in lists.clone() {
        if let Some(last) = list.last_mut() {
            *last = random.pick(&LARGE);
            lists.push(list);
        }
    }
    let lengths = [
        0,
        1,
        5,
        6,
        size - 1,
        size,
        size + 1,
        size + 17,
        65_536,
        65_536 + size - 1,
    ];
    for list in lists {
        for length in lengths {
            compare(tally, random, shape, list.clone(), length, codes)?;
        }
    }
    Ok(())
}

fn each_large_priority(tally: &mut Tally, random: &mut Random, codes: &mut [u64; 6]) -> Outcome {
    let shape = Shape {
        processes: 5,
        locks: 1,
        conditions: 1,
        parks: 1,
    };
    for place in 0..5 {
        for byte in 0..=255 {
            let mut list = right_priorities(random, &shape);
            list[place] = byte;
            compare(tally, random, shape, list, shape.size(), codes)?;
        }
    }
    Ok(())
}

fn compare(
    tally: &mut Tally,
    random: &mut Random,
    shape: Shape,
    priorities: Vec<u8>,
    length: usize,
    codes: &mut [u64; 6],
) -> Outcome {
    let call = Call::Start {
        processes: shape.processes,
        locks: shape.locks,
        conditions: shape.conditions,
        parks: shape.parks,
        priorities,
    };
    let mut expected = random.words(length);
    let mut lent = Guarded::new(&expected);
    let answer = reference::perform(&mut expected, &call);
    codes[usize::from(answer.code)] += 1;
    let place = || format!("{length} words, {call:?}");
    let found = library::perform(lent.slice_mut(), &call);
    tally.same(&found, &answer.pack(), place)?;
    tally.holds(lent.intact(), || format!("guard words, {}", place()))?;
    tally.same(lent.slice(), &expected[..], place)
}
