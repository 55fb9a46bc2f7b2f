//! List on the library against the reference: every queue, every buffer length near its
//! count, refusals that change nothing.

use super::{Outcome, Tally};
use crate::call::pack;
use crate::damage;
use crate::guarded::Guarded;
use crate::library;
use crate::random::Random;
use crate::reference::{self, Shape};
use crate::sample;

const KINDS: [u16; 8] = [0, 1, 2, 3, 4, 256, 259, 65_535];
const NUMBERS: [u16; 14] = [
    0, 1, 2, 3, 4, 5, 255, 256, 257, 1023, 1024, 1025, 8192, 65_535,
];

pub fn run(tally: &mut Tally, random: &mut Random) -> Outcome {
    let mut codes = [0_u64; 8];
    for _ in 0..1000 {
        let shape = sample::small_shape(random);
        let words = sample::state(random, shape).words();
        every_name(tally, random, &words, 16, &mut codes)?;
    }
    for _ in 0..3 {
        let shape = Shape {
            processes: 1023,
            locks: 255,
            conditions: 255,
            parks: 8,
        };
        let words = sample::state(random, shape).words();
        every_name(tally, random, &words, 1100, &mut codes)?;
    }
    for round in 0..20_000 {
        let shape = sample::small_shape(random);
        let words = damage::area(random, shape, round, 100);
        let (kind, number) = (random.pick(&KINDS), random.pick(&NUMBERS));
        let length = random.below(16);
        compare(tally, random, &words, kind, number, length, &mut codes)?;
    }
    match [0, 1, 5, 7].iter().find(|&&code| codes[code] < 500) {
        None => Ok(()),
        Some(code) => Err(format!("code {code} was hardly met: {codes:?}")),
    }
}

fn every_name(
    tally: &mut Tally,
    random: &mut Random,
    words: &[u16],
    longest: usize,
    codes: &mut [u64; 8],
) -> Outcome {
    for kind in KINDS {
        for number in NUMBERS {
            let (code, count) = reference::list(words, kind, number, &mut vec![0; longest]);
            let count = usize::from(count);
            let lengths = match (code, longest) {
                (0, 0..=99) => 0..count + 3,
                (0, _) => count.saturating_sub(2)..count + 3,
                _ => 0..2,
            };
            for length in lengths {
                compare(tally, random, words, kind, number, length, codes)?;
            }
        }
    }
    Ok(())
}

fn compare(
    tally: &mut Tally,
    random: &mut Random,
    words: &[u16],
    kind: u16,
    number: u16,
    length: usize,
    codes: &mut [u64; 8],
) -> Outcome {
    let area = Guarded::new(words);
    let mut expected = random.words(length);
    let mut buffer = Guarded::new(&expected);
    let (code, count) = reference::list(words, kind, number, &mut expected);
    codes[usize::from(code)] += 1;
    let place = || format!("list {kind} {number} into {length} words, {words:x?}");
    let found = library::list(area.slice(), kind, number, buffer.slice_mut());
    tally.same(&found, &pack(&[code, count]), place)?;
    tally.same(buffer.slice(), &expected[..], place)?;
    tally.same(area.slice(), words, place)?;
    tally.holds(area.intact() && buffer.intact(), || {
        format!("guard words, {}", place())
    })
}
