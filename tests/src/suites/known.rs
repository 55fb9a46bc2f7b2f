//! The reference on areas whose verdict or reading is known: sound states made without calls,
//! the same with one clause broken, with an unnamed bit set, with a free bit flipped, and with
//! blind damage.

use super::{Outcome, Tally};
use crate::damage::{self, BREAKS};
use crate::random::Random;
use crate::reference::{self, Queue, State};
use crate::sample;

pub fn run(tally: &mut Tally, random: &mut Random) -> Outcome {
    let mut broken = [0; BREAKS.len()];
    for _ in 0..20_000 {
        let shape = sample::small_shape(random);
        let state = sample::state(random, shape);
        sound_state(tally, random, &state)?;
        one_clause(tally, random, &state, &mut broken)?;
        one_bit(tally, random, &state)?;
        blind_damage(tally, random, &state)?;
        let wrong = damage::wrong_count(random);
        tally.holds(!reference::sound(&wrong), || format!("{wrong:x?}"))?;
    }
    match broken.iter().position(|&count| count < 100) {
        None => Ok(()),
        Some(place) => Err(format!("too few areas with {}", BREAKS[place].0)),
    }
}

/// A sound state is read back from its words, needs them all, and lists its queues.
fn sound_state(tally: &mut Tally, random: &mut Random, state: &State) -> Outcome {
    let words = state.words();
    let place = || format!("{state:?}");
    tally.same(&words.len(), &state.shape.size(), place)?;
    tally.same(&reference::read(&words).as_ref(), &Some(state), place)?;
    let short = &words[..random.below(words.len())];
    tally.holds(!reference::sound(short), place)?;
    for queue in state.shape.queues() {
        let (kind, number) = match queue {
            Queue::Ready => (0, 0),
            Queue::Park(number) => (1, number),
            Queue::Lock(number) => (2, number),
            Queue::Condition(number) => (3, number),
        };
        let members = state.queue(queue);
        let mut buffer = vec![7777; members.len() + 1];
        let answer = reference::list(&words, kind, number, &mut buffer);
        tally.same(&answer, &(0, members.len() as u16), place)?;
        tally.same(&buffer, &[members, &[7777]].concat(), place)?;
    }
    Ok(())
}

fn one_clause(
    tally: &mut Tally,
    random: &mut Random,
    state: &State,
    broken: &mut [u64; BREAKS.len()],
) -> Outcome {
    for ((name, change), count) in BREAKS.iter().zip(broken) {
        let mut worse = state.clone();
        if change(random, &mut worse).is_some() {
            let words = worse.words();
            tally.holds(!reference::sound(&words), || format!("{name}: {worse:?}"))?;
            *count += 1;
        }
    }
    Ok(())
}

/// No area is sound with an unnamed bit. Abort and abortable are free everywhere.
fn one_bit(tally: &mut Tally, random: &mut Random, state: &State) -> Outcome {
    let mut worse = state.words();
    damage::set_unnamed(random, &state.shape, &mut worse);
    tally.holds(!reference::sound(&worse), || format!("{worse:x?}"))?;
    let mut other = state.words();
    damage::flip_free(random, &state.shape, &mut other);
    tally.holds(other != state.words(), || format!("{other:x?}"))?;
    tally.holds(reference::sound(&other), || format!("{other:x?}"))
}

/// Whatever is still sound after blind damage is the image of what is read from it.
fn blind_damage(tally: &mut Tally, random: &mut Random, state: &State) -> Outcome {
    for _ in 0..10 {
        let mut words = state.words();
        damage::blind(random, &state.shape, &mut words);
        if let Some(other) = reference::read(&words) {
            let size = other.shape.size();
            tally.same(&other.words()[..], &words[..size], || format!("{other:?}"))?;
        }
    }
    Ok(())
}
