//! Damage to sound areas: one clause of soundness broken at a time, a wrong count, and blind
//! damage to words.

use crate::random::Random;
use crate::reference::{Queue, Record, Shape, State};
use crate::sample;

type Break = fn(&mut Random, &mut State) -> Option<()>;

/// Each breaks one clause of a sound state, or finds nothing to break in it.
pub const BREAKS: [(&str, Break); 25] = [
    ("holder in its own ring", holder_in_its_own_ring),
    ("wakeup over a ring", wakeup_over_a_ring),
    (
        "wakeup over an abortable ring",
        wakeup_over_an_abortable_ring,
    ),
    ("locked without holder", locked_without_holder),
    ("holder without locked", holder_without_locked),
    ("running isn't the first", running_is_another),
    ("running is failed", running_is_failed),
    ("waiting outside conditions", waiting_outside),
    ("not waiting in a condition", not_waiting_inside),
    ("abort in place of waiting", abort_in_place_of_waiting),
    ("abort and waiting outside", abort_and_waiting_outside),
    ("timer set outside", timer_outside),
    ("armed in ready", |random, state| {
        armed_in(random, state, is_ready)
    }),
    ("armed in a park", |random, state| {
        armed_in(random, state, is_park)
    }),
    ("armed in a lock", |random, state| {
        armed_in(random, state, is_lock)
    }),
    ("armed with a timer outside", armed_with_a_timer_outside),
    ("armed without waiting inside", armed_without_waiting_inside),
    ("armed cleared before a timer", armed_cleared_before_a_timer),
    ("timer set where unarmed", timer_set_where_unarmed),
    ("failed clear in a lock", failed_clear_in_a_lock),
    ("failed set in a condition", failed_set_in_a_condition),
    ("priority rises", priority_rises),
    ("process in no ring", process_in_no_ring),
    ("two tails on one ring", two_tails_on_one_ring),
    ("two rings with one process", two_rings_meet),
];

fn some_lock(random: &mut Random, state: &State) -> Option<u16> {
    (state.shape.locks > 0).then(|| random.between(1, state.shape.locks))
}

/// A queue with at least `least` members, of those that are wanted.
fn filled(
    random: &mut Random,
    state: &State,
    least: usize,
    wanted: fn(Queue) -> bool,
) -> Option<Queue> {
    let mut queues = state.shape.queues();
    queues.retain(|&queue| wanted(queue) && state.queue(queue).len() >= least);
    (!queues.is_empty()).then(|| random.pick(&queues))
}

fn member(random: &mut Random, state: &State, wanted: fn(Queue) -> bool) -> Option<u16> {
    let queue = filled(random, state, 1, wanted)?;
    Some(random.pick(state.queue(queue)))
}

fn any(_: Queue) -> bool {
    true
}

fn is_ready(queue: Queue) -> bool {
    queue == Queue::Ready
}

fn is_park(queue: Queue) -> bool {
    matches!(queue, Queue::Park(_))
}

fn is_lock(queue: Queue) -> bool {
    matches!(queue, Queue::Lock(_))
}

fn is_condition(queue: Queue) -> bool {
    matches!(queue, Queue::Condition(_))
}

fn is_no_condition(queue: Queue) -> bool {
    !is_condition(queue)
}

fn holder_in_its_own_ring(random: &mut Random, state: &mut State) -> Option<()> {
    let Queue::Lock(lock) = filled(random, state, 1, is_lock)? else {
        return None;
    };
    let holder = random.pick(&state.lock(lock).queue);
    state.lock_mut(lock).holder = holder;
    state.lock_mut(lock).locked = true;
    Some(())
}

fn wakeup_over_a_ring(random: &mut Random, state: &mut State) -> Option<()> {
    let Queue::Condition(condition) = filled(random, state, 1, is_condition)? else {
        return None;
    };
    state.condition_mut(condition).wakeup = true;
    Some(())
}

fn wakeup_over_an_abortable_ring(random: &mut Random, state: &mut State) -> Option<()> {
    let Queue::Condition(condition) = filled(random, state, 1, is_condition)? else {
        return None;
    };
    state.condition_mut(condition).abortable = true;
    state.condition_mut(condition).wakeup = true;
    Some(())
}

fn locked_without_holder(random: &mut Random, state: &mut State) -> Option<()> {
    let lock = some_lock(random, state)?;
    state.lock_mut(lock).locked = true;
    state.lock_mut(lock).holder = 0;
    Some(())
}

fn holder_without_locked(random: &mut Random, state: &mut State) -> Option<()> {
    let lock = some_lock(random, state)?;
    state.lock_mut(lock).locked = false;
    if state.lock(lock).holder == 0 {
        let holder = random.between(1, state.shape.processes);
        if state.lock(lock).queue.contains(&holder) {
            return None;
        }
        state.lock_mut(lock).holder = holder;
    }
    Some(())
}

fn running_is_another(random: &mut Random, state: &mut State) -> Option<()> {
    let other = random.between(0, state.shape.processes);
    if other == state.running {
        return None;
    }
    state.running = other;
    Some(())
}

fn running_is_failed(_: &mut Random, state: &mut State) -> Option<()> {
    let first = *state.ready.first()?;
    state.record_mut(first).failed = true;
    Some(())
}

fn waiting_outside(random: &mut Random, state: &mut State) -> Option<()> {
    let process = member(random, state, is_no_condition)?;
    state.record_mut(process).waiting = true;
    Some(())
}

fn not_waiting_inside(random: &mut Random, state: &mut State) -> Option<()> {
    let process = member(random, state, is_condition)?;
    let record = state.record_mut(process);
    record.waiting = false;
    record.armed = false;
    record.timer = 0;
    Some(())
}

fn abort_in_place_of_waiting(random: &mut Random, state: &mut State) -> Option<()> {
    let process = member(random, state, is_condition)?;
    *state.record_mut(process) = Record {
        priority: state.record(process).priority,
        abort: true,
        ..Record::default()
    };
    Some(())
}

fn abort_and_waiting_outside(random: &mut Random, state: &mut State) -> Option<()> {
    let process = member(random, state, is_no_condition)?;
    state.record_mut(process).abort = true;
    state.record_mut(process).waiting = true;
    Some(())
}

fn timer_outside(random: &mut Random, state: &mut State) -> Option<()> {
    let process = member(random, state, is_no_condition)?;
    state.record_mut(process).timer = random.word() | 1;
    Some(())
}

fn armed_in(random: &mut Random, state: &mut State, wanted: fn(Queue) -> bool) -> Option<()> {
    let process = member(random, state, wanted)?;
    state.record_mut(process).armed = true;
    Some(())
}

fn armed_with_a_timer_outside(random: &mut Random, state: &mut State) -> Option<()> {
    let process = member(random, state, is_no_condition)?;
    state.record_mut(process).arm(random.word() | 1);
    Some(())
}

fn armed_without_waiting_inside(random: &mut Random, state: &mut State) -> Option<()> {
    let process = member(random, state, is_condition)?;
    state.record_mut(process).armed = true;
    state.record_mut(process).waiting = false;
    Some(())
}

fn armed_cleared_before_a_timer(random: &mut Random, state: &mut State) -> Option<()> {
    let process = member(random, state, is_condition)?;
    if state.record(process).timer == 0 {
        return None;
    }
    state.record_mut(process).armed = false;
    Some(())
}

fn timer_set_where_unarmed(random: &mut Random, state: &mut State) -> Option<()> {
    let process = member(random, state, is_condition)?;
    if state.record(process).armed {
        return None;
    }
    state.record_mut(process).timer = random.word() | 1;
    Some(())
}

fn failed_clear_in_a_lock(random: &mut Random, state: &mut State) -> Option<()> {
    let process = member(random, state, is_lock)?;
    state.record_mut(process).failed = false;
    Some(())
}

fn failed_set_in_a_condition(random: &mut Random, state: &mut State) -> Option<()> {
    let process = member(random, state, is_condition)?;
    state.record_mut(process).failed = true;
    Some(())
}

/// Running follows the first of ready, so that no other clause breaks.
fn follow_first(state: &mut State) {
    state.running = state.ready.first().copied().unwrap_or(0);
    if state.running != 0 {
        let running = state.running;
        state.record_mut(running).failed = false;
    }
}

fn priority_rises(random: &mut Random, state: &mut State) -> Option<()> {
    let queue = filled(random, state, 2, any)?;
    let place = random.below(state.queue(queue).len() - 1);
    let pair = &state.queue(queue)[place..place + 2];
    if state.record(pair[0]).priority == state.record(pair[1]).priority {
        return None;
    }
    state.queue_mut(queue).swap(place, place + 1);
    follow_first(state);
    Some(())
}

fn process_in_no_ring(random: &mut Random, state: &mut State) -> Option<()> {
    let queue = filled(random, state, 1, any)?;
    let place = random.below(state.queue(queue).len());
    state.queue_mut(queue).remove(place);
    follow_first(state);
    Some(())
}

/// Two queues in which a process has the same flags.
fn alike(one: Queue, other: Queue) -> bool {
    let class = |queue| match queue {
        Queue::Ready | Queue::Park(_) => 0,
        Queue::Lock(_) => 1,
        Queue::Condition(_) => 2,
    };
    class(one) == class(other)
}

fn two_tails_on_one_ring(random: &mut Random, state: &mut State) -> Option<()> {
    let source = filled(random, state, 1, any)?;
    let mut empty = state.shape.queues();
    empty.retain(|&queue| alike(queue, source) && state.queue(queue).is_empty());
    if empty.is_empty() {
        return None;
    }
    let copy = random.pick(&empty);
    *state.queue_mut(copy) = state.queue(source).to_vec();
    match copy {
        Queue::Lock(lock) if state.lock(lock).queue.contains(&state.lock(lock).holder) => {
            state.lock_mut(lock).holder = 0;
            state.lock_mut(lock).locked = false;
        }
        Queue::Condition(condition) => state.condition_mut(condition).wakeup = false,
        _ => {}
    }
    follow_first(state);
    Some(())
}

/// Two tails on different processes of one ring.
fn two_rings_meet(random: &mut Random, state: &mut State) -> Option<()> {
    let source = filled(random, state, 2, any)?;
    two_tails_on_one_ring(random, state)?;
    let mut copies = state.shape.queues();
    copies.retain(|&queue| queue != source && state.queue(queue) == state.queue(source));
    let copy = *copies.first()?;
    state.queue_mut(copy).rotate_left(1);
    Some(())
}

/// The words of an area in which nothing is wrong but a count.
pub fn wrong_count(random: &mut Random) -> Vec<u16> {
    if random.chance(50) {
        too_many_parks(random)
    } else {
        ring_beyond_the_count(random)
    }
}

fn too_many_parks(random: &mut Random) -> Vec<u16> {
    let mut shape = sample::small_shape(random);
    shape.parks = random.between(9, 15);
    sample::state(random, shape).words()
}

/// The rings name a process beyond the count, whose record lies behind the others, in place
/// of one that they leave out.
fn ring_beyond_the_count(random: &mut Random) -> Vec<u16> {
    let mut shape = sample::small_shape(random);
    let count = shape.processes;
    shape.processes = count + 1;
    let mut state = sample::state(random, shape);
    let lost = random.between(1, count);
    let queue = state.lies(lost);
    state.queue_mut(queue).retain(|&member| member != lost);
    follow_first(&mut state);
    let mut words = state.words();
    words[0] = count;
    words
}

/// The words of a damaged state of this shape: one clause broken, by turns, where it can be; blind
/// damage too in so many of a hundred cases; now and then with an unnamed bit set, or a free one
/// flipped, or cut off, or with a wrong count.
pub fn area(random: &mut Random, shape: Shape, turn: usize, blindly: usize) -> Vec<u16> {
    let mut state = sample::state(random, shape);
    let (_, change) = BREAKS[turn % BREAKS.len()];
    let _ = change(random, &mut state);
    let mut words = state.words();
    if random.chance(blindly) {
        blind(random, &shape, &mut words);
    }
    if random.chance(10) {
        set_unnamed(random, &shape, &mut words);
    }
    if random.chance(10) {
        flip_free(random, &shape, &mut words);
    }
    if random.chance(5) {
        words.truncate(random.below(words.len()));
    }
    if random.chance(2) {
        words = wrong_count(random);
    }
    words
}

/// Bits of a condition's word and of a flags word that have no name.
const UNNAMED_IN_CONDITION: [u32; 4] = [0, 1, 2, 13];
const UNNAMED_IN_FLAGS: [u32; 13] = [0, 1, 2, 3, 4, 5, 6, 7, 8, 9, 10, 11, 12];

/// Sets a bit that has no name, in the word of a condition or in the flags of a process. No area
/// is sound with it.
pub fn set_unnamed(random: &mut Random, shape: &Shape, area: &mut [u16]) {
    let (place, bit) = if shape.conditions > 0 && random.chance(50) {
        let condition = random.between(1, shape.conditions);
        let place = shape.tail_at(Queue::Condition(condition));
        (place, random.pick(&UNNAMED_IN_CONDITION))
    } else {
        let place = shape.link_at(some_process(random, shape)) + 1;
        (place, random.pick(&UNNAMED_IN_FLAGS))
    };
    area[place] |= 1 << (15 - bit);
}

/// Flips abort of a process or abortable of a condition, which are free in every area: it stays
/// as sound as it was.
pub fn flip_free(random: &mut Random, shape: &Shape, area: &mut [u16]) {
    if shape.conditions > 0 && random.chance(50) {
        let condition = random.between(1, shape.conditions);
        area[shape.tail_at(Queue::Condition(condition))] ^= 2;
    } else {
        area[shape.link_at(some_process(random, shape)) + 1] ^= 1;
    }
}

/// Blind damage: a word, a link, a tail or a few bits become something else. The area may
/// still be sound.
pub fn blind(random: &mut Random, shape: &Shape, area: &mut [u16]) {
    match random.below(10) {
        0 => {
            flip(random, shape, area);
            flip(random, shape, area);
        }
        1 => swap_words(random, shape, area),
        2 => {
            let place = random.below(shape.size());
            area[place] = random.word();
        }
        3 => set_next(random, shape, area, |random, _| random.between(0, 1023)),
        4 => set_next(random, shape, area, |random, shape| {
            random.between(0, shape.processes)
        }),
        5 => set_next(random, shape, area, |random, shape| {
            random.pick(&[0, shape.processes, shape.processes + 1])
        }),
        6 => skip_one(random, shape, area),
        7 => link_to_itself(random, shape, area),
        8 => cross_links(random, shape, area),
        _ => set_tail(random, shape, area),
    }
}

fn flip(random: &mut Random, shape: &Shape, area: &mut [u16]) {
    let place = random.below(shape.size());
    area[place] ^= 1 << random.below(16);
}

fn swap_words(random: &mut Random, shape: &Shape, area: &mut [u16]) {
    area.swap(random.below(shape.size()), random.below(shape.size()));
}

fn process_of(word: u16) -> u16 {
    word >> 3 & 1023
}

fn with_process(word: u16, process: u16) -> u16 {
    word & !(1023 << 3) | (process & 1023) << 3
}

fn some_process(random: &mut Random, shape: &Shape) -> u16 {
    random.between(1, shape.processes)
}

fn set_next(
    random: &mut Random,
    shape: &Shape,
    area: &mut [u16],
    choose: fn(&mut Random, &Shape) -> u16,
) {
    let place = shape.link_at(some_process(random, shape));
    area[place] = with_process(area[place], choose(random, shape));
}

fn skip_one(random: &mut Random, shape: &Shape, area: &mut [u16]) {
    let place = shape.link_at(some_process(random, shape));
    let next = process_of(area[place]);
    if (1..=shape.processes).contains(&next) {
        let after = process_of(area[shape.link_at(next)]);
        area[place] = with_process(area[place], after);
    }
}

fn link_to_itself(random: &mut Random, shape: &Shape, area: &mut [u16]) {
    let process = some_process(random, shape);
    let place = shape.link_at(process);
    area[place] = with_process(area[place], process);
}

fn cross_links(random: &mut Random, shape: &Shape, area: &mut [u16]) {
    let one = shape.link_at(some_process(random, shape));
    let other = shape.link_at(some_process(random, shape));
    let (first, second) = (process_of(area[one]), process_of(area[other]));
    area[one] = with_process(area[one], second);
    area[other] = with_process(area[other], first);
}

fn set_tail(random: &mut Random, shape: &Shape, area: &mut [u16]) {
    let place = shape.tail_at(random.pick(&shape.queues()));
    let limit = random.pick(&[shape.processes, shape.processes, 1023]);
    area[place] = with_process(area[place], random.between(0, limit));
}
