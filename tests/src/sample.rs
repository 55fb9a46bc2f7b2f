//! Random shapes and random sound states, made without any call.

use crate::random::Random;
use crate::reference::{Condition, Lock, Queue, Record, Shape, State};

pub fn small_shape(random: &mut Random) -> Shape {
    Shape {
        processes: random.between(1, 12),
        locks: random.between(0, 3),
        conditions: random.between(0, 3),
        parks: random.between(0, 3),
    }
}

/// Any number of processes, and at least one condition.
pub fn wide_shape(random: &mut Random) -> Shape {
    let most = random.pick(&[12, 60, 1023]);
    Shape {
        processes: random.between(1, most),
        locks: random.between(0, 3),
        conditions: random.between(1, 255),
        parks: random.between(0, 3),
    }
}

/// Any clock, often one that is about to go round or just has.
fn clock(random: &mut Random) -> u16 {
    match random.below(4) {
        0 => random.pick(&[65_534, 65_535, 0, 1]),
        _ => random.word(),
    }
}

/// A sound state in which the processes lie anywhere.
pub fn state(random: &mut Random, shape: Shape) -> State {
    let highest = random.between(0, 7);
    let mut state = State {
        shape,
        clock: clock(random),
        running: 0,
        ready: Vec::new(),
        parks: vec![Vec::new(); usize::from(shape.parks)],
        locks: vec![Lock::default(); usize::from(shape.locks)],
        conditions: vec![Condition::default(); usize::from(shape.conditions)],
        records: (0..shape.processes)
            .map(|_| Record {
                priority: random.between(0, highest),
                ..Record::default()
            })
            .collect(),
    };
    scatter(random, &mut state);
    set_flags(random, &mut state);
    set_monitors(random, &mut state);
    state
}

/// Puts every process into a random queue, in falling priority.
fn scatter(random: &mut Random, state: &mut State) {
    let queues = state.shape.queues();
    let few = random.between(1, 4).min(queues.len() as u16);
    let favoured: Vec<Queue> = (0..few).map(|_| random.pick(&queues)).collect();
    let mut order: Vec<u16> = (1..=state.shape.processes).collect();
    random.shuffle(&mut order);
    order.sort_by_key(|&process| 7 - state.record(process).priority);
    for process in order {
        let queue = match random.below(8) {
            0 => Queue::Ready,
            1 | 2 => random.pick(&queues),
            _ => random.pick(&favoured),
        };
        state.queue_mut(queue).push(process);
    }
}

/// 0, the clock, the next tick, one near it, or any.
fn timer(random: &mut Random, clock: u16) -> u16 {
    let near = clock.wrapping_add(random.between(0, 3));
    match random.below(8) {
        0 => 0,
        1 => clock,
        2 => clock.wrapping_add(1),
        3 | 4 => random.word(),
        _ => near,
    }
}

fn set_flags(random: &mut Random, state: &mut State) {
    for queue in state.shape.queues() {
        for process in state.queue(queue).to_vec() {
            let timer = timer(random, state.clock);
            let armed = random.chance(75);
            let failed = random.chance(30);
            let record = state.record_mut(process);
            record.abort = random.chance(30);
            record.failed = match queue {
                Queue::Lock(_) => true,
                Queue::Condition(_) => false,
                Queue::Ready | Queue::Park(_) => failed,
            };
            if matches!(queue, Queue::Condition(_)) {
                record.waiting = true;
                if armed {
                    record.arm(timer);
                }
            }
        }
    }
    if let Some(&first) = state.ready.first() {
        state.running = first;
        state.record_mut(first).failed = false;
    }
}

fn set_monitors(random: &mut Random, state: &mut State) {
    let (running, processes) = (state.running, state.shape.processes);
    for lock in &mut state.locks {
        let holder = match random.below(5) {
            0 | 1 => 0,
            2 | 3 => running,
            _ => random.between(1, processes),
        };
        if !lock.queue.contains(&holder) {
            lock.holder = holder;
            lock.locked = holder != 0;
        }
    }
    for condition in &mut state.conditions {
        condition.wakeup = condition.queue.is_empty() && random.chance(50);
        condition.abortable = random.chance(50);
    }
}
