//! Abort, SetAbortable, Reenter, and Wait over an abort. First scripts with every answer written
//! out and the queues and bits behind it, in the ledger, on the reference, on the library and
//! through Rehearse; the numbers at every boundary. Then laws of the library alone, on areas that
//! random histories reach and on scattered ones.

use super::{rehearse, Outcome, Tally};
use crate::call::{Answer, Call};
use crate::damage;
use crate::guarded::Guarded;
use crate::history::{self, History};
use crate::ledger::Ledger;
use crate::library;
use crate::random::Random;
use crate::reference::{self, Queue, Shape, State};
use crate::sample;

pub fn run(tally: &mut Tally, random: &mut Random) -> Outcome {
    for script in SCRIPTS {
        play(tally, script)?;
    }
    through_rehearse(tally)?;
    for processes in [1, 2, 3, 1_023] {
        boundaries(tally, random, processes)?;
    }
    unsound_areas(tally, random)?;
    let mut met = Met::default();
    laws_over_histories(tally, random, &mut met)?;
    laws_on_scattered_states(tally, random, &mut met)?;
    tally.remark = met.remark();
    met.demand()
}

// Scripts.

/// A line of Rehearse, its answer's fields, and what the area says then.
///
/// The area is told queue by queue: R is ready, P a park, L a lock, C a condition. A lock's holder
/// stands behind =. A condition is marked a if it is abortable, w if a wakeup is stored. Then come
/// the processes, first to last, each marked ! if it has abort, f if it is failed outside of a lock's
/// queue, and with its timer behind @ if it is armed.
type Turn = (&'static str, [u16; 6], &'static str);

/// Who waits is called off, comes back by Reenter with mark 2, and enters again.
#[rustfmt::skip]
const CALLED_OFF: &[Turn] = &[
    ("start 3 1 1 0 2 5 2", [0, 2, 0, 0, 0, 0], "R[2 1 3] L1[] C1[]"),
    ("setabortable 1 1", [0, 2, 0, 0, 0, 0], "R[2 1 3] L1[] C1a[]"),
    ("enter 1", [0, 2, 0, 1, 0, 0], "R[2 1 3] L1=2[] C1a[]"),
    ("wait 1 1 9", [0, 1, 0, 1, 0, 0], "R[1 3] L1[] C1a[2@9]"),
    ("abort 2", [0, 2, 0, 0, 1, 0], "R[2! 1 3] L1[] C1a[]"),
    ("reenter 1 1", [0, 2, 0, 2, 0, 0], "R[2 1 3] L1[] C1a[]"),
    ("reenter 1 1", [0, 2, 0, 1, 0, 0], "R[2 1 3] L1=2[] C1a[]"),
    ("exit 1", [0, 2, 0, 0, 0, 0], "R[2 1 3] L1[] C1a[]"),
];

/// Whoever is aborted wakes, wherever it stands in the ring, and goes behind its equals; nobody else
/// moves. A second Abort finds it in ready and does nothing.
#[rustfmt::skip]
const OUT_OF_THE_RING: &[Turn] = &[
    ("start 4 1 1 0 3 3 3 3", [0, 1, 0, 0, 0, 0], "R[1 2 3 4] L1[] C1[]"),
    ("setabortable 1 1", [0, 1, 0, 0, 0, 0], "R[1 2 3 4] L1[] C1a[]"),
    ("enter 1", [0, 1, 0, 1, 0, 0], "R[1 2 3 4] L1=1[] C1a[]"),
    ("wait 1 1 0", [0, 2, 0, 1, 0, 0], "R[2 3 4] L1[] C1a[1]"),
    ("enter 1", [0, 2, 0, 1, 0, 0], "R[2 3 4] L1=2[] C1a[1]"),
    ("wait 1 1 5", [0, 3, 0, 1, 0, 1], "R[3 4] L1[] C1a[1 2@5]"),
    ("enter 1", [0, 3, 0, 1, 0, 0], "R[3 4] L1=3[] C1a[1 2@5]"),
    ("wait 1 1 0", [0, 4, 0, 1, 0, 2], "R[4] L1[] C1a[1 2@5 3]"),
    ("abort 2", [0, 4, 0, 0, 1, 0], "R[4 2!] L1[] C1a[1 3]"),
    ("abort 2", [0, 4, 0, 0, 0, 0], "R[4 2!] L1[] C1a[1 3]"),
    ("abort 4", [0, 4, 0, 0, 0, 0], "R[4! 2!] L1[] C1a[1 3]"),
    ("abort 3", [0, 4, 0, 0, 1, 0], "R[4! 2! 3!] L1[] C1a[1]"),
    ("abort 1", [0, 4, 0, 0, 1, 0], "R[4! 2! 3! 1!] L1[] C1a[]"),
];

/// A higher one that is called off runs at once, and the one whom it passes keeps the lock.
#[rustfmt::skip]
const ABOVE_THE_RUNNER: &[Turn] = &[
    ("start 2 1 1 0 1 6", [0, 2, 0, 0, 0, 0], "R[2 1] L1[] C1[]"),
    ("setabortable 1 1", [0, 2, 0, 0, 0, 0], "R[2 1] L1[] C1a[]"),
    ("enter 1", [0, 2, 0, 1, 0, 0], "R[2 1] L1=2[] C1a[]"),
    ("wait 1 1 0", [0, 1, 0, 1, 0, 0], "R[1] L1[] C1a[2]"),
    ("enter 1", [0, 1, 0, 1, 0, 0], "R[1] L1=1[] C1a[2]"),
    ("abort 2", [0, 2, 0, 0, 1, 0], "R[2! 1] L1=1[] C1a[]"),
    ("reenter 1 1", [0, 1, 0, 0, 0, 0], "R[1] L1=1[2!] C1a[]"),
    ("exit 1", [0, 2, 1, 0, 1, 0], "R[2! 1] L1[] C1a[]"),
    ("reenter 1 1", [0, 2, 0, 2, 0, 0], "R[2 1] L1[] C1a[]"),
];

/// An alarm comes where nobody runs. On a condition that isn't abortable it sets the bit alone; that
/// the condition becomes abortable moves nobody; a second alarm wakes.
#[rustfmt::skip]
const NOBODY_RUNS: &[Turn] = &[
    ("start 1 1 1 0 0", [0, 1, 0, 0, 0, 0], "R[1] L1[] C1[]"),
    ("enter 1", [0, 1, 0, 1, 0, 0], "R[1] L1=1[] C1[]"),
    ("wait 1 1 0", [0, 0, 0, 1, 0, 0], "R[] L1[] C1[1]"),
    ("abort 1", [0, 0, 0, 0, 0, 0], "R[] L1[] C1[1!]"),
    ("setabortable 1 1", [0, 0, 0, 0, 0, 0], "R[] L1[] C1a[1!]"),
    ("tick", [0, 0, 0, 0, 0, 0], "R[] L1[] C1a[1!]"),
    ("abort 0", [7, 0, 0, 0, 0, 0], "R[] L1[] C1a[1!]"),
    ("abort 1", [0, 1, 0, 0, 1, 0], "R[1!] L1[] C1a[]"),
    ("enter 1", [0, 1, 0, 1, 0, 0], "R[1!] L1=1[] C1a[]"),
    ("setabortable 1 0", [0, 1, 0, 0, 0, 0], "R[1!] L1=1[] C1[]"),
    ("wait 1 1 1", [0, 0, 0, 1, 0, 0], "R[] L1[] C1[1!@2]"),
    ("setabortable 1 1", [0, 0, 0, 0, 0, 0], "R[] L1[] C1a[1!@2]"),
    ("tick", [0, 1, 0, 0, 1, 0], "R[1!] L1[] C1a[]"),
    ("reenter 1 1", [0, 1, 0, 2, 0, 0], "R[1] L1[] C1a[]"),
];

/// On a condition that isn't abortable the bit alone changes, and the timer stays; Notify, Broadcast
/// and Naked wake who has abort and take nothing away.
#[rustfmt::skip]
const NOT_ABORTABLE: &[Turn] = &[
    ("start 2 1 2 0 1 1", [0, 1, 0, 0, 0, 0], "R[1 2] L1[] C1[] C2[]"),
    ("enter 1", [0, 1, 0, 1, 0, 0], "R[1 2] L1=1[] C1[] C2[]"),
    ("wait 1 1 3", [0, 2, 0, 1, 0, 0], "R[2] L1[] C1[1@3] C2[]"),
    ("setabortable 2 1", [0, 2, 0, 0, 0, 0], "R[2] L1[] C1[1@3] C2a[]"),
    ("abort 1", [0, 2, 0, 0, 0, 0], "R[2] L1[] C1[1!@3] C2a[]"),
    ("setabortable 1 1", [0, 2, 0, 0, 0, 0], "R[2] L1[] C1a[1!@3] C2a[]"),
    ("setabortable 1 0", [0, 2, 0, 0, 0, 0], "R[2] L1[] C1[1!@3] C2a[]"),
    ("notify 1", [0, 2, 0, 0, 1, 0], "R[2 1!] L1[] C1[] C2a[]"),
    ("requeue 0 0 2", [0, 1, 0, 0, 0, 0], "R[1! 2] L1[] C1[] C2a[]"),
    ("enter 1", [0, 1, 0, 1, 0, 0], "R[1! 2] L1=1[] C1[] C2a[]"),
    ("wait 1 1 0", [0, 2, 0, 1, 0, 0], "R[2] L1[] C1[1!] C2a[]"),
    ("setabortable 1 1", [0, 2, 0, 0, 0, 0], "R[2] L1[] C1a[1!] C2a[]"),
    ("broadcast 1", [0, 2, 0, 0, 1, 0], "R[2 1!] L1[] C1a[] C2a[]"),
    ("broadcast 1", [0, 2, 0, 0, 0, 0], "R[2 1!] L1[] C1a[] C2a[]"),
    ("naked 2", [0, 2, 0, 1, 0, 0], "R[2 1!] L1[] C1a[] C2aw[]"),
    ("enter 1", [0, 2, 0, 1, 0, 0], "R[2 1!] L1=2[] C1a[] C2aw[]"),
    ("wait 1 1 0", [0, 1, 0, 1, 0, 0], "R[1!] L1[] C1a[2] C2aw[]"),
    ("naked 1", [0, 1, 0, 0, 1, 0], "R[1! 2] L1[] C1a[] C2aw[]"),
    ("setpriority 4", [0, 1, 0, 0, 0, 0], "R[1! 2] L1[] C1a[] C2aw[]"),
];

/// At a lock, in a park and in ready Abort changes the bit alone. A held lock never clears abort; a
/// free one does, whoever queues for it. The holder is refused by 8, aborted or not. Enter takes no
/// notice of abort.
#[rustfmt::skip]
const OTHER_QUEUES: &[Turn] = &[
    ("start 4 1 1 1 3 3 3 3", [0, 1, 0, 0, 0, 0], "R[1 2 3 4] P1[] L1[] C1[]"),
    ("setabortable 1 1", [0, 1, 0, 0, 0, 0], "R[1 2 3 4] P1[] L1[] C1a[]"),
    ("enter 1", [0, 1, 0, 1, 0, 0], "R[1 2 3 4] P1[] L1=1[] C1a[]"),
    ("requeue 0 0 1", [0, 2, 0, 0, 0, 0], "R[2 3 4 1] P1[] L1=1[] C1a[]"),
    ("enter 1", [0, 3, 0, 0, 0, 0], "R[3 4 1] P1[] L1=1[2] C1a[]"),
    ("abort 2", [0, 3, 0, 0, 0, 0], "R[3 4 1] P1[] L1=1[2!] C1a[]"),
    ("requeue 0 1 4", [0, 3, 0, 0, 0, 0], "R[3 1] P1[4] L1=1[2!] C1a[]"),
    ("abort 4", [0, 3, 0, 0, 0, 0], "R[3 1] P1[4!] L1=1[2!] C1a[]"),
    ("abort 1", [0, 3, 0, 0, 0, 0], "R[3 1!] P1[4!] L1=1[2!] C1a[]"),
    ("abort 3", [0, 3, 0, 0, 0, 0], "R[3! 1!] P1[4!] L1=1[2!] C1a[]"),
    ("reenter 1 1", [0, 1, 0, 0, 0, 1], "R[1!] P1[4!] L1=1[2! 3!] C1a[]"),
    ("reenter 1 1", [8, 0, 0, 0, 0, 0], "R[1!] P1[4!] L1=1[2! 3!] C1a[]"),
    ("exit 1", [0, 1, 0, 0, 1, 0], "R[1! 2!f] P1[4!] L1[3!] C1a[]"),
    ("reenter 1 1", [0, 1, 0, 2, 0, 0], "R[1 2!f] P1[4!] L1[3!] C1a[]"),
    ("reenter 1 1", [0, 1, 0, 1, 0, 0], "R[1 2!f] P1[4!] L1=1[3!] C1a[]"),
    ("wait 1 1 0", [0, 2, 1, 1, 1, 0], "R[2! 3!f] P1[4!] L1[] C1a[1]"),
    ("reenter 1 1", [0, 2, 0, 2, 0, 0], "R[2 3!f] P1[4!] L1[] C1a[1]"),
    ("abort 2", [0, 2, 0, 0, 0, 0], "R[2! 3!f] P1[4!] L1[] C1a[1]"),
    ("enter 1", [0, 2, 0, 1, 0, 0], "R[2! 3!f] P1[4!] L1=2[] C1a[1]"),
    ("wait 1 1 7", [0, 2, 0, 0, 0, 0], "R[2! 3!f] P1[4!] L1[] C1a[1]"),
    ("setabortable 1 0", [0, 2, 0, 0, 0, 0], "R[2! 3!f] P1[4!] L1[] C1[1]"),
    ("reenter 1 1", [0, 2, 0, 1, 0, 0], "R[2! 3!f] P1[4!] L1=2[] C1[1]"),
    ("requeue 1 0 4", [0, 2, 0, 0, 1, 0], "R[2! 3!f 4!] P1[] L1=2[] C1[1]"),
];

/// Wait over an abort leaves the lock, and wakeup and abort as they were, whoever queues at the lock.
/// Where the condition isn't abortable it waits; without abort it takes the wakeup.
#[rustfmt::skip]
const WAIT_OVER_ABORT: &[Turn] = &[
    ("start 3 1 2 0 2 2 2", [0, 1, 0, 0, 0, 0], "R[1 2 3] L1[] C1[] C2[]"),
    ("setabortable 1 1", [0, 1, 0, 0, 0, 0], "R[1 2 3] L1[] C1a[] C2[]"),
    ("naked 1", [0, 1, 0, 1, 0, 0], "R[1 2 3] L1[] C1aw[] C2[]"),
    ("enter 1", [0, 1, 0, 1, 0, 0], "R[1 2 3] L1=1[] C1aw[] C2[]"),
    ("requeue 0 0 1", [0, 2, 0, 0, 0, 0], "R[2 3 1] L1=1[] C1aw[] C2[]"),
    ("enter 1", [0, 3, 0, 0, 0, 0], "R[3 1] L1=1[2] C1aw[] C2[]"),
    ("requeue 0 0 3", [0, 1, 0, 0, 0, 0], "R[1 3] L1=1[2] C1aw[] C2[]"),
    ("abort 1", [0, 1, 0, 0, 0, 0], "R[1! 3] L1=1[2] C1aw[] C2[]"),
    ("wait 1 1 4", [0, 1, 0, 0, 1, 0], "R[1! 3 2f] L1[] C1aw[] C2[]"),
    ("wait 1 1 4", [9, 0, 0, 0, 0, 0], "R[1! 3 2f] L1[] C1aw[] C2[]"),
    ("enter 1", [0, 1, 0, 1, 0, 0], "R[1! 3 2f] L1=1[] C1aw[] C2[]"),
    ("wait 1 1 4", [0, 1, 0, 0, 0, 0], "R[1! 3 2f] L1[] C1aw[] C2[]"),
    ("enter 1", [0, 1, 0, 1, 0, 0], "R[1! 3 2f] L1=1[] C1aw[] C2[]"),
    ("wait 1 2 4", [0, 3, 0, 1, 0, 0], "R[3 2f] L1[] C1aw[] C2[1!@4]"),
    ("enter 1", [0, 3, 0, 1, 0, 0], "R[3 2f] L1=3[] C1aw[] C2[1!@4]"),
    ("wait 1 1 0", [0, 3, 0, 0, 0, 0], "R[3 2f] L1[] C1a[] C2[1!@4]"),
    ("setabortable 2 1", [0, 3, 0, 0, 0, 0], "R[3 2f] L1[] C1a[] C2a[1!@4]"),
    ("tick", [0, 3, 0, 0, 0, 0], "R[3 2f] L1[] C1a[] C2a[1!@4]"),
    ("tick", [0, 3, 0, 0, 0, 0], "R[3 2f] L1[] C1a[] C2a[1!@4]"),
    ("tick", [0, 3, 0, 0, 0, 0], "R[3 2f] L1[] C1a[] C2a[1!@4]"),
    ("tick", [0, 3, 0, 0, 1, 0], "R[3 2f 1!] L1[] C1a[] C2a[]"),
];

/// The process that a Wait over an abort lets out of the lock's queue may run before the caller, who
/// stays where it stands.
#[rustfmt::skip]
const LETS_A_HIGHER_ONE_GO: &[Turn] = &[
    ("start 3 1 1 1 1 7 1", [0, 2, 0, 0, 0, 0], "R[2 1 3] P1[] L1[] C1[]"),
    ("setabortable 1 1", [0, 2, 0, 0, 0, 0], "R[2 1 3] P1[] L1[] C1a[]"),
    ("requeue 0 1 2", [0, 1, 0, 0, 0, 0], "R[1 3] P1[2] L1[] C1a[]"),
    ("enter 1", [0, 1, 0, 1, 0, 0], "R[1 3] P1[2] L1=1[] C1a[]"),
    ("requeue 1 0 2", [0, 2, 0, 0, 1, 0], "R[2 1 3] P1[] L1=1[] C1a[]"),
    ("reenter 1 1", [0, 1, 0, 0, 0, 0], "R[1 3] P1[] L1=1[2] C1a[]"),
    ("abort 1", [0, 1, 0, 0, 0, 0], "R[1! 3] P1[] L1=1[2] C1a[]"),
    ("wait 1 1 0", [0, 2, 1, 0, 1, 0], "R[2 1! 3] P1[] L1[] C1a[]"),
    ("reenter 1 1", [0, 2, 0, 1, 0, 0], "R[2 1! 3] P1[] L1=2[] C1a[]"),
    ("wait 1 1 0", [0, 1, 0, 1, 0, 0], "R[1! 3] P1[] L1[] C1a[2]"),
    ("reenter 1 1", [0, 1, 0, 2, 0, 0], "R[1 3] P1[] L1[] C1a[2]"),
];

/// Refusals in their order: 7 before 8 and 9, 6 before 7, 8 before abort; Abort and SetAbortable ask
/// for nobody who runs.
#[rustfmt::skip]
const REFUSALS: &[Turn] = &[
    ("start 2 1 1 0 1 1", [0, 1, 0, 0, 0, 0], "R[1 2] L1[] C1[]"),
    ("abort 0", [7, 0, 0, 0, 0, 0], "R[1 2] L1[] C1[]"),
    ("abort 3", [7, 0, 0, 0, 0, 0], "R[1 2] L1[] C1[]"),
    ("abort 65535", [7, 0, 0, 0, 0, 0], "R[1 2] L1[] C1[]"),
    ("setabortable 0 1", [7, 0, 0, 0, 0, 0], "R[1 2] L1[] C1[]"),
    ("setabortable 2 1", [7, 0, 0, 0, 0, 0], "R[1 2] L1[] C1[]"),
    ("setabortable 1 2", [7, 0, 0, 0, 0, 0], "R[1 2] L1[] C1[]"),
    ("setabortable 1 65535", [7, 0, 0, 0, 0, 0], "R[1 2] L1[] C1[]"),
    ("setabortable 0 2", [7, 0, 0, 0, 0, 0], "R[1 2] L1[] C1[]"),
    ("setabortable 1 1", [0, 1, 0, 0, 0, 0], "R[1 2] L1[] C1a[]"),
    ("setabortable 1 1", [0, 1, 0, 0, 0, 0], "R[1 2] L1[] C1a[]"),
    ("abort 1", [0, 1, 0, 0, 0, 0], "R[1! 2] L1[] C1a[]"),
    ("reenter 0 1", [7, 0, 0, 0, 0, 0], "R[1! 2] L1[] C1a[]"),
    ("reenter 2 1", [7, 0, 0, 0, 0, 0], "R[1! 2] L1[] C1a[]"),
    ("reenter 1 0", [7, 0, 0, 0, 0, 0], "R[1! 2] L1[] C1a[]"),
    ("reenter 1 2", [7, 0, 0, 0, 0, 0], "R[1! 2] L1[] C1a[]"),
    ("reenter 65535 65535", [7, 0, 0, 0, 0, 0], "R[1! 2] L1[] C1a[]"),
    ("enter 1", [0, 1, 0, 1, 0, 0], "R[1! 2] L1=1[] C1a[]"),
    ("reenter 1 1", [8, 0, 0, 0, 0, 0], "R[1! 2] L1=1[] C1a[]"),
    ("reenter 1 2", [7, 0, 0, 0, 0, 0], "R[1! 2] L1=1[] C1a[]"),
    ("reenter 2 1", [7, 0, 0, 0, 0, 0], "R[1! 2] L1=1[] C1a[]"),
    ("wait 1 2 0", [7, 0, 0, 0, 0, 0], "R[1! 2] L1=1[] C1a[]"),
    ("exit 1", [0, 1, 0, 0, 0, 0], "R[1! 2] L1[] C1a[]"),
    ("wait 1 1 0", [9, 0, 0, 0, 0, 0], "R[1! 2] L1[] C1a[]"),
    ("reenter 1 1", [0, 1, 0, 2, 0, 0], "R[1 2] L1[] C1a[]"),
    ("enter 1", [0, 1, 0, 1, 0, 0], "R[1 2] L1=1[] C1a[]"),
    ("wait 1 1 0", [0, 2, 0, 1, 0, 0], "R[2] L1[] C1a[1]"),
    ("enter 1", [0, 2, 0, 1, 0, 0], "R[2] L1=2[] C1a[1]"),
    ("wait 1 1 0", [0, 0, 0, 1, 0, 1], "R[] L1[] C1a[1 2]"),
    ("reenter 1 1", [6, 0, 0, 0, 0, 0], "R[] L1[] C1a[1 2]"),
    ("reenter 0 0", [6, 0, 0, 0, 0, 0], "R[] L1[] C1a[1 2]"),
    ("abort 3", [7, 0, 0, 0, 0, 0], "R[] L1[] C1a[1 2]"),
    ("setabortable 1 2", [7, 0, 0, 0, 0, 0], "R[] L1[] C1a[1 2]"),
    ("setabortable 1 0", [0, 0, 0, 0, 0, 0], "R[] L1[] C1[1 2]"),
    ("abort 2", [0, 0, 0, 0, 0, 0], "R[] L1[] C1[1 2!]"),
    ("setabortable 1 1", [0, 0, 0, 0, 0, 0], "R[] L1[] C1a[1 2!]"),
    ("abort 2", [0, 2, 0, 0, 1, 0], "R[2!] L1[] C1a[1]"),
];

const SCRIPTS: [&[Turn]; 9] = [
    CALLED_OFF,
    OUT_OF_THE_RING,
    ABOVE_THE_RUNNER,
    NOBODY_RUNS,
    NOT_ABORTABLE,
    OTHER_QUEUES,
    WAIT_OVER_ABORT,
    LETS_A_HIGHER_ONE_GO,
    REFUSALS,
];

fn call_of(line: &str) -> Result<Call, String> {
    rehearse::call_of(line.as_bytes()).ok_or_else(|| format!("{line} is no call"))
}

/// A script in the ledger, on the reference and on the library.
fn play(tally: &mut Tally, script: &[Turn]) -> Outcome {
    let start = call_of(script[0].0)?;
    let (mut ledger, begun) = Ledger::start(&start).map_err(|code| format!("refused: {code}"))?;
    tally.same(&begun.fields(), &script[0].1, || {
        format!("ledger, {start:?}")
    })?;
    let mut words = vec![0xFFFF; 64];
    let mut lent = Guarded::new(&words);
    for (number, &(line, fields, told)) in script.iter().enumerate() {
        let place = || format!("line {number}, {line}, after {}", script[0].0);
        let call = call_of(line)?;
        if number > 0 {
            let noted = ledger.call(&call).fields();
            tally.same(&noted, &fields, || format!("ledger, {}", place()))?;
        }
        let answer = reference::perform(&mut words, &call).fields();
        tally.same(&answer, &fields, || format!("reference, {}", place()))?;
        let found = library::perform(lent.slice_mut(), &call);
        let expected = Answer::of(fields).pack();
        tally.same(&found, &expected, || format!("library, {}", place()))?;
        tally.same(lent.slice(), &words[..], place)?;
        let state = state_of(lent.slice())?;
        tally.same(tell(&state).as_str(), told, place)?;
    }
    tally.holds(lent.intact(), || "guard words".to_string())
}

fn state_of(area: &[u16]) -> Result<State, String> {
    reference::read(area).ok_or_else(|| format!("not sound {area:x?}"))
}

/// What the area says, as in a script.
fn tell(state: &State) -> String {
    let queues = state.shape.queues();
    let texts = queues.iter().map(|&queue| {
        let members = state.queue(queue).iter();
        let members: Vec<String> = members
            .map(|&one| tell_process(state, queue, one))
            .collect();
        format!("{}[{}]", tell_name(state, queue), members.join(" "))
    });
    texts.collect::<Vec<_>>().join(" ")
}

fn tell_name(state: &State, queue: Queue) -> String {
    match queue {
        Queue::Ready => "R".to_string(),
        Queue::Park(number) => format!("P{number}"),
        Queue::Lock(number) => match state.lock(number).holder {
            0 => format!("L{number}"),
            holder => format!("L{number}={holder}"),
        },
        Queue::Condition(number) => {
            let one = state.condition(number);
            let abortable = if one.abortable { "a" } else { "" };
            let wakeup = if one.wakeup { "w" } else { "" };
            format!("C{number}{abortable}{wakeup}")
        }
    }
}

fn tell_process(state: &State, queue: Queue, process: u16) -> String {
    let record = state.record(process);
    let failed = record.failed && !matches!(queue, Queue::Lock(_));
    let mut text = process.to_string();
    text += if record.abort { "!" } else { "" };
    text += if failed { "f" } else { "" };
    if record.armed {
        text += &format!("@{}", record.timer);
    }
    text
}

/// All scripts one after the other, each with its own Start.
fn through_rehearse(tally: &mut Tally) -> Outcome {
    let turns = SCRIPTS.concat();
    let lines: String = turns.iter().map(|turn| format!("{}\n", turn.0)).collect();
    let answers: Vec<String> = turns.iter().map(|turn| rehearse::printed(turn.1)).collect();
    rehearse::play(tally, lines.as_bytes(), &answers)
}

// Numbers.

/// Every number at a boundary of the three calls, with the code written out; a refused call changes
/// no word.
fn boundaries(tally: &mut Tally, random: &mut Random, processes: u16) -> Outcome {
    for (locks, conditions) in [
        (0, 0),
        (0, 1),
        (1, 0),
        (1, 1),
        (3, 2),
        (255, 255),
        (255, 254),
    ] {
        let shape = Shape {
            processes,
            locks,
            conditions,
            parks: 1,
        };
        let near = |count: u16| [0, 1, count, count + 1, 256, 1_024, 32_769, 65_535];
        let is = |number: u16, count: u16| (1..=count).contains(&number);
        let code = |right: bool| if right { 0 } else { 7 };
        let state = sample::state(random, shape);
        let mut cases: Vec<(Call, u16)> = Vec::new();
        for process in near(processes) {
            cases.push((Call::Abort(process), code(is(process, processes))));
        }
        for condition in near(conditions) {
            for value in [0, 1, 2, 3, 255, 256, 257, 65_535] {
                let right = is(condition, conditions) && value < 2;
                cases.push((Call::set_abortable(condition, value), code(right)));
            }
            for lock in near(locks) {
                let right = is(condition, conditions) && is(lock, locks);
                let held = right && state.lock(lock).holder == state.running;
                let code = match state.running {
                    0 => 6,
                    _ if held => 8,
                    _ => code(right),
                };
                cases.push((Call::reenter(lock, condition), code));
            }
        }
        for (call, code) in cases {
            coded(tally, &state.words(), &call, code)?;
        }
    }
    Ok(())
}

/// A call on a copy of these words, its code, and its refusal's zeros and unchanged words.
fn coded(tally: &mut Tally, words: &[u16], call: &Call, code: u16) -> Outcome {
    let mut lent = Guarded::new(words);
    let found = library::perform(lent.slice_mut(), call);
    let place = || format!("{call:?} on {words:x?}");
    tally.same(&(found & 1023), &u64::from(code), place)?;
    if code != 0 {
        tally.same(&found, &u64::from(code), place)?;
        tally.same(lent.slice(), words, place)?;
    }
    tally.holds(lent.intact(), || format!("guard words, {}", place()))
}

/// Areas that aren't sound are refused by 1, whatever the numbers, and stay as they are.
fn unsound_areas(tally: &mut Tally, random: &mut Random) -> Outcome {
    for round in 0..15_000 {
        let shape = sample::small_shape(random);
        let mut words = damage::area(random, shape, round, 20);
        if words.len() == shape.size() && random.chance(30) {
            damage::set_unnamed(random, &shape, &mut words);
        }
        if reference::sound(&words) {
            continue;
        }
        let lock = history::number(random, shape.locks, 20);
        let condition = history::number(random, shape.conditions, 20);
        let process = history::number(random, shape.processes, 20);
        let value = random.between(0, 2);
        for call in [
            Call::Abort(process),
            Call::set_abortable(condition, value),
            Call::reenter(lock, condition),
        ] {
            coded(tally, &words, &call, 1)?;
        }
    }
    Ok(())
}

// Laws.

/// How often each law was met with something to say.
#[derive(Default)]
struct Met {
    bit_alone: u64,
    as_notify: u64,
    woken: u64,
    as_enter: u64,
    called_off: u64,
    as_exit: u64,
    switched: u64,
    over_aborted: u64,
    blind: u64,
}

impl Met {
    fn counts(&self) -> [(&'static str, u64); 9] {
        [
            ("aborts that change the bit alone", self.bit_alone),
            ("aborts as notify", self.as_notify),
            ("aborts that wake", self.woken),
            ("reenters as enter", self.as_enter),
            ("reenters called off", self.called_off),
            ("waits as exit", self.as_exit),
            ("conditions switched", self.switched),
            (
                "conditions switched over an aborted waiter",
                self.over_aborted,
            ),
            ("calls and reads blind to the bits", self.blind),
        ]
    }

    fn remark(&self) -> String {
        format!(
            ", {} aborts that wake, {} waits called off",
            self.woken, self.as_exit
        )
    }

    fn demand(&self) -> Outcome {
        match self.counts().iter().find(|(_, count)| *count < 200) {
            None => Ok(()),
            Some((what, count)) => Err(format!("hardly met: {what}, {count} times")),
        }
    }
}

/// Does a call on a copy of the area; answers the packed answer and the words.
fn on_copy(area: &[u16], call: &Call) -> (u64, Vec<u16>) {
    let mut copy = Guarded::new(area);
    let answer = library::perform(copy.slice_mut(), call);
    assert!(copy.intact(), "guard words, {call:?} on {area:x?}");
    (answer, copy.slice().to_vec())
}

/// The answer of a call that moves nobody and has this mark.
fn still(state: &State, mark: u16) -> u64 {
    Answer::of([0, state.running, 0, mark, 0, 0]).pack()
}

fn laws_over_histories(tally: &mut Tally, random: &mut Random, met: &mut Met) -> Outcome {
    for _ in 0..120 {
        let shape = sample::small_shape(random);
        let mut area = vec![0; shape.size()];
        library::perform(&mut area, &history::start(random, shape));
        let mut history = History::new(5, 5);
        for _ in 0..150 {
            let state = state_of(&area)?;
            laws(tally, random, &area, &state, met)?;
            let call = history.next(random, &state);
            library::perform(&mut area, &call);
        }
    }
    Ok(())
}

fn laws_on_scattered_states(tally: &mut Tally, random: &mut Random, met: &mut Met) -> Outcome {
    for _ in 0..12_000 {
        let shape = sample::small_shape(random);
        let state = sample::state(random, shape);
        laws(tally, random, &state.words(), &state, met)?;
    }
    Ok(())
}

fn laws(
    tally: &mut Tally,
    random: &mut Random,
    area: &[u16],
    state: &State,
    met: &mut Met,
) -> Outcome {
    let shape = &state.shape;
    let process = random.between(1, shape.processes);
    abort_law(tally, area, state, process, met)?;
    if shape.conditions > 0 {
        let condition = random.between(1, shape.conditions);
        switch_law(tally, area, state, condition, met)?;
        if shape.locks > 0 && state.running != 0 {
            let lock = random.between(1, shape.locks);
            reenter_law(tally, area, state, (lock, condition), met)?;
            wait_law(tally, random, area, state, condition, met)?;
        }
    }
    blind_law(tally, random, area, state, met)
}

/// Abort sets the bit. Who doesn't wait on an abortable condition stays, and nothing else changes;
/// who does comes into ready, as by Notify if it is the first. A second Abort changes nothing.
fn abort_law(
    tally: &mut Tally,
    area: &[u16],
    state: &State,
    process: u16,
    met: &mut Met,
) -> Outcome {
    let flags = state.shape.link_at(process) + 1;
    let (answer, after) = on_copy(area, &Call::Abort(process));
    let place = || format!("abort {process} on {area:x?}");
    let again = on_copy(&after, &Call::Abort(process));
    let then = state_of(&after)?;
    tally.same(&again, &(still(&then, 0), after.clone()), || {
        format!("again, {}", place())
    })?;
    let condition = match state.lies(process) {
        Queue::Condition(number) if state.condition(number).abortable => number,
        _ => {
            let mut expected = area.to_vec();
            expected[flags] |= 1;
            met.bit_alone += 1;
            return tally.same(&(answer, after), &(still(state, 0), expected), place);
        }
    };
    met.woken += 1;
    tally.holds(then.ready.contains(&process), place)?;
    tally.same(&(after[flags], after[flags + 1]), &(1, 0), place)?;
    tally.same(&(answer >> 30), &(1 << 10), place)?;
    if state.condition(condition).queue[0] != process || state.running == 0 {
        return Ok(());
    }
    let (notified, mut expected) = on_copy(area, &Call::Notify(condition));
    expected[flags] |= 1;
    met.as_notify += 1;
    tally.same(&(answer, after), &(notified, expected), || {
        format!("as notify, {}", place())
    })
}

/// SetAbortable changes the one bit, over whomever it is.
fn switch_law(
    tally: &mut Tally,
    area: &[u16],
    state: &State,
    condition: u16,
    met: &mut Met,
) -> Outcome {
    let at = state.shape.tail_at(Queue::Condition(condition));
    for value in [0, 1] {
        let mut expected = area.to_vec();
        expected[at] = area[at] & !2 | value << 1;
        let found = on_copy(area, &Call::set_abortable(condition, value));
        tally.same(&found, &(still(state, 0), expected), || {
            format!("set_abortable {condition} {value} on {area:x?}")
        })?;
    }
    let mut waiters = state.condition(condition).queue.iter();
    met.switched += 1;
    met.over_aborted += u64::from(waiters.any(|&one| state.record(one).abort));
    Ok(())
}

fn called_off(state: &State, condition: u16) -> bool {
    state.record(state.running).abort && state.condition(condition).abortable
}

/// Reenter is Enter, but on a free lock with abort set and the condition abortable: there it clears
/// abort and changes nothing else.
fn reenter_law(
    tally: &mut Tally,
    area: &[u16],
    state: &State,
    (lock, condition): (u16, u16),
    met: &mut Met,
) -> Outcome {
    let found = on_copy(area, &Call::reenter(lock, condition));
    let place = || format!("reenter {lock} {condition} on {area:x?}");
    if state.lock(lock).holder != 0 || !called_off(state, condition) {
        met.as_enter += 1;
        return tally.same(&found, &on_copy(area, &Call::Enter(lock)), place);
    }
    let mut expected = area.to_vec();
    expected[state.shape.link_at(state.running) + 1] = 0;
    met.called_off += 1;
    tally.same(&found, &(still(state, 2), expected), place)
}

/// Wait over an abort is Exit, whatever the ticks, and whether a wakeup is stored or not.
fn wait_law(
    tally: &mut Tally,
    random: &mut Random,
    area: &[u16],
    state: &State,
    condition: u16,
    met: &mut Met,
) -> Outcome {
    let held = |&lock: &u16| state.lock(lock).holder == state.running;
    let Some(lock) = (1..=state.shape.locks).find(held) else {
        return Ok(());
    };
    if !called_off(state, condition) {
        return Ok(());
    }
    met.as_exit += 1;
    let ticks = random.pick(&[0, 1, 9, 65_535]);
    let found = on_copy(area, &Call::wait(lock, condition, ticks));
    tally.same(&found, &on_copy(area, &Call::Exit(lock)), || {
        format!("wait {lock} {condition} {ticks} on {area:x?}")
    })
}

/// No other call asks for abort or abortable, or changes them; no read shows them.
fn blind_law(
    tally: &mut Tally,
    random: &mut Random,
    area: &[u16],
    state: &State,
    met: &mut Met,
) -> Outcome {
    let call = history::any_call(random, &state.shape, 5);
    let asks = matches!(
        call,
        Call::Wait { .. } | Call::Abort(_) | Call::SetAbortable { .. } | Call::Reenter { .. }
    );
    let mut other = area.to_vec();
    for _ in 0..=random.below(6) {
        damage::flip_free(random, &state.shape, &mut other);
    }
    let place = || format!("{call:?} on {area:x?} and on {other:x?}");
    tally.same(&reads(&other), &reads(area), place)?;
    if asks {
        return Ok(());
    }
    met.blind += 1;
    let (one, another) = (on_copy(area, &call), on_copy(&other, &call));
    tally.same(&another.0, &one.0, place)?;
    let differ = |one: &[u16], another: &[u16]| -> Vec<u16> {
        one.iter().zip(another).map(|(a, b)| a ^ b).collect()
    };
    tally.same(&differ(&one.1, &another.1), &differ(area, &other), place)
}

/// What every read of the library says: sound, each queue, who is due, the nearest, the sheet.
fn reads(area: &[u16]) -> (Vec<u64>, Vec<u16>, Vec<u8>) {
    let shape = state_of(area).expect("a sound area").shape;
    let mut words = Vec::new();
    let mut page = vec![0; 29 * shape.queues().len()];
    let mut answers = vec![
        library::sound(area),
        library::nearest(area),
        library::sheet(area, &mut page),
    ];
    let mut buffer = vec![0; 2 * usize::from(shape.processes)];
    answers.push(library::due(area, 65_535, &mut buffer));
    words.extend_from_slice(&buffer);
    for condition in 1..=shape.conditions {
        answers.push(library::list(area, 3, condition, &mut buffer));
        words.extend_from_slice(&buffer);
    }
    answers.push(library::list(area, 0, 0, &mut buffer));
    words.extend_from_slice(&buffer);
    (answers, words, page)
}
