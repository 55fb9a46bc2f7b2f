//! The yard sheet on the library against the reference: pages of every length near the need,
//! every number of rows, every number in a row, refusals that change nothing; and pages that
//! are written out here.

use super::{table, Outcome, Tally};
use crate::call::pack_wide;
use crate::damage;
use crate::guarded::Guarded;
use crate::library;
use crate::random::Random;
use crate::reference::{self, Queue, Shape, State};
use crate::sample;

/// How many bytes a row has.
const ROW: usize = 29;

/// The greatest number of processes.
const MOST: u16 = 1_023;

pub fn run(tally: &mut Tally, random: &mut Random) -> Outcome {
    let mut met = Met::default();
    nine_lines(tally)?;
    written_rows(tally)?;
    ready_alone(tally, random, &mut met)?;
    every_length(tally, random, &mut met)?;
    every_number_of_rows(tally, random, &mut met)?;
    every_number_in_a_row(tally, random, &mut met)?;
    greatest_areas(tally, random, &mut met)?;
    long_slices(tally, random, &mut met)?;
    damaged_areas(tally, random, &mut met)?;
    met.demand()
}

/// How often each code was met, so that a suite that met too little fails.
#[derive(Default)]
struct Met {
    codes: [u64; 6],
}

impl Met {
    fn demand(&self) -> Outcome {
        match [0, 1, 5].iter().find(|&&code| self.codes[code] < 5_000) {
            None => Ok(()),
            Some(code) => Err(format!("code {code} was hardly met: {:?}", self.codes)),
        }
    }
}

/// An area that is read, and the lines that the reference makes of it; none if it isn't sound.
struct Read<'a> {
    area: &'a Guarded,
    words: Vec<u16>,
    lines: Option<Vec<u8>>,
}

impl<'a> Read<'a> {
    fn new(area: &'a Guarded) -> Self {
        let words = area.slice().to_vec();
        let lines = reference::read(&words).map(|state| state.sheet());
        Read { area, words, lines }
    }

    fn need(&self) -> usize {
        self.lines.as_ref().map_or(0, Vec::len)
    }

    /// The sheet on a page of so many bytes, which begins at any address; answers the code.
    fn sheet(&self, tally: &mut Tally, random: &mut Random, length: usize) -> Result<u32, String> {
        let before = random.below(4);
        let mut expected = random.bytes(before + length);
        let mut page = Guarded::new(&expected);
        let (code, bytes) = match &self.lines {
            None => (1, 0),
            Some(lines) => reference::sheet(lines, &mut expected[before..]),
        };
        let place = || format!("sheet on {length} bytes, {:x?}", self.words);
        let found = library::sheet(self.area.slice(), &mut page.slice_mut()[before..]);
        tally.same(&found, &pack_wide(&[code, bytes]), place)?;
        tally.same(page.slice(), &expected[..], place)?;
        tally.holds(page.intact(), || format!("guard bytes, {}", place()))?;
        tally.same(self.area.slice(), &self.words[..], place)?;
        tally.holds(self.area.intact(), || format!("guard words, {}", place()))?;
        Ok(code)
    }

    /// The sheet on pages of all these lengths.
    fn sheets(
        &self,
        tally: &mut Tally,
        random: &mut Random,
        lengths: impl IntoIterator<Item = usize>,
        met: &mut Met,
    ) -> Outcome {
        for length in lengths {
            let code = self.sheet(tally, random, length)?;
            met.codes[code as usize] += 1;
        }
        Ok(())
    }
}

/// Lengths of a page around the need: none, a byte and a row around it, and more.
fn lengths_near(need: usize) -> [usize; 9] {
    [
        0,
        1,
        need.saturating_sub(ROW),
        need.saturating_sub(1),
        need,
        need + 1,
        need + ROW,
        need + 2 * ROW,
        2 * need + 1_000,
    ]
}

/// The sheet of an area that a history has reached, on a page that suffices and on one that is
/// a byte too short.
pub fn reads(tally: &mut Tally, area: &Guarded) -> Outcome {
    let mut random = Random::new(tally.compared);
    let read = Read::new(area);
    let need = read.need();
    tally.holds(need >= ROW, || format!("no lines of {:x?}", read.words))?;
    for length in [need - 1, need + random.pick(&[0, 0, 1, ROW])] {
        read.sheet(tally, &mut random, length)?;
    }
    Ok(())
}

/// The library's page of an area, as text; nothing if it is refused.
fn text_of(area: &[u16]) -> String {
    let mut page = vec![b'?'; 519 * ROW];
    let bytes = (library::sheet(area, &mut page) >> 20) as usize;
    page.truncate(bytes);
    String::from_utf8_lossy(&page).into_owned()
}

/// The definition's nine lines: the page after Start, after the first Wait, when 2 queues for
/// the lock, and at the end.
fn nine_lines(tally: &mut Tally) -> Outcome {
    let pages = [
        (
            1,
            "RD   0    3    2    3    0 0\n\
             LK   1    0    0    0    0 0\n\
             CN   1    0    0    0    0 0\n",
        ),
        (
            3,
            "RD   0    2    1    3    0 0\n\
             LK   1    0    0    0    0 0\n\
             CN   1    1    2    2    0 0\n",
        ),
        (
            6,
            "RD   0    2    1    3    0 0\n\
             LK   1    1    2    2    1 0\n\
             CN   1    0    0    0    0 0\n",
        ),
        (
            9,
            "RD   0    3    2    3    0 0\n\
             LK   1    0    0    0    2 0\n\
             CN   1    0    0    0    0 0\n",
        ),
    ];
    for (lines, page) in pages {
        let mut area = vec![0; 18];
        for (call, answer) in table::lines().into_iter().take(lines) {
            let found = library::perform(&mut area, &call);
            tally.same(&found, &answer.pack(), || format!("{call:?}"))?;
        }
        let place = || format!("after {lines} lines");
        tally.same(text_of(&area).as_str(), page, place)?;
    }
    Ok(())
}

/// A state in which processes of one priority stand in these queues, each from one number to
/// another; these locks have holders, and these conditions a wakeup.
fn state_of(
    shape: Shape,
    queues: &[(Queue, u16, u16)],
    holders: &[(u16, u16)],
    wakeups: &[u16],
) -> State {
    let mut state = State::fresh(shape, &vec![4; usize::from(shape.processes)]);
    state.ready.clear();
    for &(queue, first, last) in queues {
        for process in first..=last {
            state.queue_mut(queue).push(process);
            let record = state.record_mut(process);
            record.failed = matches!(queue, Queue::Lock(_));
            record.waiting = matches!(queue, Queue::Condition(_));
        }
    }
    state.running = state.ready.first().copied().unwrap_or(0);
    for &(lock, holder) in holders {
        state.lock_mut(lock).locked = true;
        state.lock_mut(lock).holder = holder;
    }
    for &condition in wakeups {
        state.condition_mut(condition).wakeup = true;
    }
    state
}

/// Rows of every kind, with numbers of one to four digits in every place that can have them.
fn written_rows(tally: &mut Tally) -> Outcome {
    let shape = Shape {
        processes: MOST,
        locks: 255,
        conditions: 255,
        parks: 8,
    };
    let spread = state_of(
        shape,
        &[
            (Queue::Ready, 1, 9),
            (Queue::Park(1), 10, 10),
            (Queue::Park(8), 11, 99),
            (Queue::Lock(100), 100, 999),
            (Queue::Condition(9), 1_000, 1_000),
            (Queue::Condition(255), 1_001, MOST),
        ],
        &[(9, 7), (10, 42), (99, 345), (100, 1_000), (255, MOST)],
        &[1, 10, 254],
    );
    let gathered = state_of(shape, &[(Queue::Ready, 1, MOST)], &[], &[]);
    let rows = [
        (&spread, Queue::Ready, "RD   0    9    1    9    0 0"),
        (&spread, Queue::Park(1), "PK   1    1   10   10    0 0"),
        (&spread, Queue::Park(2), "PK   2    0    0    0    0 0"),
        (&spread, Queue::Park(8), "PK   8   89   11   99    0 0"),
        (&spread, Queue::Lock(1), "LK   1    0    0    0    0 0"),
        (&spread, Queue::Lock(9), "LK   9    0    0    0    7 0"),
        (&spread, Queue::Lock(10), "LK  10    0    0    0   42 0"),
        (&spread, Queue::Lock(99), "LK  99    0    0    0  345 0"),
        (&spread, Queue::Lock(100), "LK 100  900  100  999 1000 0"),
        (&spread, Queue::Lock(255), "LK 255    0    0    0 1023 0"),
        (&spread, Queue::Condition(1), "CN   1    0    0    0    0 1"),
        (&spread, Queue::Condition(9), "CN   9    1 1000 1000    0 0"),
        (
            &spread,
            Queue::Condition(10),
            "CN  10    0    0    0    0 1",
        ),
        (
            &spread,
            Queue::Condition(254),
            "CN 254    0    0    0    0 1",
        ),
        (
            &spread,
            Queue::Condition(255),
            "CN 255   23 1001 1023    0 0",
        ),
        (&gathered, Queue::Ready, "RD   0 1023    1 1023    0 0"),
    ];
    for (state, queue, row) in rows {
        let area = state.words();
        let place = || format!("the row of {queue:?}");
        tally.holds(reference::sound(&area), place)?;
        let queues = shape.queues();
        let line = queues.iter().position(|&other| other == queue);
        let text = text_of(&area);
        tally.same(&text.len(), &15_051, place)?;
        tally.same(&text.lines().count(), &519, place)?;
        tally.same(
            &line.and_then(|line| text.lines().nth(line)),
            &Some(row),
            place,
        )?;
    }
    Ok(())
}

/// An area without locks, conditions and parks has one row.
fn ready_alone(tally: &mut Tally, random: &mut Random, met: &mut Met) -> Outcome {
    for processes in [1, 2, 9, 10, 99, 100, 999, 1_000, MOST] {
        let shape = Shape {
            processes,
            locks: 0,
            conditions: 0,
            parks: 0,
        };
        let lent = Guarded::new(&sample::state(random, shape).words());
        let read = Read::new(&lent);
        tally.same(&read.need(), &ROW, || format!("{shape:?}"))?;
        read.sheets(tally, random, 0..=3 * ROW, met)?;
    }
    Ok(())
}

/// Small areas on pages of every length from none to two rows more than the need.
fn every_length(tally: &mut Tally, random: &mut Random, met: &mut Met) -> Outcome {
    for _ in 0..200 {
        let shape = sample::small_shape(random);
        let lent = Guarded::new(&sample::state(random, shape).words());
        let read = Read::new(&lent);
        read.sheets(tally, random, 0..=read.need() + 2 * ROW, met)?;
    }
    for _ in 0..4_000 {
        let shape = sample::small_shape(random);
        let lent = Guarded::new(&sample::state(random, shape).words());
        let read = Read::new(&lent);
        read.sheets(tally, random, lengths_near(read.need()), met)?;
    }
    Ok(())
}

/// Every number of parks, with few, some and the most locks and conditions.
fn every_number_of_rows(tally: &mut Tally, random: &mut Random, met: &mut Met) -> Outcome {
    let counts = [0, 1, 2, 9, 10, 99, 100, 254, 255];
    for parks in 0..=8 {
        for locks in counts {
            for conditions in counts {
                let shape = Shape {
                    processes: random.between(1, 40),
                    locks,
                    conditions,
                    parks,
                };
                let lent = Guarded::new(&sample::state(random, shape).words());
                let read = Read::new(&lent);
                let rows = 1 + usize::from(parks + locks + conditions);
                let need = read.need();
                tally.same(&need, &(ROW * rows), || format!("{shape:?}"))?;
                read.sheets(tally, random, [need - 1, need, need + 1], met)?;
            }
        }
    }
    Ok(())
}

/// Each number of a process as a count, a first, a last and a holder.
fn every_number_in_a_row(tally: &mut Tally, random: &mut Random, met: &mut Met) -> Outcome {
    let shape = Shape {
        processes: MOST,
        locks: 1,
        conditions: 1,
        parks: 1,
    };
    for process in 1..=MOST {
        let others = random.pick(&[Queue::Park(1), Queue::Lock(1), Queue::Condition(1)]);
        let queues = [(Queue::Ready, process, MOST), (others, 1, process - 1)];
        let lent = Guarded::new(&state_of(shape, &queues, &[(1, process)], &[]).words());
        let read = Read::new(&lent);
        let need = read.need();
        tally.same(&need, &(4 * ROW), || format!("{process} and {others:?}"))?;
        read.sheets(tally, random, [need], met)?;
    }
    Ok(())
}

/// All counts at their most, processes anywhere.
fn greatest_areas(tally: &mut Tally, random: &mut Random, met: &mut Met) -> Outcome {
    for _ in 0..20 {
        let shape = Shape {
            processes: MOST,
            locks: 255,
            conditions: 255,
            parks: 8,
        };
        let lent = Guarded::new(&sample::state(random, shape).words());
        let read = Read::new(&lent);
        tally.same(&read.need(), &15_051, || format!("{shape:?}"))?;
        read.sheets(tally, random, lengths_near(15_051), met)?;
    }
    Ok(())
}

/// Areas and pages so long that a length cut to 16 bits would be too short.
fn long_slices(tally: &mut Tally, random: &mut Random, met: &mut Met) -> Outcome {
    for _ in 0..10 {
        let shape = sample::small_shape(random);
        let mut words = sample::state(random, shape).words();
        let beyond = 65_536 + random.below(shape.size()) - words.len();
        words.extend(random.words(beyond));
        let lent = Guarded::new(&words);
        let read = Read::new(&lent);
        let need = read.need();
        read.sheets(tally, random, lengths_near(need), met)?;
        read.sheets(tally, random, [65_535, 65_536, 65_535 + need], met)?;
    }
    Ok(())
}

/// An area that isn't sound is refused by 1, however short or long the page.
fn damaged_areas(tally: &mut Tally, random: &mut Random, met: &mut Met) -> Outcome {
    for round in 0..20_000 {
        let shape = sample::small_shape(random);
        let lent = Guarded::new(&damage::area(random, shape, round, 50));
        let need = ROW * shape.queues().len();
        let lengths = [0, need - 1, need, need + ROW];
        Read::new(&lent).sheets(tally, random, lengths, met)?;
    }
    Ok(())
}
