//! The program show on random scripts: what it tells of each line, who stands where by it, and
//! its lanes, all against the reference.

use super::rehearse::{call_of, script};
use super::{Outcome, Tally};
use crate::call::{Answer, Call};
use crate::random::Random;
use crate::reference::{self, Queue, State};
use std::collections::BTreeMap;
use std::fs;
use std::process::Command;

const FOLDER: &str = concat!(env!("CARGO_MANIFEST_DIR"), "/../target");
const AREA_WORDS: usize = 8_192;
/// Where a line of the script is told: its number, its call, and then the words.
const WORDS_AT: usize = 29;
/// How far in a line about a queue begins, and a line that goes on from the one before.
const QUEUE_IN: usize = 31;
const GOES_ON_IN: usize = 32;
const LANE_AT: usize = 8;

pub fn run(tally: &mut Tally, random: &mut Random) -> Outcome {
    for _ in 0..12 {
        compare(tally, &script(random, 700))?;
    }
    Ok(())
}

/// A line of the script in the reference: its answer, if it is a call, and the state after it.
struct Step {
    call: Option<Call>,
    answer: Answer,
    state: Option<State>,
}

impl Step {
    fn accepted(&self) -> bool {
        self.call.is_some() && self.answer.code == 0
    }

    fn starts(&self) -> bool {
        self.accepted() && matches!(self.call, Some(Call::Start { .. }))
    }
}

fn steps(script: &[u8]) -> Vec<Step> {
    let mut area = vec![0; AREA_WORDS];
    let whole = script.strip_suffix(b"\n").unwrap_or(script);
    let step = |line: &[u8]| {
        let call = call_of(line);
        let answer = call.as_ref().map_or(Answer::refusal(0), |call| {
            reference::perform(&mut area, call)
        });
        Step {
            call,
            answer,
            state: reference::read(&area),
        }
    };
    whole.split(|&byte| byte == b'\n').map(step).collect()
}

fn compare(tally: &mut Tally, script: &[u8]) -> Outcome {
    let file = format!("{FOLDER}/show.script");
    fs::write(&file, script).map_err(|why| format!("{file}: {why}"))?;
    let shown = Command::new(format!("{FOLDER}/show")).arg(&file).output();
    let shown = shown.map_err(|why| format!("show: {why}"))?;
    tally.holds(shown.status.success(), || "show ends well".to_string())?;
    let text = String::from_utf8(shown.stdout).map_err(|why| why.to_string())?;
    let (told, lanes) = text
        .split_once("\n\n")
        .ok_or("show tells, and then draws lanes")?;
    let steps = steps(script);
    compare_told(tally, told, &steps)?;
    compare_lanes(tally, lanes, &steps)
}

// ---- what is told of each line

/// What is told of a line: its words, and the lines about queues and holders.
struct Telling {
    words: String,
    queues: Vec<String>,
}

fn tellings(told: &str) -> Vec<Telling> {
    let mut tellings: Vec<Telling> = Vec::new();
    for line in told.lines().skip(1) {
        let indent = line.len() - line.trim_start().len();
        match tellings.last_mut() {
            Some(telling) if indent == QUEUE_IN => telling.queues.push(line.trim().to_string()),
            Some(telling) if indent == GOES_ON_IN => {
                let open = telling.queues.last_mut().unwrap_or(&mut telling.words);
                open.push(' ');
                open.push_str(line.trim());
            }
            _ => tellings.push(Telling {
                words: line[WORDS_AT..].to_string(),
                queues: Vec::new(),
            }),
        }
    }
    tellings
}

fn label(queue: Queue) -> String {
    match queue {
        Queue::Ready => "ready".to_string(),
        Queue::Park(number) => format!("park {number}"),
        Queue::Lock(number) => format!("at lock {number}"),
        Queue::Condition(number) => format!("waits on {number}"),
    }
}

/// Who stands in a queue, each with its ticks left if it has some.
fn members(state: &State, queue: Queue) -> String {
    let left = state.timed().into_iter();
    let left: BTreeMap<u16, u32> = left.map(|one| (one.process, one.left)).collect();
    let wakeup = matches!(queue, Queue::Condition(number) if state.condition(number).wakeup);
    let member = |process: &u16| match left.get(process) {
        Some(1) => format!("{process} (1 tick left)"),
        Some(ticks) => format!("{process} ({ticks} ticks left)"),
        None => process.to_string(),
    };
    match state.queue(queue) {
        [] if wakeup => "nobody, a wakeup is stored".to_string(),
        [] => "nobody".to_string(),
        some => some.iter().map(member).collect::<Vec<_>>().join(" "),
    }
}

fn held(state: &State) -> Option<String> {
    let holders = (1..=state.shape.locks).map(|lock| (lock, state.lock(lock).holder));
    let held: Vec<String> = holders
        .filter(|&(_, holder)| holder != 0)
        .map(|(lock, holder)| format!("lock {lock} by {holder}"))
        .collect();
    (!held.is_empty()).then(|| format!("held: {}", held.join("; ")))
}

/// The lines about queues and holders: the queues that changed, after a start those that are not
/// empty, and the locks that are held.
fn changes(step: &Step, before: Option<&State>) -> Vec<String> {
    let Some(state) = step.state.as_ref().filter(|_| step.accepted()) else {
        return Vec::new();
    };
    let changed = |queue: &Queue| match before.filter(|_| !step.starts()) {
        None => !state.queue(*queue).is_empty(),
        Some(before) => {
            let wakeup = |state: &State| matches!(*queue, Queue::Condition(number) if state.condition(number).wakeup);
            state.queue(*queue) != before.queue(*queue) || wakeup(state) != wakeup(before)
        }
    };
    let queues = state.shape.queues().into_iter().filter(changed);
    let told = queues.map(|queue| format!("{}: {}", label(queue), members(state, queue)));
    told.chain(held(state)).collect()
}

/// How the words end: who runs, if it is another, and whether it must enter again.
fn ending(step: &Step, before: Option<&State>) -> String {
    let same = before.is_some_and(|before| before.running == step.answer.running);
    match step.answer {
        _ if same && !step.starts() => String::new(),
        Answer { running: 0, .. } => "; nobody runs".to_string(),
        Answer { running, retry, .. } => {
            let again = if retry == 1 {
                " and must enter again"
            } else {
                ""
            };
            format!("; {running} runs{again}")
        }
    }
}

fn compare_told(tally: &mut Tally, told: &str, steps: &[Step]) -> Outcome {
    let tellings = tellings(told);
    tally.same(&tellings.len(), &steps.len(), || "lines".to_string())?;
    let mut before = None;
    for (number, (telling, step)) in tellings.iter().zip(steps).enumerate() {
        let place = || format!("line {}: {}", number + 1, telling.words);
        if step.call.is_none() {
            tally.holds(telling.words.starts_with("? no call: "), place)?;
        } else if step.accepted() {
            let ending = ending(step, before);
            tally.holds(telling.words.ends_with(&ending), place)?;
            tally.same(
                &telling.words.contains(" runs"),
                &ending.contains(" runs"),
                place,
            )?;
        } else {
            let refused = format!("refused {}: ", step.answer.code);
            tally.holds(telling.words.starts_with(&refused), place)?;
        }
        tally.same(&telling.queues, &changes(step, before), place)?;
        before = step.state.as_ref();
    }
    Ok(())
}

// ---- lanes

/// Where a process stands, as its lane says it at the first line.
fn mark(state: &State, process: u16) -> String {
    match state.lies(process) {
        Queue::Ready if state.running == process => "=".to_string(),
        Queue::Ready => ".".to_string(),
        Queue::Park(number) => format!("P{number}"),
        Queue::Lock(number) => format!("L{number}"),
        Queue::Condition(number) => format!("C{number}"),
    }
}

/// What a lane says at each line; a dash says what the cell before it says.
fn cells(lane: &str, width: usize) -> Vec<String> {
    let mut cells: Vec<String> = Vec::new();
    for cell in lane.as_bytes().chunks(width) {
        let cell = String::from_utf8_lossy(cell);
        let goes_on = cell.starts_with(['-', '~', '_']);
        let said = match cells.last() {
            Some(before) if goes_on => before.clone(),
            _ if cell.starts_with(['=', '.']) => cell[..1].to_string(),
            _ => cell.trim_end_matches(['-', '~', '_']).to_string(),
        };
        cells.push(said);
    }
    cells
}

/// The column of each word of a heading, from the first lane's column on.
fn columns(heading: &str) -> Vec<usize> {
    let bytes = heading.as_bytes();
    let begins = |&at: &usize| bytes[at] != b' ' && bytes[at - 1] == b' ';
    (LANE_AT..bytes.len()).filter(begins).collect()
}

/// Each block of lanes: a heading with the lines' numbers, a row of marks, who runs, the lanes.
fn compare_lanes(tally: &mut Tally, text: &str, steps: &[Step]) -> Outcome {
    let mut next = steps.iter().position(|step| step.state.is_some());
    for block in text.split("\n\n").skip(1) {
        let rows: Vec<&str> = block.lines().collect();
        let columns = columns(rows[0]);
        let width = columns.get(1).map_or(usize::MAX, |at| at - LANE_AT);
        let from = next.ok_or("more lanes than lines")?;
        let shown = &steps[from..from + columns.len()];
        let numbers: Vec<usize> = (from + 1..=from + shown.len()).collect();
        let heading = rows[0].split_whitespace().skip(1).map(str::parse);
        let heading: Vec<usize> = heading.filter_map(Result::ok).collect();
        tally.same(&heading, &numbers, || "the lines' numbers".to_string())?;
        for (&at, step) in columns.iter().zip(shown) {
            let found = rows[1].get(at..=at).unwrap_or(" ");
            let expected = match step.call {
                None => "?",
                Some(_) if step.accepted() => " ",
                Some(_) => "x",
            };
            tally.same(found, expected, || format!("the mark of line {}", from + 1))?;
        }
        let processes = shown[0]
            .state
            .as_ref()
            .map_or(0, |state| state.shape.processes);
        tally.same(&(rows.len() - 3), &usize::from(processes), || {
            "lanes".to_string()
        })?;
        for (process, row) in (1..).zip(&rows[3..]) {
            let found = cells(&row[LANE_AT..], width.min(row.len()));
            let states = shown.iter().filter_map(|step| step.state.as_ref());
            let expected: Vec<String> = states.map(|state| mark(state, process)).collect();
            tally.same(&found, &expected, || {
                format!("lane {process} from {}", from + 1)
            })?;
        }
        next = Some(from + shown.len()).filter(|&next| next < steps.len());
    }
    tally.same(&next, &None, || "lines without lanes".to_string())
}
