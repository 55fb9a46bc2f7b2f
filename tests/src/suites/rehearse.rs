//! The program Rehearse as a process: scripts of right, wrong and spoiled lines, each answer's
//! line against the reference; the same input in any pieces; a read that fails.

use super::{Outcome, Tally};
use crate::call::Call;
use crate::history;
use crate::random::Random;
use crate::reference::{self, Shape};
use crate::sample;
use std::io::{BufRead, BufReader, Read, Result as Done, Write};
use std::os::fd::OwnedFd;
use std::os::unix::net::UnixDatagram;
use std::process::{Child, Command, Stdio};
use std::thread;

const PROGRAM: &str = concat!(env!("CARGO_MANIFEST_DIR"), "/../target/bin/rehearse");
const AREA_WORDS: usize = 8_192;
const LONGEST_LINE: usize = 8_192;
const LONGEST_READ: usize = 8_192;
const SHAPE: Shape = Shape {
    processes: 3,
    locks: 1,
    conditions: 1,
    parks: 0,
};

pub fn run(tally: &mut Tally, random: &mut Random) -> Outcome {
    compare(tally, b"")?;
    compare(tally, b"\n")?;
    compare(tally, include_bytes!("../../../crates/rehearse/stdin"))?;
    compare(tally, &long_lines())?;
    clock_end(tally)?;
    wrong_alarms(tally)?;
    for _ in 0..60 {
        let script = script(random, 2_000);
        compare(tally, &script)?;
        compare(tally, &script[..script.len() - 1])?;
    }
    line_by_line(tally, random)?;
    any_pieces(tally, random)?;
    failed_read(tally)
}

/// The line of a call, without its newline.
fn line_of(call: &Call) -> Vec<u8> {
    let numbers: Vec<u16> = match call {
        Call::Start {
            processes,
            locks,
            conditions,
            parks,
            priorities,
        } => {
            let counts = [*processes, *locks, *conditions, *parks];
            let bytes = priorities.iter().map(|&byte| u16::from(byte));
            counts.into_iter().chain(bytes).collect()
        }
        Call::Enter(number)
        | Call::Exit(number)
        | Call::Notify(number)
        | Call::Broadcast(number)
        | Call::Naked(number)
        | Call::SetPriority(number)
        | Call::Abort(number) => vec![*number],
        Call::Wait {
            lock,
            condition,
            ticks,
        } => vec![*lock, *condition, *ticks],
        Call::Requeue {
            source,
            destination,
            process,
        } => vec![*source, *destination, *process],
        Call::SetAbortable { condition, value } => vec![*condition, *value],
        Call::Reenter { lock, condition } => vec![*lock, *condition],
        Call::Tick => vec![],
    };
    let words = numbers.iter().map(|number| format!(" {number}"));
    (call.name().to_string() + &words.collect::<String>()).into_bytes()
}

/// The number that a word is.
fn number_of(word: &[u8]) -> Option<u16> {
    let digits = word.iter().all(u8::is_ascii_digit);
    let text = std::str::from_utf8(word).ok().filter(|_| digits)?;
    text.parse().ok()
}

/// The call that a line is.
pub fn call_of(line: &[u8]) -> Option<Call> {
    if line.len() > LONGEST_LINE {
        return None;
    }
    let mut words = line.split(|&byte| byte == b' ');
    let name = words.next()?;
    let numbers: Vec<u16> = words.map(number_of).collect::<Option<_>>()?;
    match (name, &numbers[..]) {
        (b"start", &[processes, locks, conditions, parks, ref bytes @ ..]) => {
            let bytes = bytes.iter().map(|&number| u8::try_from(number).ok());
            Some(Call::Start {
                processes,
                locks,
                conditions,
                parks,
                priorities: bytes.collect::<Option<_>>()?,
            })
        }
        (b"enter", &[lock]) => Some(Call::Enter(lock)),
        (b"exit", &[lock]) => Some(Call::Exit(lock)),
        (b"wait", &[lock, condition, ticks]) => Some(Call::Wait {
            lock,
            condition,
            ticks,
        }),
        (b"notify", &[condition]) => Some(Call::Notify(condition)),
        (b"broadcast", &[condition]) => Some(Call::Broadcast(condition)),
        (b"naked", &[condition]) => Some(Call::Naked(condition)),
        (b"requeue", &[source, destination, process]) => Some(Call::Requeue {
            source,
            destination,
            process,
        }),
        (b"setpriority", &[priority]) => Some(Call::SetPriority(priority)),
        (b"tick", &[]) => Some(Call::Tick),
        (b"abort", &[process]) => Some(Call::Abort(process)),
        (b"setabortable", &[condition, value]) => Some(Call::set_abortable(condition, value)),
        (b"reenter", &[lock, condition]) => Some(Call::reenter(lock, condition)),
        _ => None,
    }
}

/// The line of an answer's fields.
pub fn printed(fields: [u16; 6]) -> String {
    fields.map(|number| number.to_string()).join(" ") + "\n"
}

/// The line that answers a line.
fn answer_to(area: &mut [u16], line: &[u8]) -> String {
    call_of(line).map_or("?\n".to_string(), |call| {
        printed(reference::perform(area, &call).fields())
    })
}

/// A line with one place spoiled.
fn spoil(random: &mut Random, line: &mut Vec<u8>) {
    let place = random.below(line.len() + 1);
    let byte = random.pick(b" 0159abeE-+\t\r\0\xff");
    match random.below(4) {
        0 => line.insert(place, byte),
        1 => line.truncate(place),
        2 => line.splice(place..place, *b"0000").for_each(drop),
        _ => line
            .splice(place..line.len().min(place + 1), [byte])
            .for_each(drop),
    }
}

/// Lines with a Start now and then, one in five of them spoiled.
pub fn script(random: &mut Random, lines: usize) -> Vec<u8> {
    let mut script = Vec::new();
    let mut shape = sample::small_shape(random);
    for number in 0..lines {
        let call = if number % 500 == 10 {
            shape = sample::small_shape(random);
            history::start(random, shape)
        } else {
            history::any_call(random, &shape, 8)
        };
        let mut line = line_of(&call);
        if random.chance(20) {
            spoil(random, &mut line);
        }
        script.append(&mut line);
        script.push(b'\n');
    }
    script
}

/// The program, with its input from here.
fn rehearse(input: impl Into<Stdio>) -> Result<Child, String> {
    let mut command = Command::new(PROGRAM);
    command.stdin(input).stdout(Stdio::piped());
    let child = command.stderr(Stdio::piped()).spawn();
    child.map_err(|why| format!("{PROGRAM}: {why}"))
}

/// The reference's answers to a whole script.
fn answers_to(script: &[u8]) -> Vec<String> {
    let mut area = vec![0; AREA_WORDS];
    let whole = script.strip_suffix(b"\n").unwrap_or(script);
    let lines = whole.split(|&byte| byte == b'\n');
    let count = if script.is_empty() { 0 } else { usize::MAX };
    let answers = lines.take(count).map(|line| answer_to(&mut area, line));
    answers.collect()
}

/// A whole script, with the reference's answers.
fn compare(tally: &mut Tally, script: &[u8]) -> Outcome {
    play(tally, script, &answers_to(script))
}

/// A whole script from a pipe, each answer's line.
pub fn play(tally: &mut Tally, script: &[u8], expected: &[String]) -> Outcome {
    let mut child = rehearse(Stdio::piped())?;
    let mut input = child.stdin.take().expect("a pipe");
    let script = script.to_vec();
    hear(tally, child, move || input.write_all(&script), expected)
}

/// What the program answers while it is fed, line by line, to its end.
fn hear(
    tally: &mut Tally,
    mut child: Child,
    feed: impl FnOnce() -> Done<()> + Send + 'static,
    expected: &[String],
) -> Outcome {
    let writer = thread::spawn(feed);
    let mut output = String::new();
    let mut pipe = child.stdout.take().expect("a pipe");
    let read = pipe.read_to_string(&mut output);
    let written = writer.join().expect("no panic");
    let ended = child.wait().map_err(|why| why.to_string())?;
    tally.holds(read.is_ok() && written.is_ok() && ended.success(), || {
        "Rehearse reads all and ends".to_string()
    })?;
    let found: Vec<&str> = output.split_inclusive('\n').collect();
    for (number, (found, expected)) in found.iter().zip(expected).enumerate() {
        tally.same(*found, expected, || format!("answer {number}"))?;
    }
    tally.same(&found.len(), &expected.len(), || "answers".to_string())
}

/// Lines around the longest that is read, and far beyond it.
fn long_lines() -> Vec<u8> {
    let mut script = line_of(&history::start(&mut Random::new(1), SHAPE));
    script.push(b'\n');
    for length in [LONGEST_LINE - 1, LONGEST_LINE, LONGEST_LINE + 1, 100_000] {
        let zeros = length - "enter 1".len();
        script.extend_from_slice(b"enter ");
        script.extend(std::iter::repeat_n(b'0', zeros));
        script.extend_from_slice(b"1\nexit 1\n");
    }
    script
}

/// All Ticks that lead to the clock's end, and there a wait of one tick and one without ticks.
fn clock_end(tally: &mut Tally) -> Outcome {
    let ticks = "tick\n".repeat(65_535);
    let waits = "enter 1\nwait 1 1 1\nenter 1\nwait 1 1 0\ntick\ntick\n";
    compare(
        tally,
        format!("start 3 1 1 0 2 5 2\n{ticks}{waits}").as_bytes(),
    )
}

/// Lines that are nearly Abort, SetAbortable or Reenter: each prints ? and changes nothing, as the
/// right line after each shows, which is refused or changes nothing itself.
fn wrong_alarms(tally: &mut Tally) -> Outcome {
    let wrong = [
        "abort",
        "abort ",
        "abort 1 2",
        "abort  1",
        "abort -1",
        "abort 65536",
        "Abort 1",
        "aborts 1",
        "abor 1",
        "setabortable",
        "setabortable 1",
        "setabortable 1 1 1",
        "setabortable 1 65536",
        "setabortable 1 x",
        "set_abortable 1 1",
        "setAbortable 1 1",
        "setabort 1 1",
        "reenter",
        "reenter 1",
        "reenter 1 1 1",
        "reenter 1 1 ",
        "re-enter 1 1",
        "reentry 1 1",
        "reente 1 1",
    ];
    let right = [
        ("abort 0", "7 0 0 0 0 0\n"),
        ("abort 4", "7 0 0 0 0 0\n"),
        ("setabortable 1 2", "7 0 0 0 0 0\n"),
        ("setabortable 2 1", "7 0 0 0 0 0\n"),
        ("setabortable 01 000", "0 2 0 0 0 0\n"),
        ("reenter 1 2", "7 0 0 0 0 0\n"),
        ("reenter 1 1", "8 0 0 0 0 0\n"),
    ];
    let mut script = "start 3 1 1 0 2 5 2\nenter 1\n".to_string();
    let mut answers = vec!["0 2 0 0 0 0\n".to_string(), "0 2 0 1 0 0\n".to_string()];
    for (number, line) in wrong.into_iter().enumerate() {
        let (then, answer) = right[number % right.len()];
        script += &format!("{line}\n{then}\n");
        answers.extend(["?\n".to_string(), answer.to_string()]);
    }
    play(tally, script.as_bytes(), &answers)?;
    compare(tally, script.as_bytes())
}

/// Each answer comes before the next line is written, as at a terminal.
fn line_by_line(tally: &mut Tally, random: &mut Random) -> Outcome {
    let mut area = vec![0; AREA_WORDS];
    let mut child = rehearse(Stdio::piped())?;
    let mut input = child.stdin.take().expect("a pipe");
    let mut output = BufReader::new(child.stdout.take().expect("a pipe"));
    let script = script(random, 1_000);
    for line in script.split_inclusive(|&byte| byte == b'\n') {
        let mut found = String::new();
        let done = input
            .write_all(line)
            .and_then(|()| output.read_line(&mut found));
        tally.holds(done.is_ok(), || "Rehearse answers".to_string())?;
        let expected = answer_to(&mut area, &line[..line.len() - 1]);
        tally.same(&found, &expected, || format!("{line:?}"))?;
    }
    drop(input);
    let ended = child.wait().map_err(|why| why.to_string())?;
    tally.holds(ended.success(), || "Rehearse ends".to_string())
}

/// Pieces of at most so many bytes that make the script.
fn cut(random: &mut Random, script: &[u8], longest: usize) -> Vec<Vec<u8>> {
    let mut pieces = Vec::new();
    let mut rest = script;
    while !rest.is_empty() {
        let (piece, behind) = rest.split_at(rest.len().min(1 + random.below(longest)));
        pieces.push(piece.to_vec());
        rest = behind;
    }
    pieces
}

/// Sends each piece as a datagram, which is what one read brings; an empty one is the end of the
/// input.
fn send(socket: &UnixDatagram, pieces: &[Vec<u8>]) -> Done<()> {
    let mut pieces = pieces.iter();
    pieces.try_for_each(|piece| socket.send(piece).map(drop))
}

/// The same answers whatever the pieces.
fn any_pieces(tally: &mut Tally, random: &mut Random) -> Outcome {
    let mut scripts = vec![vec![], b"\n".to_vec(), b"tick".to_vec(), long_lines()];
    scripts.extend((0..8).map(|_| script(random, 300)));
    for mut script in scripts {
        for longest in [1, 3, 20, 500, LONGEST_READ] {
            let mut pieces = cut(random, &script, longest);
            pieces.push(vec![]);
            let (ours, theirs) = UnixDatagram::pair().map_err(|why| why.to_string())?;
            let child = rehearse(OwnedFd::from(theirs))?;
            let feed = move || send(&ours, &pieces);
            hear(tally, child, feed, &answers_to(&script))?;
            // the last line loses its newline, and then its bytes
            script.pop();
        }
    }
    Ok(())
}

/// A read that fails is no end of the input: the lines before it are answered, the open one is
/// not, and standard error says why there is no more.
fn failed_read(tally: &mut Tally) -> Outcome {
    let pieces = ["start 3 1 1 0 2 5 2\nent", "er 1\nexit 1"];
    let (ours, theirs) = UnixDatagram::pair().map_err(|why| why.to_string())?;
    let sent = send(&ours, &pieces.map(|piece| piece.into()));
    let ready = sent.and_then(|()| theirs.set_nonblocking(true));
    ready.map_err(|why| why.to_string())?;
    let child = rehearse(OwnedFd::from(theirs))?;
    let ended = child.wait_with_output().map_err(|why| why.to_string())?;
    let answered = b"0 2 0 0 0 0\n0 2 0 1 0 0\n";
    let told = b"rehearse: standard input cannot be read\n";
    tally.same(&ended.stdout[..], answered, || {
        "answers before a read that fails".to_string()
    })?;
    tally.same(&ended.stderr[..], told, || {
        "what is told of a read that fails".to_string()
    })
}
