//! The program `reason` of request [5]: why the current timeslice runs after an event, and why those above it do not. The plain machine
//! of `plain.rs` runs the events: it has no places, and Spent is "nothing left". Walking and sorting are done here, another way.
//!
//! An input is an event number in 4 bytes, big-endian, and an event file behind it.
//! `reason` reads an input from standard input and prints the answer.
//! `reason -o FOLDER INPUT...` writes the answer for each input to FOLDER, under the input's own name.
//! `reason -n SEED FOLDER FILE...` makes inputs: each event file with several numbers before it, as NAME+NUMBER in FOLDER.
//! `reason -c INPUTS ANSWERS`: two folders. Counts in how many inputs each of `CASES` occurs. What never occurs gets a sentence;
//! then the exit status is 1.

#[allow(dead_code)]
#[path = "plain.rs"]
mod plain;

use plain::{Event, Hold, Plain};
use std::cmp::Reverse;
use std::collections::BTreeSet;
use std::fmt::Write as _;
use std::io::{Read, Write};
use std::path::Path;

/// The event number and the events; or the refusal of the input.
fn asked(input: &[u8]) -> Result<(usize, Vec<Event>), u8> {
    if input.len() < 4 {
        return Err(14);
    }
    let (number, file) = input.split_at(4);
    let number = number.iter().fold(0, |all, byte| all * 256 + *byte as usize);
    let events = plain::read(file)?;
    if number < 1 || number > events.len() {
        return Err(19);
    }
    Ok((number, events))
}

/// The machine after that event, and whether the event itself was refused.
fn after(number: usize, events: &[Event]) -> (Plain, bool) {
    let mut m = Plain::empty();
    let mut refusal = 0;
    for event in &events[..number] {
        refusal = m.step(event);
    }
    (m, refusal != 0)
}

/// The threads of a timeslice's chain, the end last. None is a loop: a thread that comes again comes for ever. (A walk of L links
/// meets L + 1 threads, and one of them twice.)
fn chain(m: &Plain, timeslice: u8) -> Option<Vec<u8>> {
    let mut threads = Vec::new();
    let mut here = m.timeslices[&timeslice].owner;
    loop {
        if threads.contains(&here) {
            return None;
        }
        threads.push(here);
        match m.threads[&here].hold {
            Hold::Calling(next) | Hold::Helping(next) => here = next,
            _ => return Some(threads),
        }
    }
}

fn lets_run(m: &Plain, threads: &[u8]) -> bool {
    match m.threads[threads.last().unwrap()].hold {
        Hold::Ready => true,
        Hold::Idle => threads.len() > 1,
        _ => false,
    }
}

/// The timeslices above the current one, or all where nothing runs; topmost first. The sort leaves equals in turn order.
fn above(m: &Plain) -> Vec<u8> {
    let mut all = m.turn_order.clone();
    all.sort_by_key(|t| Reverse(m.timeslices[t].priority));
    let current = m.runs.map(|runs| runs.timeslice);
    all.into_iter().take_while(|t| Some(*t) != current).collect()
}

fn spent(m: &Plain, timeslice: u8) -> bool {
    m.timeslices[&timeslice].left == 0
}

fn answer(input: &[u8]) -> String {
    let (number, events) = match asked(input) {
        Ok(asked) => asked,
        Err(refusal) => return format!("file {refusal}\n"),
    };
    let (m, _) = after(number, &events);
    let mut text = match m.runs {
        None => "-".to_string(),
        Some(runs) => {
            let threads = chain(&m, runs.timeslice).expect("the current timeslice has a chain that ends");
            assert_eq!(threads.last(), Some(&runs.thread), "the current chain ends at the running thread");
            threads.iter().map(u8::to_string).collect::<Vec<_>>().join(" ")
        }
    };
    text.push('\n');
    for t in above(&m) {
        match chain(&m, t) {
            _ if spent(&m, t) => writeln!(text, "{t} spent"),
            None => writeln!(text, "{t} loop"),
            Some(threads) => {
                assert!(!lets_run(&m, &threads), "a timeslice above the current one cannot run");
                writeln!(text, "{t} thread {}", threads.last().unwrap())
            }
        }
        .unwrap();
    }
    text
}

/// splitmix64
struct Random(u64);

impl Random {
    fn next(&mut self) -> u64 {
        self.0 = self.0.wrapping_add(0x9E37_79B9_7F4A_7C15);
        let mut z = self.0;
        z = (z ^ (z >> 30)).wrapping_mul(0xBF58_476D_1CE4_E5B9);
        z = (z ^ (z >> 27)).wrapping_mul(0x94D0_49BB_1331_11EB);
        z ^ (z >> 31)
    }

    /// a to b
    fn range(&mut self, a: u32, b: u32) -> u32 {
        a + ((self.next() >> 11) % (b - a + 1) as u64) as u32
    }
}

/// The numbers of the events after which a Spent timeslice is listed that could not run anyway. They are rare.
fn rare(events: &[Event]) -> Vec<u32> {
    let mut m = Plain::empty();
    let mut rare = Vec::new();
    for (number, event) in (1..).zip(events) {
        m.step(event);
        if above(&m).into_iter().any(|t| spent(&m, t) && !chain(&m, t).is_some_and(|threads| lets_run(&m, &threads))) {
            rare.push(number);
        }
    }
    rare
}

/// The numbers to put before a file: both ends and the first beyond them, some in between and one far away. A refused file has no
/// events, and few will do.
fn numbers(file: &[u8], random: &mut Random) -> BTreeSet<u32> {
    let Ok(events) = plain::read(file) else { return [0, 1, random.next() as u32].into() };
    let last = events.len() as u32;
    let mut numbers: BTreeSet<u32> = [0, 1, last, last + 1].into();
    if last > 0 {
        for _ in 0..4 {
            numbers.insert(random.range(1, last));
        }
        let rare = rare(&events);
        if !rare.is_empty() {
            numbers.insert(rare[random.range(0, rare.len() as u32 - 1) as usize]);
        }
        let event = random.range(1, last);
        numbers.insert(match random.range(0, 3) {
            0 => u32::MAX,
            // An event to a program that reads only the low two bytes, or the bytes the other way round.
            1 => random.range(1, 65_535) << 16 | event,
            2 => event.swap_bytes(),
            _ => random.range(last + 1, u32::MAX - 1),
        });
    }
    numbers
}

/// What must occur, by an input and its answer.
const CASES: [&str; 33] = [
    "an input of fewer than 4 bytes gives 14",
    "a number without a file gives 14",
    "a file gives 14",
    "a file gives 15",
    "a file gives 16",
    "a refused file's own number goes before that of event 0",
    "number 0 gives 19",
    "the first number past the last event gives 19",
    "number 4,294,967,295 gives 19",
    "a number whose low two bytes are an event's gives 19",
    "the number of an event, its bytes the other way round, gives 19",
    "a file without events gives 19",
    "the event asked for is refused",
    "the event asked for has a number above 255",
    "a chain has one thread",
    "a chain has three threads or more",
    "a chain has a helping link",
    "a chain of 128 threads stands above 127 lines",
    "nothing runs and there are timeslices",
    "nothing runs and there is no timeslice",
    "two timeslices or more are listed",
    "128 timeslices are listed",
    "a timeslice waits for a thread after a link",
    "a timeslice waits for its own owner, Blocked",
    "a timeslice waits for its own owner, Idle",
    "a timeslice's chain is a loop",
    "a Spent timeslice's chain is a loop",
    "a Spent timeslice's chain would let it run",
    "a Spent timeslice's chain would not let it run, and is no loop",
    "an equal of the current timeslice stands above it",
    "an equal of the current timeslice stands below it",
    "of two equals the one with the larger number is listed first",
    "a Spent timeslice stands below the current one and is not listed",
];

/// Which of `CASES` occur.
fn occur(input: &[u8], answer: &str) -> [bool; CASES.len()] {
    let lines: Vec<Vec<&str>> = answer.lines().map(|line| line.split(' ').collect()).collect();
    let refused = |number: &str| lines[0] == ["file", number];
    let number = if input.len() < 4 { None } else { Some(u32::from_be_bytes(input[..4].try_into().unwrap())) };
    let events = plain::read(input.get(4..).unwrap_or(&[])).unwrap_or_default();
    let event = |n: u32| n >= 1 && n as usize <= events.len();
    let past = |holds: &dyn Fn(u32) -> bool| refused("19") && number.is_some_and(holds);

    let accepted = lines[0][0] != "file";
    let (m, no) = if accepted { after(number.unwrap() as usize, &events) } else { (Plain::empty(), false) };
    let (threads, listed) = if accepted { (&lines[0][..], &lines[1..]) } else { (&[][..], &[][..]) };
    let runs = accepted && threads != ["-"];
    let priority = |t: u8| m.timeslices[&t].priority;
    let timeslices: Vec<u8> = listed.iter().map(|line| line[0].parse().unwrap()).collect();
    let unlisted = m.runs.map_or(vec![], |runs| {
        m.turn_order.iter().copied().filter(|t| *t != runs.timeslice && !timeslices.contains(t)).collect()
    });
    let equal = |all: &[u8]| m.runs.is_some_and(|runs| all.iter().any(|t| priority(*t) == priority(runs.timeslice)));
    // Of the lines `thread N`: what N is to the timeslice.
    let waits = |holds: &dyn Fn(u8, u8) -> bool| {
        timeslices.iter().zip(listed).any(|(t, line)| line[1] == "thread" && holds(m.timeslices[t].owner, line[2].parse().unwrap()))
    };
    let own = |hold: Hold| waits(&|owner, end| owner == end && m.threads[&end].hold == hold);
    // Of the lines `spent`: the chain.
    let besides = |holds: &dyn Fn(Option<Vec<u8>>) -> bool| {
        timeslices.iter().zip(listed).any(|(t, line)| line[1] == "spent" && holds(chain(&m, *t)))
    };
    [
        number.is_none() && refused("14"),
        input.len() == 4 && refused("14"),
        input.len() > 4 && refused("14"),
        refused("15"),
        refused("16"),
        number == Some(0) && input.len() > 4 && (refused("14") || refused("15") || refused("16")),
        past(&|n| n == 0 && !events.is_empty()),
        past(&|n| n > 1 && event(n - 1)),
        past(&|n| n == u32::MAX),
        past(&|n| event(n & 0xFFFF)),
        past(&|n| event(n.swap_bytes())),
        past(&|n| n > 0 && events.is_empty()),
        no,
        accepted && number > Some(255),
        runs && threads.len() == 1,
        threads.len() >= 3,
        runs && threads.iter().any(|t| matches!(m.threads[&t.parse().unwrap()].hold, Hold::Helping(_))),
        threads.len() == 128 && listed.len() == 127,
        accepted && !runs && !listed.is_empty(),
        accepted && !runs && listed.is_empty(),
        listed.len() >= 2,
        listed.len() == 128,
        waits(&|owner, end| owner != end),
        own(Hold::Blocked),
        own(Hold::Idle),
        listed.iter().any(|line| line[1] == "loop"),
        besides(&|chain| chain.is_none()),
        besides(&|chain| chain.is_some_and(|threads| lets_run(&m, &threads))),
        besides(&|chain| chain.is_some_and(|threads| !lets_run(&m, &threads))),
        equal(&timeslices),
        equal(&unlisted),
        timeslices.windows(2).any(|two| two[0] > two[1] && priority(two[0]) == priority(two[1])),
        unlisted.iter().any(|t| spent(&m, *t)),
    ]
}

/// Fails where one of the cases never occurs.
fn count(inputs: &Path, answers: &Path) -> std::io::Result<bool> {
    let (mut times, mut all, mut accepted, mut listed) = ([0; CASES.len()], 0, 0, 0);
    for entry in std::fs::read_dir(inputs)? {
        let path = entry?.path();
        let answer = std::fs::read_to_string(answers.join(path.file_name().unwrap()))?;
        for (times, occurs) in times.iter_mut().zip(occur(&std::fs::read(&path)?, &answer)) {
            *times += occurs as usize;
        }
        all += 1;
        if !answer.starts_with("file") {
            accepted += 1;
            listed += answer.lines().count() - 1;
        }
    }
    for (case, _) in CASES.iter().zip(times).filter(|(_, times)| *times == 0) {
        println!("it never occurs that {case}");
    }
    let occur = times.iter().filter(|times| **times > 0).count();
    println!("{occur} of {} cases occur; of {all} inputs {accepted} are accepted, and {listed} timeslices are listed", CASES.len());
    Ok(occur == CASES.len())
}

fn main() -> std::io::Result<()> {
    let arguments: Vec<String> = std::env::args().collect();
    let words: Vec<&str> = arguments[1..].iter().map(String::as_str).collect();
    match words[..] {
        ["-o", folder, ref inputs @ ..] => {
            for input in inputs.iter().map(Path::new) {
                std::fs::write(Path::new(folder).join(input.file_name().unwrap()), answer(&std::fs::read(input)?))?;
            }
        }
        ["-n", seed, folder, ref files @ ..] => {
            let seed: u64 = seed.parse().expect("a seed");
            for path in files.iter().map(Path::new) {
                let (file, name) = (std::fs::read(path)?, path.file_name().unwrap().to_str().unwrap());
                let mut random = Random(name.bytes().fold(seed, |all, byte| all.wrapping_mul(257).wrapping_add(byte as u64)));
                for number in numbers(&file, &mut random) {
                    let input = [&number.to_be_bytes()[..], &file].concat();
                    std::fs::write(Path::new(folder).join(format!("{name}+{number}")), input)?;
                }
            }
        }
        ["-c", inputs, answers] => {
            if !count(Path::new(inputs), Path::new(answers))? {
                std::process::exit(1);
            }
        }
        _ => {
            let mut input = Vec::new();
            std::io::stdin().read_to_end(&mut input)?;
            std::io::stdout().write_all(answer(&input).as_bytes())?;
        }
    }
    Ok(())
}
