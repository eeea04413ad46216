//! `count FILES KEYS`: two folders, of event files and of their keys under the same names. Counts how often each
//! kind of event has each answer that document 01 and requests [2], [3] and [4] allow it, what the refills, removes and ranks
//! did, and how often a freed number is used again. What never occurs gets a sentence; then the exit status is 1.
//!
//! A key has no places and no links: what a remove finds and a rank does is asked of the machine of `key.rs`, which runs along.

#[allow(dead_code)]
#[path = "key.rs"]
mod key;

use key::{Hold, Machine, Place, Thread, BEHIND, NONE, ON, QUEUE, SPENT, STALLED};
use std::ops::Range;
use std::path::Path;

/// By kind byte: its name and its answers, 0 and then the refusals in their order. No event has kind 0: there a file is refused.
const ANSWERS: [(&str, &[u8]); 12] = [
    ("a file", &[14, 15, 16]),
    ("a create", &[0, 2, 3]),
    ("a give", &[0, 2, 3, 4, 13, 12]),
    ("a call", &[0, 5, 2, 4, 6, 7]),
    ("a reply", &[0, 5, 8]),
    ("a block", &[0, 5]),
    ("a wake", &[0, 2, 4, 9]),
    ("a charge", &[0, 5, 11]),
    ("an abort", &[0, 2, 4, 10]),
    ("a refill", &[0, 2, 4, 18]),
    ("a remove", &[0, 2, 4]),
    ("a rank", &[0, 2, 4]),
];

/// What an accepted refill, remove or rank does, by what ran before it and after it.
const RUNS: [&str; 4] = ["changes what runs", "leaves the same running", "starts where nothing ran", "leaves nothing running"];

/// What an accepted remove does, by the machine before it.
const REMOVES: [&str; 20] = [
    "takes the running thread",
    "takes the current timeslice from another thread that runs",
    "takes a thread without a timeslice",
    "strikes out a timeslice in Queue",
    "strikes out a timeslice with several followers",
    "strikes out a timeslice Behind another",
    "strikes out a timeslice On a thread",
    "strikes out a Stalled timeslice",
    "strikes out a Spent timeslice",
    "breaks a loop",
    "takes a thread that leads into a loop",
    "takes a thread in a loop or before it, with another timeslice Stalled",
    "takes a Blocked thread",
    "takes a Blocked thread with several others' timeslices On it",
    "takes a thread before a Blocked one",
    "takes a thread before a Blocked one with several others' timeslices On that",
    "makes a caller Ready",
    "makes a helper Ready",
    "makes a server Ready that serves",
    "makes a service Orphan",
];

/// Which of `REMOVES` hold of a live thread.
fn removes(m: &Machine, n: u8) -> [bool; REMOVES.len()] {
    let (own, place) = m.owned(n).unwrap_or((NONE, Place::MAX));
    // In one place, without its own.
    let others = |place: Place| m.placed(place..place + 1).into_iter().filter(|s| *s != own).count();
    let followers = if own == NONE { 0 } else { others(BEHIND + own as Place) };
    let hold = m.threads[n as usize].hold;
    let w = m.walk(n as usize);
    let looped = w.links == m.live;
    let blocked = !looped && m.threads[w.end].hold == Hold::Blocked;
    let waiting = others(ON + w.end as Place);
    let mut at = n;
    let inside = looped && (0..m.live).any(|_| {
        at = m.threads[at as usize].to;
        at == n
    });
    let linked: Vec<&Thread> = m.threads.iter().filter(|t| t.hold >= Hold::Calling && t.to == n).collect();
    [
        n == m.running,
        own == m.current && own != NONE && n != m.running,
        own == NONE,
        place == QUEUE,
        followers > 1,
        (BEHIND..Place::MAX).contains(&place),
        (ON..BEHIND).contains(&place),
        place == STALLED,
        place == SPENT,
        inside,
        looped && !inside,
        looped && others(STALLED) > 0,
        hold == Hold::Blocked,
        hold == Hold::Blocked && waiting > 1,
        blocked && w.links > 0,
        blocked && w.links > 0 && waiting > 1,
        linked.iter().any(|t| t.hold == Hold::Calling),
        linked.iter().any(|t| t.hold == Hold::Helping),
        linked.iter().any(|t| t.service != NONE),
        hold == Hold::Calling,
    ]
}

/// What an accepted rank does, by the machine before it and the machine after it.
const RANKS: [&str; 26] = [
    "finds a timeslice in Queue without followers",
    "finds a timeslice in Queue with one follower",
    "finds a timeslice in Queue with several followers",
    "finds a timeslice On a thread",
    "finds a Stalled timeslice",
    "finds a Spent timeslice",
    "lowers a timeslice Behind another",
    "raises a timeslice Behind another, not above that one",
    "raises a timeslice above the one that it was Behind",
    "leaves a timeslice Behind another its priority",
    "gives priority 0",
    "gives priority 255",
    "leaves its timeslice current",
    "leaves its timeslice current with a lower priority",
    "leaves its timeslice current with the same priority",
    "takes the processor from its timeslice",
    "takes the processor from its timeslice with the same priority",
    "gives the processor to a follower",
    "makes its timeslice current",
    "lets an equal one above its timeslice stay current",
    "puts a timeslice On a thread after a link",
    "puts a timeslice On its owner",
    "puts a timeslice with the Stalled",
    "puts its own timeslice aside",
    "makes a retry",
    "makes a retry that releases the server's own timeslice",
];

/// The timeslices that are in one of the places after an event and were not before it.
fn joined(before: &Machine, after: &Machine, places: Range<Place>) -> Vec<u8> {
    let there = before.placed(places.clone());
    after.placed(places).into_iter().filter(|s| !there.contains(s)).collect()
}

/// Which of `RANKS` hold of a live timeslice and its new priority.
fn ranks(m: &Machine, after: &Machine, n: u8, new: u8) -> [bool; RANKS.len()] {
    let (old, place) = m.rated(n).unwrap();
    let followers = m.placed(BEHIND + n as Place..BEHIND + n as Place + 1);
    let leader = if place < BEHIND { None } else { m.rated((place - BEHIND) as u8) };
    let (was, is) = (m.current == n, after.current == n);
    let equal = m.rated(m.current).is_some_and(|(priority, _)| priority == new);
    let (on, stalled) = (joined(m, after, ON..BEHIND), joined(m, after, STALLED..STALLED + 1));
    let owner = |s: &u8| (0..128).any(|t| after.owned(t) == Some((*s, ON + t as Place)));
    let retry = (0..128).any(|t| m.threads[t].hold == Hold::Helping && after.threads[t].hold == Hold::Calling);
    [
        place == QUEUE && followers.is_empty(),
        place == QUEUE && followers.len() == 1,
        place == QUEUE && followers.len() > 1,
        (ON..BEHIND).contains(&place),
        place == STALLED,
        place == SPENT,
        leader.is_some() && new < old,
        leader.is_some_and(|(above, _)| new > old && new <= above),
        leader.is_some_and(|(above, _)| new > above),
        leader.is_some() && new == old,
        new == 0,
        new == 255,
        was && is,
        was && is && new < old,
        was && is && new == old,
        was && !is,
        was && !is && new == old,
        followers.contains(&after.current),
        !was && is,
        equal && !was && after.current == m.current && (place == QUEUE || leader.is_some()),
        !on.iter().all(owner),
        on.iter().any(owner),
        !stalled.is_empty(),
        on.contains(&n) || stalled.contains(&n),
        retry,
        retry && !joined(after, m, ON..BEHIND).is_empty(),
    ]
}

struct Counts {
    answers: [[usize; 256]; 12],
    /// Of refills, of removes and of ranks.
    runs: [[usize; 4]; 3],
    removes: [usize; REMOVES.len()],
    ranks: [usize; RANKS.len()],
    /// Timeslices that were ranked On a thread, Stalled or Spent and came back.
    back: [usize; 3],
    /// Thread numbers created again, timeslice numbers given again.
    again: [usize; 2],
}

impl Counts {
    /// The file has a record for each line, unless the key is a refused file's.
    fn add(&mut self, file: &[u8], key: &str) {
        let (mut rest, mut ran) = (file.get(5..).unwrap_or(&[]), ["-", "-", "0"]);
        let (mut m, mut freed) = (Machine::new(), [[false; 128]; 2]);
        // By timeslice: which of the three places it was ranked in, until it comes back.
        let mut away = [None; 128];
        for line in key.lines() {
            let words: Vec<&str> = line.split(' ').collect();
            if words[0] == "file" {
                self.answers[0][words[1].parse::<usize>().unwrap()] += 1;
                return;
            }
            let (kind, answer) = (rest[1] as usize, words[2].parse::<usize>().unwrap());
            let runs = [words[3], words[4], words[5]];
            self.answers[kind][answer] += 1;
            if kind >= 9 && answer == 0 {
                let what = match (ran[0], runs[0]) {
                    ("-", "-") => 3,
                    ("-", _) => 2,
                    _ if ran == runs => 1,
                    _ => 0,
                };
                self.runs[kind - 9][what] += 1;
            }
            if kind == 10 && answer == 0 {
                for (times, holds) in self.removes.iter_mut().zip(removes(&m, rest[2])) {
                    *times += holds as usize;
                }
                freed[0][rest[2] as usize] = true;
                if let Some((number, _)) = m.owned(rest[2]) {
                    freed[1][number as usize] = true;
                }
            }
            if kind <= 2 && answer == 0 {
                self.again[kind - 1] += freed[kind - 1][rest[2] as usize] as usize;
            }
            ran = runs;
            let before = if kind == 11 && answer == 0 { Some((m.clone(), rest[2], rest[3])) } else { None };
            rest = m.next(rest).unwrap().1;
            if let Some((before, number, priority)) = before {
                for (times, holds) in self.ranks.iter_mut().zip(ranks(&before, &m, number, priority)) {
                    *times += holds as usize;
                }
                away[number as usize] = match before.rated(number) {
                    Some((_, ON..BEHIND)) => Some(0),
                    Some((_, STALLED)) => Some(1),
                    Some((_, SPENT)) => Some(2),
                    _ => None,
                };
            }
            for (number, was) in away.iter_mut().enumerate().filter(|(_, was)| was.is_some()) {
                let place = m.rated(number as u8).map(|(_, place)| place);
                self.back[was.unwrap()] += matches!(place, Some(QUEUE | BEHIND..)) as usize;
                if matches!(place, None | Some(QUEUE | BEHIND..)) {
                    *was = None;
                }
            }
        }
    }

    /// What events of a kind do to what runs. A rank starts nothing: where nothing runs Queue is empty, and it brings none there.
    fn runs(&self, kind: usize) -> Vec<(&'static str, usize)> {
        RUNS.into_iter().zip(self.runs[kind - 9]).filter(|(what, _)| kind < 11 || *what != RUNS[2]).collect()
    }

    /// What is counted, in words, and how often.
    fn all(&self) -> Vec<(String, usize)> {
        let mut all = Vec::new();
        for (kind, (name, answers)) in ANSWERS.iter().enumerate() {
            for &answer in *answers {
                let what = if answer == 0 { format!("{name} is accepted") } else { format!("{name} is refused with {answer}") };
                all.push((what, self.answers[kind][answer as usize]));
            }
        }
        for kind in 9..12 {
            all.extend(self.runs(kind).into_iter().map(|(what, times)| (format!("{} {what}", ANSWERS[kind].0), times)));
        }
        all.extend(REMOVES.iter().zip(self.removes).map(|(what, times)| (format!("a remove {what}"), times)));
        all.extend(RANKS.iter().zip(self.ranks).map(|(what, times)| (format!("a rank {what}"), times)));
        let back = ["On a thread", "Stalled", "Spent"];
        all.extend(back.iter().zip(self.back).map(|(place, times)| (format!("a timeslice ranked {place} comes back"), times)));
        let again = ["a removed thread's number is created again", "a timeslice number struck out is given again"];
        all.extend(again.iter().zip(self.again).map(|(what, times)| (what.to_string(), times)));
        all
    }
}

fn main() -> std::io::Result<()> {
    let a: Vec<String> = std::env::args().collect();
    let (removes, ranks) = ([0; REMOVES.len()], [0; RANKS.len()]);
    let mut counts = Counts { answers: [[0; 256]; 12], runs: [[0; 4]; 3], removes, ranks, back: [0; 3], again: [0; 2] };
    for entry in std::fs::read_dir(&a[1])? {
        let path = entry?.path();
        let key = Path::new(&a[2]).join(path.file_name().unwrap());
        counts.add(&std::fs::read(&path)?, &std::fs::read_to_string(key)?);
    }
    let all = counts.all();
    for (what, _) in all.iter().filter(|(_, times)| *times == 0) {
        println!("it never occurs that {what}");
    }
    let (rarest, times) = all.iter().min_by_key(|(_, times)| *times).unwrap();
    if *times == 0 {
        std::process::exit(1);
    }
    println!("{} answers and effects occur, the rarest {times} times: {rarest}", all.len());
    for kind in 9..12 {
        let runs: Vec<String> = counts.runs(kind).iter().map(|(what, times)| format!("{what} {times} times")).collect();
        println!("{} {}", ANSWERS[kind].0, runs.join(", "));
    }
    Ok(())
}
