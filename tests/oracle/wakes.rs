//! Request [14]: pairs of event files that wake the same threads in two orders.
//!
//! A pair is NAME+AT+WAKES.one and NAME+AT+WAKES.other: the first AT events of the event file NAME, then so many wakes, of two or more
//! Blocked threads and in some pairs of others too, or of one twice, then the other events of NAME, or as many of them as a file has
//! room for.
//!
//! `wakes -n SEED FOLDER FILE...` makes pairs in FOLDER. The same arguments give the same pairs.
//! `wakes -p PAIRS KEYS`: two folders, of pairs and of their keys under the same names. Asks of the keys, and of nothing else, what the
//! request says of them.
//! `wakes -m PAIRS` asks the same of the machine of `key.rs`, of its places too: a key has none.
//! The first pair for which the request does not hold gets a sentence; then the exit status is 1.
//!
//! `wakes -c PAIRS` counts in how many pairs each of `CASES` occurs. What never occurs gets a sentence; then the exit status is 1.

#[allow(dead_code)]
#[path = "key.rs"]
mod key;

use key::{Hold, Machine, Place, BEHIND, LIMIT, NONE, ON, QUEUE, SERVER};
use std::collections::BTreeSet;
use std::ops::Range;
use std::path::Path;

/// splitmix64
struct Random(u64);

impl Random {
    fn next(&mut self) -> u64 {
        self.0 = self.0.wrapping_add(0x9E37_79B9_7F4A_7C15);
        let mut z = self.0;
        z = (z ^ (z >> 30)).wrapping_mul(0xBF58_476D_1CE4_E5B9);
        z = (z ^ (z >> 27)).wrapping_mul(0x94D0_49BB_1331_11EB);
        z ^ (z >> 31)
    }

    /// 0 to n - 1
    fn below(&mut self, n: usize) -> usize {
        (self.next() >> 11) as usize % n
    }

    fn shuffle(&mut self, all: &mut [u8]) {
        for i in (1..all.len()).rev() {
            all.swap(i, self.below(i + 1));
        }
    }
}

/// The records of an event file, each with its length byte.
fn records(file: &[u8]) -> Vec<&[u8]> {
    let mut rest = key::check(file).expect("a good event file");
    let mut all = Vec::new();
    while let [length, ..] = rest {
        let (record, tail) = rest.split_at(1 + *length as usize);
        all.push(record);
        rest = tail;
    }
    all
}

/// The event file of these records, or of as many as there is room for.
fn file(records: &[&[u8]]) -> Vec<u8> {
    let mut file = vec![0, 0, 0, 0, 1];
    for record in records {
        if file.len() + record.len() > LIMIT {
            break;
        }
        file.extend(*record);
    }
    let length = (file.len() - 4) as u32;
    file[..4].copy_from_slice(&length.to_be_bytes());
    file
}

fn on(thread: u8) -> Range<Place> {
    ON + thread as Place..ON + thread as Place + 1
}

fn blocked(m: &Machine) -> Vec<u8> {
    (0..128u8).filter(|t| m.threads[*t as usize].role != NONE && m.threads[*t as usize].hold == Hold::Blocked).collect()
}

/// The numbers of events after which two threads or more are Blocked: all; with timeslices On two of them; the same and nothing runs;
/// with two timeslices On one of them; with three Blocked. A pair is made from each, so that none of these is rare.
fn places(events: &[&[u8]]) -> [Vec<usize>; 5] {
    let (mut m, mut places) = (Machine::new(), [const { Vec::new() }; 5]);
    // Not in the last tenth: what comes after the wakes shows where they put the timeslices, and in a full file they need room.
    for (at, event) in (1..).zip(&events[..events.len() / 10 * 9]) {
        m.next(event).unwrap();
        let waiting: Vec<usize> = blocked(&m).into_iter().map(|t| m.placed(on(t)).len()).collect();
        let two = waiting.iter().filter(|many| **many > 0).count() >= 2;
        let kinds = [true, two, two && m.running == NONE, waiting.iter().any(|many| *many >= 2), waiting.len() >= 3];
        for (places, is) in places.iter_mut().zip(kinds) {
            if is && waiting.len() >= 2 {
                places.push(at);
            }
        }
    }
    places
}

/// Two orders of two to four Blocked threads, in every third pair with a wake more: of one of them again, or of a thread that is not
/// Blocked. Mostly those are taken that a timeslice is On: waking the others changes little.
fn orders(m: &Machine, random: &mut Random) -> [Vec<u8>; 2] {
    let mut one = blocked(m);
    random.shuffle(&mut one);
    if random.below(5) > 0 {
        one.sort_by_key(|t| m.placed(on(*t)).is_empty());
    }
    one.truncate([2, 2, 3, 3, 4][random.below(5)]);
    let other = random.below(140) as u8;
    match random.below(6) {
        0 => one.push(one[random.below(one.len())]),
        1 if !blocked(m).contains(&other) => one.push(other),
        _ => (),
    }
    random.shuffle(&mut one);
    let mut other = one.clone();
    while other == one {
        random.shuffle(&mut other);
    }
    [one, other]
}

/// Makes the pairs of one event file.
fn make(path: &Path, folder: &Path, seed: u64) -> std::io::Result<()> {
    let (bytes, name) = (std::fs::read(path)?, path.file_name().unwrap().to_str().unwrap());
    let mut random = Random(name.bytes().fold(seed, |all, byte| all.wrapping_mul(257).wrapping_add(byte as u64)));
    let events = records(&bytes);
    let mut made = BTreeSet::new();
    for places in places(&events) {
        if places.is_empty() {
            continue;
        }
        let at = places[random.below(places.len())];
        if !made.insert(at) {
            continue;
        }
        for (order, which) in orders(&after(&events[..at]), &mut random).iter().zip(["one", "other"]) {
            let wakes: Vec<[u8; 3]> = order.iter().map(|t| [2, 6, *t]).collect();
            let wakes: Vec<&[u8]> = wakes.iter().map(|wake| &wake[..]).collect();
            let all = [&events[..at], &wakes, &events[at..]].concat();
            std::fs::write(folder.join(format!("{name}+{at}+{}.{which}", wakes.len())), file(&all))?;
        }
    }
    Ok(())
}

/// The machine after these events.
fn after(events: &[&[u8]]) -> Machine {
    let mut m = Machine::new();
    for event in events {
        m.next(event).unwrap();
    }
    m
}

struct Pair {
    name: String,
    /// The wakes are the events from `first` to the one before `last`, counted from 0.
    first: usize,
    last: usize,
    files: [Vec<u8>; 2],
}

/// One wake, with the machine before it and after it.
struct Wake {
    thread: u8,
    before: Machine,
    after: Machine,
    refusal: u8,
    links: u32,
}

impl Pair {
    /// What a folder has under the two names of a pair.
    fn both(folder: &Path, name: &str) -> std::io::Result<[Vec<u8>; 2]> {
        let file = |which| std::fs::read(folder.join(format!("{name}.{which}")));
        Ok([file("one")?, file("other")?])
    }

    /// Stops if it is none: a test would compare a file with itself.
    fn read(folder: &Path, name: &str) -> std::io::Result<Pair> {
        let numbers: Vec<usize> = name.split('+').skip(1).map(|word| word.parse().expect("a number")).collect();
        let (first, last) = (numbers[0], numbers[0] + numbers[1]);
        let pair = Pair { name: name.to_string(), first, last, files: Pair::both(folder, name)? };
        let [one, other] = pair.events();
        let [wakes, others] = [&one, &other].map(|events| {
            let mut wakes = events[first..last].to_vec();
            wakes.sort();
            wakes
        });
        assert!(first > 0 && last <= one.len() && one[..first] == other[..first] && one[last..] == other[last..], "{name}: no pair");
        assert!(wakes == others && wakes.iter().all(|event| event[1] == 6), "{name}: other wakes");
        assert!(one[first..last] != other[first..last], "{name}: the same order");
        Ok(pair)
    }

    fn events(&self) -> [Vec<&[u8]>; 2] {
        [records(&self.files[0]), records(&self.files[1])]
    }

    /// The wakes of both files.
    fn wakes(&self) -> [Vec<Wake>; 2] {
        self.events().map(|events| {
            let mut m = after(&events[..self.first]);
            let wake = |event: &&[u8]| {
                let before = m.clone();
                let (answer, _) = m.next(event).unwrap();
                Wake { thread: event[2], before, after: m.clone(), refusal: answer.refusal, links: answer.links }
            };
            events[self.first..self.last].iter().map(wake).collect()
        })
    }
}

/// The pairs in a folder, by name.
fn pairs(folder: &Path) -> std::io::Result<Vec<Pair>> {
    let mut names = BTreeSet::new();
    for entry in std::fs::read_dir(folder)? {
        names.insert(entry?.path().file_stem().unwrap().to_str().unwrap().to_string());
    }
    names.iter().map(|name| Pair::read(folder, name)).collect()
}

/// What is asked of a line of a key: whether it is accepted; running thread, timeslice and donation count; links.
struct Line<'a> {
    accepted: bool,
    runs: [&'a str; 3],
    links: u32,
}

fn line(text: &str) -> Option<Line<'_>> {
    match text.split(' ').collect::<Vec<_>>()[..] {
        [_, word, refusal, thread, timeslice, count, links] => {
            Some(Line { accepted: (word, refusal) == ("ok", "0"), runs: [thread, timeslice, count], links: links.parse().ok()? })
        }
        _ => None,
    }
}

/// What is wrong with the line of a wake, by the line before it.
fn wrong_wake(thread: u8, before: &str, text: &str) -> Option<&'static str> {
    let (Some(was), Some(is)) = (line(before), line(text)) else { return Some("is no line of a key") };
    if is.runs == was.runs {
        (is.links > 0).then_some("leaves what runs alone and follows links")
    } else if !is.accepted {
        Some("refuses it and changes what runs")
    } else if is.runs[0] != thread.to_string() {
        Some("changes what runs, and the woken thread does not run")
    } else if is.runs[1] == was.runs[1] {
        Some("has the woken thread paid by the timeslice that paid before")
    } else if is.runs[2].parse::<u32>().map_or(true, |count| count > is.links) {
        Some("has more donations than links")
    } else {
        None
    }
}

/// What is wrong with the keys of a pair.
fn wrong_keys(pair: &Pair, keys: &[Vec<u8>; 2]) -> Option<String> {
    // A wrong program may print anything.
    let texts = keys.each_ref().map(|key| String::from_utf8_lossy(key));
    let [one, other] = texts.each_ref().map(|text| text.split_terminator('\n').collect::<Vec<_>>());
    let all = pair.events();
    let many = all[0].len();
    if one.len() != many || other.len() != many {
        return Some(format!("{} and {} lines for {many} events", one.len(), other.len()));
    }
    let differs = |lines: Range<usize>, how: &str| {
        let n = lines.into_iter().find(|n| one[*n] != other[*n])?;
        Some(format!("line {}, {how}, differs: '{}' and '{}'", n + 1, one[n], other[n]))
    };
    let wake = |(events, lines): (&Vec<&[u8]>, &Vec<&str>)| {
        (pair.first..pair.last).find_map(|n| {
            let (thread, before, is) = (events[n][2], lines[n - 1], lines[n]);
            wrong_wake(thread, before, is).map(|wrong| format!("of the wake of thread {thread}, '{is}' {wrong}; before it is '{before}'"))
        })
    };
    let wakes = || all.iter().zip([&one, &other]).find_map(wake);
    // Of a thread the first wake may be accepted, and no other; of which threads, does not depend on the order.
    let accepts = |(events, lines): (&Vec<&[u8]>, &Vec<&str>)| {
        let mut woken = Vec::new();
        for n in pair.first..pair.last {
            let again = events[pair.first..n].contains(&events[n]);
            match line(lines[n]).is_some_and(|line| line.accepted) {
                true if again => return Err(format!("line {} accepts a second wake: '{}'", n + 1, lines[n])),
                true => woken.push(events[n][2]),
                false => (),
            }
        }
        woken.sort();
        Ok(woken)
    };
    let accepted = || match [accepts((&all[0], &one)), accepts((&all[1], &other))] {
        [Ok(one), Ok(other)] if one == other && one.len() >= 2 => None,
        [Ok(one), Ok(other)] => Some(format!("wakes of {one:?} are accepted in the one order, of {other:?} in the other")),
        [Err(wrong), _] | [_, Err(wrong)] => Some(wrong),
    };
    let last = || {
        let [a, b] = [one[pair.last - 1], other[pair.last - 1]].map(|text| line(text).map(|line| line.runs));
        (a != b).then(|| differs(pair.last - 1..pair.last, "of the last wake, in what runs")).flatten()
    };
    let rest = || differs(pair.last..many, "after the wakes");
    differs(0..pair.first, "before the wakes").or_else(wakes).or_else(accepted).or_else(last).or_else(rest)
}

/// The topmost of the timeslices in one of the places: the earliest of those with the highest priority.
fn topmost(m: &Machine, places: Range<Place>) -> Option<u8> {
    m.placed(places).into_iter().rev().max_by_key(|s| m.rated(*s).map(|(priority, _)| priority))
}

/// Whether one timeslice stands above another.
fn above(m: &Machine, a: u8, b: u8) -> bool {
    let priority = |s| m.rated(s).unwrap().0;
    let turns = m.placed(QUEUE..Place::MAX);
    let turn = |s| turns.iter().position(|t| *t == s);
    priority(a) > priority(b) || priority(a) == priority(b) && turn(a) < turn(b)
}

fn owner(m: &Machine, timeslice: u8) -> u8 {
    (0..128).find(|t| m.owned(*t).is_some_and(|(s, _)| s == timeslice)).unwrap()
}

fn accepted(wake: &Wake) -> bool {
    wake.refusal == 0
}

/// What is wrong with a wake: of a thread that is not Blocked it is refused; otherwise what runs stays and no link is followed, or the
/// woken thread runs, paid by the topmost of the timeslices that were On it, and the links followed are those of that one's chain.
fn wrong_change(wake: &Wake) -> Option<String> {
    let (before, after) = (&wake.before, &wake.after);
    let sleeps = blocked(before).contains(&wake.thread);
    if sleeps != accepted(wake) {
        return Some(format!("a wake of {}, Blocked: {sleeps}, gets {}", wake.thread, wake.refusal));
    }
    let is = (after.running, after.current, wake.links);
    let top = if sleeps { topmost(before, on(wake.thread)) } else { None };
    let wanted = match top {
        Some(top) if before.running == NONE || above(before, top, before.current) => {
            (wake.thread, top, before.walk(owner(before, top) as usize).links)
        }
        _ => (before.running, before.current, 0),
    };
    (is != wanted).then(|| format!("a wake of {} leaves {is:?} for running thread, timeslice and links, not {wanted:?}", wake.thread))
}

fn takes(wake: &Wake) -> bool {
    wake.before.current != wake.after.current
}

/// What is wrong with the sums of two wakes: where each would take over alone, the lower timeslice's links count only if it is woken
/// first; otherwise the sums are equal.
fn wrong_sums(wakes: &[Vec<Wake>; 2]) -> Option<String> {
    let [one, other] = wakes.each_ref().map(|wakes| &wakes[0]);
    let is = wakes.each_ref().map(|wakes| wakes.iter().map(|wake| wake.links).sum::<u32>());
    let both = one.links + other.links;
    let wanted = match takes(one) && takes(other) {
        true if above(&one.before, one.after.current, other.after.current) => [one.links, both],
        true => [both, other.links],
        false => [both, both],
    };
    (wakes[0].len() == 2 && is != wanted).then(|| format!("the sums of links are {is:?}, not {wanted:?}"))
}

/// All of a machine that can be asked for.
fn shown(m: &Machine) -> impl PartialEq {
    let threads = m.threads.map(|t| (t.role, t.hold as u8, t.to, t.service)).to_vec();
    let timeslices: Vec<_> = m.placed(QUEUE..Place::MAX).into_iter().map(|s| (s, owner(m, s), m.rated(s))).collect();
    (threads, timeslices, m.running, m.current, m.count, m.left())
}

/// What is wrong with the machines of a pair.
fn wrong_machines(pair: &Pair) -> Option<String> {
    let wakes = pair.wakes();
    let wrong = wakes.iter().flatten().find_map(wrong_change).or_else(|| wrong_sums(&wakes));
    let [one, other] = wakes.map(|wakes| shown(&wakes.last().unwrap().after));
    wrong.or_else(|| (one != other).then(|| "the machines after the wakes differ".to_string()))
}

/// What must occur in a pair.
const CASES: [&str; 21] = [
    "the sums of links differ",
    "the sums of links are equal, though a wake takes over",
    "a line between two wakes differs",
    "the last line differs in its links",
    "the last wake takes over in one order and not in the other",
    "a wake takes over from a running thread",
    "a wake takes over from an equal in priority",
    "a wake takes over where nothing runs",
    "a wake takes over, and two links or more are followed",
    "a wake takes over from one that has just taken over",
    "a wake leaves what runs alone, though a timeslice is On the thread",
    "a wake leaves an equal in priority running",
    "a thread is woken that no timeslice is On",
    "a thread is woken that ends the chain of a timeslice in Queue or Behind another",
    "a server is woken with two timeslices or more On it",
    "two threads are woken with two timeslices or more On each",
    "three threads or more are woken",
    "a thread is woken twice",
    "a thread that is not Blocked is to be woken",
    "events after the wakes follow links",
    "a timeslice that the wakes put Behind another pays later",
];

/// Which of `CASES` occur.
fn occur(pair: &Pair) -> [bool; CASES.len()] {
    let wakes = pair.wakes();
    let waiting = |wake: &Wake| wake.before.placed(on(wake.thread)).len();
    let woken = |wakes: &Vec<Wake>| wakes.iter().filter(|wake| accepted(wake)).count();
    let any = |holds: &dyn Fn(&Wake) -> bool| wakes.iter().flatten().filter(|wake| accepted(wake)).any(holds);
    let equal = |wake: &Wake| {
        let priority = |s: u8| wake.before.rated(s).map(|(priority, _)| priority);
        let top = topmost(&wake.before, on(wake.thread));
        top.is_some() && wake.before.current != NONE && top.and_then(priority) == priority(wake.before.current)
    };
    let leads = |wake: &Wake| {
        let m = &wake.before;
        let queued = [m.placed(QUEUE..QUEUE + 1), m.placed(BEHIND..Place::MAX)].concat();
        queued.into_iter().map(|s| m.walk(owner(m, s) as usize)).any(|w| w.links < m.live && w.end == wake.thread as usize)
    };
    let sums = wakes.each_ref().map(|wakes| wakes.iter().map(|wake| wake.links).sum::<u32>());
    let lines = wakes.each_ref().map(|wakes| {
        wakes.iter().map(|wake| (wake.after.running, wake.after.current, wake.after.count, wake.links)).collect::<Vec<_>>()
    });
    let last = wakes.each_ref().map(|wakes| wakes.last().unwrap());
    let end = lines[0].len() - 1;

    let behind = |m: &Machine| m.placed(BEHIND..Place::MAX);
    let there = behind(&wakes[0][0].before);
    let mut m = last[0].after.clone();
    let put: Vec<u8> = behind(&m).into_iter().filter(|s| !there.contains(s)).collect();
    let (mut links, mut pays) = (0, false);
    for event in &pair.events()[0][pair.last..] {
        links += m.next(event).unwrap().0.links;
        pays |= put.contains(&m.current);
    }
    [
        sums[0] != sums[1],
        sums[0] == sums[1] && any(&|wake| takes(wake)),
        lines[0][..end] != lines[1][..end],
        last[0].links != last[1].links,
        takes(last[0]) != takes(last[1]),
        any(&|wake| takes(wake) && wake.before.running != NONE),
        any(&|wake| takes(wake) && equal(wake)),
        any(&|wake| takes(wake) && wake.before.running == NONE),
        any(&|wake| takes(wake) && wake.links >= 2),
        wakes.iter().any(|wakes| wakes.windows(2).any(|two| takes(&two[0]) && takes(&two[1]))),
        any(&|wake| !takes(wake) && waiting(wake) > 0),
        any(&|wake| !takes(wake) && equal(wake)),
        any(&|wake| waiting(wake) == 0),
        any(&leads),
        any(&|wake| waiting(wake) >= 2 && wake.before.threads[wake.thread as usize].role == SERVER),
        wakes[0].iter().filter(|wake| accepted(wake) && waiting(wake) >= 2).count() >= 2,
        woken(&wakes[0]) >= 3,
        wakes[0].iter().any(|wake| !accepted(wake) && wakes[0].iter().any(|first| accepted(first) && first.thread == wake.thread)),
        wakes[0].iter().any(|wake| !accepted(wake) && wakes[0].iter().all(|first| !accepted(first) || first.thread != wake.thread)),
        links > 0,
        pays,
    ]
}

/// Fails where one of the cases never occurs.
fn count(pairs: &[Pair]) -> bool {
    let mut times = [0; CASES.len()];
    for pair in pairs {
        for (times, occurs) in times.iter_mut().zip(occur(pair)) {
            *times += occurs as usize;
        }
    }
    let all: Vec<(&str, usize)> = CASES.into_iter().zip(times).collect();
    for (case, _) in all.iter().filter(|(_, times)| *times == 0) {
        println!("it never occurs that {case}");
    }
    let occur = all.iter().filter(|(_, times)| *times > 0).count();
    let (rarest, least) = all.iter().min_by_key(|(_, times)| *times).unwrap();
    for (case, times) in &all {
        println!("{times:5} pairs: {case}");
    }
    println!("{occur} of {} cases occur, the rarest in {least} pairs: {rarest}", CASES.len());
    let wakes: usize = pairs.iter().map(|pair| 2 * (pair.last - pair.first)).sum();
    println!("{wakes} wakes in {} pairs, {} of these with sums of links that differ", pairs.len(), times[0]);
    occur == CASES.len()
}

/// Says what is wrong with the first pair that has a fault, and where there is none, nothing.
fn none_wrong(pairs: &[Pair], mut wrong: impl FnMut(&Pair) -> std::io::Result<Option<String>>) -> std::io::Result<bool> {
    for pair in pairs {
        if let Some(wrong) = wrong(pair)? {
            println!("{}: {wrong}", pair.name);
            return Ok(false);
        }
    }
    Ok(true)
}

fn main() -> std::io::Result<()> {
    let arguments: Vec<String> = std::env::args().collect();
    let words: Vec<&str> = arguments[1..].iter().map(String::as_str).collect();
    let well = match words[..] {
        ["-n", seed, folder, ref files @ ..] => {
            for path in files {
                make(Path::new(path), Path::new(folder), seed.parse().expect("a seed"))?;
            }
            true
        }
        ["-p", folder, keys] => {
            none_wrong(&pairs(Path::new(folder))?, |pair| Ok(wrong_keys(pair, &Pair::both(Path::new(keys), &pair.name)?)))?
        }
        ["-m", folder] => none_wrong(&pairs(Path::new(folder))?, |pair| Ok(wrong_machines(pair)))?,
        ["-c", folder] => count(&pairs(Path::new(folder))?),
        _ => {
            eprintln!("wakes -n SEED FOLDER FILE.. | -p PAIRS KEYS | -m PAIRS | -c PAIRS");
            std::process::exit(2);
        }
    };
    std::process::exit(!well as i32)
}
