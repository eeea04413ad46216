//! The program `shares` of request [13]: what each timeslice has paid, in units and in thousandths of all that was paid. The plain machine
//! of `plain.rs` runs the events. A charge is paid by the timeslice that is current when it comes, also where it leaves nothing of it.
//!
//! `shares` reads an event file from standard input and prints the answer.
//! `shares -o FOLDER FILE...` writes the answer for each file to FOLDER, under the file's own name.
//! `shares -n SEED COUNT FOLDER` makes event files with many charges. The same arguments give the same files.
//! `shares -c FILES ANSWERS`: two folders. Counts in how many files each of `CASES` occurs. What never occurs gets a sentence;
//! then the exit status is 1. With `-C` each case that occurs gets a line too.

#[allow(dead_code)]
#[path = "plain.rs"]
mod plain;

use plain::{Event, Hold, Plain};
use std::collections::{BTreeMap, BTreeSet};
use std::fmt::Write as _;
use std::io::{Read, Write};
use std::path::Path;

/// The units charged to each timeslice number, and their total, "summed from the accepted charge events of the list". A removal touches
/// neither: "a number given again after a removal keeps adding".
fn paid(events: &[Event]) -> (BTreeMap<u8, u64>, u64) {
    let mut m = Plain::empty();
    let (mut units, mut total) = (BTreeMap::new(), 0);
    for event in events {
        let current = m.runs.map(|runs| runs.timeslice);
        if let (Event::Charge { amount }, 0) = (event, m.step(event)) {
            *units.entry(current.expect("where nothing runs a charge is refused")).or_insert(0) += *amount as u64;
            total += *amount as u64;
        }
    }
    (units, total)
}

/// Whole parts per thousand and the remainder, with pencil and paper: a thousand times the units, and the total taken away as often as it
/// can be.
fn parts(units: u64, total: u64) -> (u64, u64) {
    let (mut parts, mut remainder) = (0, 1000 * units);
    while remainder >= total {
        remainder -= total;
        parts += 1;
    }
    (parts, remainder)
}

fn answer(file: &[u8]) -> String {
    let events = match plain::read(file) {
        Ok(events) => events,
        Err(refusal) => return format!("file {refusal}\n"),
    };
    let (paid, total) = paid(&events);
    assert_eq!(paid.values().sum::<u64>(), total, "what all have paid is the total");
    let mut text = String::new();
    let (mut all_parts, mut all_remainders) = (0, 0);
    for (timeslice, units) in paid {
        let (parts, remainder) = parts(units, total);
        assert_eq!(parts as u128 * total as u128 + remainder as u128, 1000 * units as u128, "parts, total, remainder and units");
        assert!(remainder < total, "the remainder is below the total");
        all_parts += parts;
        all_remainders += remainder;
        writeln!(text, "{timeslice} {units} {parts} {remainder}").unwrap();
    }
    assert!(all_parts <= 1000, "the parts are no more than a thousand");
    assert_eq!(all_remainders, if total > 0 { (1000 - all_parts) * total } else { 0 }, "the remainders are the parts that lack");
    text
}

/// splitmix64
struct Random(u64);

impl Random {
    fn next(&mut self) -> u64 {
        self.0 = self.0.wrapping_add(0x9E37_79B9_7F4A_7C15);
        let mut z = self.0;
        z = (z ^ (z >> 30)).wrapping_mul(0xBF58_476D_1CE4_E5B9);
        z = (z ^ (z >> 27)).wrapping_mul(0x94D0_49BB_1331_11EB);
        z ^ (z >> 31)
    }

    /// 0 to n - 1
    fn below(&mut self, n: usize) -> usize {
        (self.next() >> 11) as usize % n
    }

    /// a to b
    fn range(&mut self, a: usize, b: usize) -> usize {
        a + self.below(b - a + 1)
    }

    fn percent(&mut self, p: usize) -> bool {
        self.below(100) < p
    }

    fn pick<T: Copy>(&mut self, from: &[T]) -> Option<T> {
        if from.is_empty() { None } else { Some(from[self.below(from.len())]) }
    }

    fn shuffled(&mut self, mut all: Vec<u8>) -> Vec<u8> {
        for i in (1..all.len()).rev() {
            all.swap(i, self.below(i + 1));
        }
        all
    }
}

fn record(event: &Event) -> Vec<u8> {
    let two = |n: u16| n.to_be_bytes();
    match *event {
        Event::Create { thread, server } => vec![3, 1, thread, server as u8],
        Event::Give { timeslice, thread, priority, quantum } => {
            vec![6, 2, timeslice, thread, priority, two(quantum)[0], two(quantum)[1]]
        }
        Event::Call { server } => vec![2, 3, server],
        Event::Reply => vec![1, 4],
        Event::Block => vec![1, 5],
        Event::Wake { thread } => vec![2, 6, thread],
        Event::Charge { amount } => vec![3, 7, two(amount)[0], two(amount)[1]],
        Event::Abort { thread } => vec![2, 8, thread],
        Event::Refill { timeslice } => vec![2, 9, timeslice],
        Event::Remove { thread } => vec![2, 10, thread],
        Event::Rank { timeslice, priority } => vec![3, 11, timeslice, priority],
    }
}

/// Which charges a list has.
#[derive(Clone, Copy, PartialEq)]
enum Charges {
    All,
    None,
    /// Only refused ones: of 0; of more than is left; while nothing runs.
    Zero,
    TooMuch,
    NothingRuns,
}

struct List {
    random: Random,
    machine: Plain,
    bytes: Vec<u8>,
    /// The numbers that threads and timeslices have. They are few, so that removed ones come again.
    threads: Vec<u8>,
    numbers: Vec<u8>,
    servers: BTreeSet<u8>,
    /// Servers among a hundred threads.
    percent: usize,
    priorities: Vec<u8>,
    quanta: Vec<u16>,
    charges: Charges,
}

impl List {
    fn add(&mut self, event: Event) {
        self.bytes.extend(record(&event));
        let accepted = self.machine.step(&event) == 0;
        if let (Event::Create { thread, server }, true) = (event, accepted) {
            if server {
                self.servers.insert(thread);
            } else {
                self.servers.remove(&thread);
            }
        }
    }

    /// The threads with such a hold.
    fn held(&self, holds: impl Fn(Hold) -> bool) -> Vec<u8> {
        self.machine.threads.iter().filter(|(_, thread)| holds(thread.hold)).map(|(number, _)| *number).collect()
    }

    fn create(&mut self) -> Option<Event> {
        let free: Vec<u8> = self.threads.iter().copied().filter(|t| !self.machine.threads.contains_key(t)).collect();
        let thread = self.random.pick(&free)?;
        Some(Event::Create { thread, server: self.random.percent(self.percent) })
    }

    /// Mostly of a free number to a thread without one; else the dice may choose what is refused.
    fn give(&mut self) -> Option<Event> {
        let any = self.random.percent(10);
        let m = &self.machine;
        let free: Vec<u8> = self.numbers.iter().copied().filter(|n| any || !m.timeslices.contains_key(n)).collect();
        let owns = |t: &u8| m.timeslices.values().any(|timeslice| timeslice.owner == *t);
        let without: Vec<u8> = m.threads.keys().copied().filter(|t| any || !owns(t)).collect();
        Some(Event::Give {
            timeslice: self.random.pick(&free)?,
            thread: self.random.pick(&without)?,
            priority: self.random.pick(&self.priorities)?,
            quantum: self.random.pick(&self.quanta)?,
        })
    }

    /// A charge of any size, or one that is refused.
    fn charge(&mut self) -> Option<Event> {
        let left = self.machine.runs.map(|runs| self.machine.timeslices[&runs.timeslice].left as usize);
        let dice = self.random.below(100);
        let amount = match (self.charges, left) {
            (Charges::None, _) => return None,
            (Charges::Zero, Some(_)) => 0,
            (Charges::TooMuch, Some(left)) => self.random.range((left + 1).min(65_535), 65_535),
            (Charges::NothingRuns, None) => self.random.range(0, 65_535),
            (Charges::All, None) if dice < 20 => self.random.range(0, 65_535),
            (Charges::All, Some(left)) => match dice {
                0..=2 => 0,
                3..=6 => left + 1,
                7..=9 => 65_535,
                10..=13 => self.random.range(0, 65_535),
                14..=24 => 1,
                25..=59 => left,
                _ => self.random.range(1, left),
            },
            _ => return None,
        };
        Some(Event::Charge { amount: amount.min(65_535) as u16 })
    }

    fn refill(&mut self) -> Option<Event> {
        let spent: Vec<u8> = self.machine.timeslices.iter().filter(|(_, t)| t.left == 0).map(|(number, _)| *number).collect();
        let from = if self.random.percent(5) { &self.numbers } else { &spent };
        self.random.pick(from).map(|timeslice| Event::Refill { timeslice })
    }

    /// Mostly an owner; often of the current timeslice.
    fn remove(&mut self) -> Option<Event> {
        let owners: Vec<u8> = self.machine.timeslices.values().map(|timeslice| timeslice.owner).collect();
        let current = self.machine.runs.map(|runs| self.machine.timeslices[&runs.timeslice].owner);
        let thread = match self.random.below(10) {
            0..=2 => current?,
            3..=7 => self.random.pick(&owners)?,
            _ => self.random.pick(&self.threads)?,
        };
        Some(Event::Remove { thread })
    }

    fn sensible(&mut self) -> Option<Event> {
        let running = self.machine.runs.map(|runs| runs.thread);
        // Where nothing runs few events are of use.
        let dice = if running.is_none() && self.random.percent(85) { self.random.range(62, 99) } else { self.random.below(100) };
        let linked = |hold| matches!(hold, Hold::Calling(_) | Hold::Helping(_));
        match dice {
            0..=35 => self.charge(),
            36..=50 => {
                let servers: Vec<u8> = self.servers.iter().copied().filter(|s| Some(*s) != running).collect();
                self.random.pick(&servers).map(|server| Event::Call { server })
            }
            51..=57 if running.is_some_and(|t| self.servers.contains(&t)) => Some(Event::Reply),
            58..=61 => Some(Event::Block),
            62..=72 => self.refill(),
            73..=78 => self.random.pick(&self.held(|hold| hold == Hold::Blocked)).map(|thread| Event::Wake { thread }),
            79..=82 => self.random.pick(&self.held(linked)).map(|thread| Event::Abort { thread }),
            83..=85 => self.remove(),
            86..=89 => self.create(),
            90..=94 => self.give(),
            95..=98 => {
                let timeslice = self.random.pick(&self.numbers)?;
                self.random.pick(&self.priorities).map(|priority| Event::Rank { timeslice, priority })
            }
            _ => self.charge(),
        }
    }

    fn step(&mut self) {
        for _ in 0..8 {
            if let Some(event) = self.sensible() {
                return self.add(event);
            }
        }
        self.add(Event::Reply);
    }
}

/// The kinds of lists go by turns, so that 20 files have them all.
fn list(seed: u64, index: usize) -> Vec<u8> {
    let mut r = Random(seed);
    let charges = match index % 20 {
        0 => Charges::None,
        1 => Charges::Zero,
        2 => Charges::TooMuch,
        3 => Charges::NothingRuns,
        _ => Charges::All,
    };
    // Short; of 128; with large figures; with one timeslice; any.
    let (threads, timeslices, steps) = match index % 20 {
        0..=7 => (r.range(2, 4), r.range(1, 3), r.range(5, 50)),
        8 => (128, 128, r.range(50, 300)),
        9..=11 => (r.range(2, 6), r.range(2, 6), r.range(300, 1500)),
        12 => (r.range(2, 5), 1, r.range(20, 200)),
        _ => (r.range(3, 9), r.range(2, 9), r.range(60, 500)),
    };
    let quanta: Vec<u16> = match index % 20 {
        4..=7 => vec![1, 2, 3, 5],
        9..=11 => vec![60_000, 65_535],
        _ => r.pick(&[&[1, 2, 5][..], &[10, 100, 1000], &[1, 100, 65_535], &[500, 501]]).unwrap().to_vec(),
    };
    let priorities = (0..r.range(1, 4)).map(|_| r.pick(&[0, 1, 10, 20, 128, 255]).unwrap()).collect();
    // Both ends of the range are common.
    let mut some = |many: usize| {
        let mut all = r.shuffled((1..127).collect());
        for end in [0, 127] {
            let at = r.below(if many > 120 { 127 } else { 2 * many }).min(all.len());
            all.insert(at, end);
        }
        all.truncate(many);
        all
    };
    let (threads, numbers) = (some(threads), some(timeslices));
    let mut list = List {
        percent: if threads.len() == 128 { 0 } else { r.range(20, 70) },
        random: r,
        machine: Plain::empty(),
        bytes: vec![0, 0, 0, 0, 1],
        threads,
        numbers,
        servers: BTreeSet::new(),
        priorities,
        quanta,
        charges,
    };
    if charges == Charges::NothingRuns {
        list.add(Event::Charge { amount: 1 });
    }
    for _ in 0..list.threads.len() {
        if let Some(event) = list.create() {
            list.add(event);
        }
        if let Some(event) = list.give() {
            list.add(event);
        }
    }
    if list.threads.len() == 128 {
        // Those whose give was refused get a timeslice too. Then each pays once, all that it has.
        while list.machine.timeslices.len() < 128 {
            let event = list.give().unwrap();
            list.add(event);
        }
        while let Some(runs) = list.machine.runs {
            let amount = list.machine.timeslices[&runs.timeslice].left;
            list.add(Event::Charge { amount });
        }
        list.percent = 50;
    }
    for _ in 0..steps {
        list.step();
    }
    let length = (list.bytes.len() - 4) as u32;
    list.bytes[..4].copy_from_slice(&length.to_be_bytes());
    list.bytes
}

/// A charge event, with what held before it where something ran: the current timeslice and its owner, how often that number had been
/// given, and how often refilled since. And the current timeslice after it.
#[derive(Default)]
struct Charge {
    at: usize,
    amount: u16,
    refusal: u8,
    payer: u8,
    owner: u8,
    tenure: usize,
    refills: usize,
    /// The running thread is not the owner.
    donated: bool,
    /// A link of the chain is a helping link.
    helped: bool,
    /// The running thread has another timeslice, with enough left.
    own: bool,
    depletes: bool,
    after: Option<u8>,
}

/// By the kind byte of a record, from 1.
const KINDS: [&str; 11] = ["create", "give", "call", "reply", "block", "wake", "charge", "abort", "refill", "remove", "rank"];

struct History {
    events: usize,
    charges: Vec<Charge>,
    /// By number: the owners that it was given to, in turn.
    owners: BTreeMap<u8, Vec<u8>>,
    /// The numbers live at the end.
    live: BTreeSet<u8>,
    /// The refused gives: when, and of which number.
    not_given: Vec<(usize, u8)>,
    /// A number that had paid was removed with nothing left.
    removed_spent: bool,
    /// By kind: such an event made another timeslice current than one that had paid, and the next to be current paid.
    changed: [bool; KINDS.len()],
}

fn history(events: &[Event]) -> History {
    let mut m = Plain::empty();
    let mut h = History {
        events: events.len(),
        charges: Vec::new(),
        owners: BTreeMap::new(),
        live: BTreeSet::new(),
        not_given: Vec::new(),
        removed_spent: false,
        changed: [false; KINDS.len()],
    };
    let mut refills: BTreeMap<u8, usize> = BTreeMap::new();
    let mut has_paid = BTreeSet::new();
    // The kind of the last event that made another timeslice current, and from which.
    let mut change = None;
    for (at, event) in events.iter().enumerate() {
        let before = m.runs;
        let current = before.map(|runs| runs.timeslice);
        let charge = match (event, before) {
            (Event::Charge { amount }, Some(runs)) => {
                let timeslice = &m.timeslices[&runs.timeslice];
                let mut helped = false;
                let mut here = timeslice.owner;
                while let Hold::Calling(next) | Hold::Helping(next) = m.threads[&here].hold {
                    helped |= m.threads[&here].hold == Hold::Helping(next);
                    here = next;
                }
                Some(Charge {
                    at,
                    amount: *amount,
                    payer: runs.timeslice,
                    owner: timeslice.owner,
                    tenure: h.owners[&runs.timeslice].len(),
                    refills: refills[&runs.timeslice],
                    donated: timeslice.owner != runs.thread,
                    helped,
                    own: m.timeslices.iter().any(|(n, t)| t.owner == runs.thread && *n != runs.timeslice && t.left >= *amount),
                    depletes: timeslice.left == *amount,
                    ..Charge::default()
                })
            }
            (Event::Charge { amount }, None) => Some(Charge { at, amount: *amount, ..Charge::default() }),
            _ => None,
        };
        if let Event::Remove { thread } = event {
            let spent = |(n, t): (&u8, &plain::Timeslice)| t.owner == *thread && t.left == 0 && has_paid.contains(n);
            h.removed_spent |= m.timeslices.iter().any(spent);
        }
        let refusal = m.step(event);
        let after = m.runs.map(|runs| runs.timeslice);
        if let Some(charge) = charge {
            if refusal == 0 {
                has_paid.insert(charge.payer);
                if let Some((kind, from)) = change {
                    h.changed[kind] |= has_paid.contains(&from);
                }
            }
            h.charges.push(Charge { refusal, after, ..charge });
        }
        match (event, refusal) {
            (Event::Give { timeslice, thread, .. }, 0) => {
                h.owners.entry(*timeslice).or_default().push(*thread);
                refills.insert(*timeslice, 0);
            }
            (Event::Give { timeslice, .. }, _) => h.not_given.push((at, *timeslice)),
            (Event::Refill { timeslice }, 0) => *refills.get_mut(timeslice).unwrap() += 1,
            _ => (),
        }
        if after != current {
            change = current.map(|from| (record(event)[1] as usize - 1, from));
        }
    }
    h.live = m.timeslices.keys().copied().collect();
    h
}

/// A refused file without its faults: the length field and the version are right, and it has the records before the first bad one, as many
/// as there is room for.
fn mended(file: &[u8]) -> Vec<Event> {
    let mut good = vec![0, 0, 0, 1, 1];
    let mut rest = file.get(5..).unwrap_or(&[]);
    while let [length, ..] = rest {
        let Some(record) = rest.get(..1 + *length as usize) else { break };
        let follows = (1 + record.len() as u32).to_be_bytes();
        if plain::read(&[&follows[..], &[1], record].concat()).is_err() || good.len() + record.len() > 65_536 {
            break;
        }
        good.extend(record);
        rest = &rest[record.len()..];
    }
    let length = (good.len() - 4) as u32;
    good[..4].copy_from_slice(&length.to_be_bytes());
    plain::read(&good).unwrap()
}

/// What must occur, by a file and its answer. The largest total: behind 16 bytes, 9,360 times a charge of 65,535 and a refill, 7 bytes.
const CASES: [&str; 65] = [
    "a file gives 14",
    "a file gives 15",
    "a file gives 16",
    "a file that gives 14 would have lines",
    "a file that gives 15 would have lines",
    "a file that gives 16 has charges before its fault that would be accepted",
    "a file has no event",
    "a file has events and no charge",
    "all charges are of 0, and something runs",
    "all charges are of more than is left",
    "all charges come while nothing runs",
    "the charges of an accepted file are refused in several ways, and none is accepted",
    "one timeslice pays, with 1000 parts and remainder 0",
    "several timeslices pay",
    "128 timeslices pay",
    "of several payers one has remainder 0",
    "a remainder is not 0",
    "the parts of several payers add up to 1000",
    "the parts add up to less than 1000",
    "a payer has less than one part",
    "a payer has 999 parts",
    "a remainder is half the total or more",
    "two payers have equal units",
    "a charge depletes its payer, and another timeslice is current then",
    "a charge depletes its payer, and nothing runs then",
    "a payer pays again after a refill",
    "a payer's thread is not its owner, by donation alone",
    "a payer's thread is not its owner, by helping",
    "the running thread has a timeslice of its own that could pay, and another one pays",
    "a payer's number is not its owner's",
    "a payer is removed and never given again; its line stays",
    "a payer is removed, given again to the same owner, and pays again",
    "a payer is removed, given again to another owner, and pays again",
    "a payer is removed, given again, and does not pay again",
    "a number is removed before it pays, and pays when it is given again",
    "a payer is given three times or more, and pays each time",
    "a payer is removed with nothing left",
    "a charge of 0 is refused between two charges of one payer",
    "a charge of too much is refused between two charges of one payer",
    "a charge is refused between two charges of one payer because nothing runs",
    "a give of a payer's number is refused between two of its charges",
    "timeslice 0 pays",
    "timeslice 127 pays",
    "the first to pay is not in the first line",
    "of two payers the one with the smaller number would come later if they were words",
    "a live timeslice has no line, and another has",
    "a removed number has no line, and another has",
    "a payer has more than 65,535 units",
    "the total is above 65,535, and no payer's units are",
    "the total is above 1,000,000",
    "the total is 613,407,600, the largest",
    "of several payers one has more than 4,294,967 units, a thousand times which is above 4,294,967,295",
    "a line has 28 bytes, the longest",
    "an answer has 3,066 bytes, the longest",
    "the file of an answer with lines has 65,536 bytes",
    "a give changes who pays",
    "a call changes who pays",
    "a reply changes who pays",
    "a block changes who pays",
    "a wake changes who pays",
    "a charge changes who pays",
    "an abort changes who pays",
    "a refill changes who pays",
    "a removal changes who pays",
    "a rank changes who pays",
];

/// Which of `CASES` occur.
fn occur(file: &[u8], answer: &str) -> [bool; CASES.len()] {
    let refused = |number: u8| answer == format!("file {number}\n");
    let would = |number: u8| refused(number) && paid(&mended(file)).1 > 0;
    let events = plain::read(file);
    let good = events.is_ok();
    let h = history(&events.unwrap_or_default());

    // By lines: number, units, parts, remainder.
    let lines: Vec<Vec<u64>> = if good {
        answer.lines().map(|line| line.split(' ').map(|word| word.parse().unwrap()).collect()).collect()
    } else {
        vec![]
    };
    let column = |at: usize| lines.iter().map(move |line| line[at]);
    let total: u64 = column(1).sum();
    let parts: u64 = column(2).sum();
    let several = lines.len() >= 2;
    let has_line = |n: u8| column(0).any(|number| number == n as u64);

    let accepted: Vec<&Charge> = h.charges.iter().filter(|c| c.refusal == 0).collect();
    let some = |holds: &dyn Fn(&Charge) -> bool| accepted.iter().any(|c| holds(c));
    // Two accepted charges to one number, the earlier first.
    let two = |holds: &dyn Fn(&Charge, &Charge) -> bool| {
        accepted.iter().enumerate().any(|(i, a)| accepted[i + 1..].iter().any(|b| a.payer == b.payer && holds(a, b)))
    };
    // Two accepted charges, one after the other, to one number; and a refused one between them.
    let between = |holds: &dyn Fn(&Charge) -> bool| {
        let refused = |a: &Charge, b: &Charge| h.charges.iter().any(|c| c.refusal > 0 && a.at < c.at && c.at < b.at && holds(c));
        accepted.windows(2).any(|two| two[0].payer == two[1].payer && refused(two[0], two[1]))
    };
    let zero = |c: &Charge| c.refusal == 11 && c.amount == 0;
    let too_much = |c: &Charge| c.refusal == 11 && c.amount > 0;
    let nothing = |c: &Charge| c.refusal == 5;
    let all = |holds: &dyn Fn(&Charge) -> bool| !h.charges.is_empty() && h.charges.iter().all(holds);
    let any = |holds: &dyn Fn(&Charge) -> bool| h.charges.iter().any(holds);
    // By numbers that were given: how often, and the tenures in which they paid.
    let given = |holds: &dyn Fn(u8, usize, &BTreeSet<usize>) -> bool| {
        h.owners.iter().any(|(n, owners)| {
            let paid = accepted.iter().filter(|c| c.payer == *n).map(|c| c.tenure).collect();
            holds(*n, owners.len(), &paid)
        })
    };
    let not_given = |a: &Charge, b: &Charge| h.not_given.iter().any(|(at, n)| a.at < *at && *at < b.at && *n == a.payer);
    let numbers: Vec<u64> = column(0).collect();
    let mut units: Vec<u64> = column(1).collect();
    units.sort();
    let changed = |kind: &str| h.changed[KINDS.iter().position(|k| *k == kind).unwrap()];
    [
        refused(14),
        refused(15),
        refused(16),
        would(14),
        would(15),
        would(16),
        good && h.events == 0 && answer.is_empty(),
        good && h.events > 0 && h.charges.is_empty() && answer.is_empty(),
        all(&zero) && answer.is_empty(),
        all(&too_much) && answer.is_empty(),
        all(&nothing) && answer.is_empty(),
        all(&|c| c.refusal > 0) && any(&nothing) && any(&|c| c.refusal == 11) && answer.is_empty(),
        lines.len() == 1 && lines[0][2..] == [1000, 0],
        several,
        lines.len() == 128,
        several && column(3).any(|remainder| remainder == 0),
        column(3).any(|remainder| remainder > 0),
        several && parts == 1000,
        several && parts < 1000,
        column(2).any(|parts| parts == 0),
        column(2).any(|parts| parts == 999),
        column(3).any(|remainder| 2 * remainder >= total),
        units.windows(2).any(|two| two[0] == two[1]),
        some(&|c| c.depletes && c.after.is_some()),
        some(&|c| c.depletes && c.after.is_none()),
        two(&|a, b| a.tenure == b.tenure && a.refills < b.refills),
        some(&|c| c.donated && !c.helped),
        some(&|c| c.donated && c.helped),
        some(&|c| c.own),
        some(&|c| c.payer != c.owner),
        given(&|n, times, paid| paid.contains(&times) && !h.live.contains(&n) && has_line(n)),
        two(&|a, b| a.tenure < b.tenure && a.owner == b.owner),
        two(&|a, b| a.tenure < b.tenure && a.owner != b.owner),
        given(&|_, times, paid| paid.last().is_some_and(|last| *last < times)),
        given(&|_, _, paid| paid.first().is_some_and(|first| *first > 1)),
        given(&|_, times, paid| times >= 3 && paid.len() == times),
        h.removed_spent,
        between(&zero),
        between(&too_much),
        between(&nothing),
        two(&not_given),
        has_line(0),
        has_line(127),
        accepted.first().is_some_and(|c| c.payer as u64 != numbers[0]),
        numbers.windows(2).any(|two| two[0].to_string() > two[1].to_string()),
        several && h.live.iter().any(|n| !has_line(*n)),
        several && given(&|n, _, _| !h.live.contains(&n) && !has_line(n)),
        column(1).any(|units| units > 65_535),
        total > 65_535 && column(1).all(|units| units <= 65_535),
        total > 1_000_000,
        total == 613_407_600,
        several && column(1).any(|units| 1000 * units > u32::MAX as u64),
        good && answer.lines().any(|line| line.len() + 1 == 28),
        good && answer.len() == 3066,
        !lines.is_empty() && file.len() == 65_536,
        changed("give"),
        changed("call"),
        changed("reply"),
        changed("block"),
        changed("wake"),
        changed("charge"),
        changed("abort"),
        changed("refill"),
        changed("remove"),
        changed("rank"),
    ]
}

/// Fails where one of the cases never occurs. With `each`, says how often each does.
fn count(files: &Path, answers: &Path, each: bool) -> std::io::Result<bool> {
    let (mut times, mut all, mut accepted, mut lines) = ([0; CASES.len()], 0, 0, 0);
    for entry in std::fs::read_dir(files)? {
        let path = entry?.path();
        let answer = std::fs::read_to_string(answers.join(path.file_name().unwrap()))?;
        for (times, occurs) in times.iter_mut().zip(occur(&std::fs::read(&path)?, &answer)) {
            *times += occurs as usize;
        }
        all += 1;
        if !answer.starts_with("file") {
            accepted += 1;
            lines += answer.lines().count();
        }
    }
    for (case, times) in CASES.iter().zip(times) {
        if times == 0 {
            println!("it never occurs that {case}");
        } else if each {
            println!("{times:5} {case}");
        }
    }
    let occur = times.iter().filter(|times| **times > 0).count();
    println!("{occur} of {} cases occur; of {all} files {accepted} are accepted, and {lines} lines are printed", CASES.len());
    Ok(occur == CASES.len())
}

fn main() -> std::io::Result<()> {
    let arguments: Vec<String> = std::env::args().collect();
    let words: Vec<&str> = arguments[1..].iter().map(String::as_str).collect();
    match words[..] {
        ["-o", folder, ref files @ ..] => {
            for file in files.iter().map(Path::new) {
                std::fs::write(Path::new(folder).join(file.file_name().unwrap()), answer(&std::fs::read(file)?))?;
            }
        }
        ["-n", seed, count, folder] => {
            let (seed, count): (u64, usize) = (seed.parse().expect("a seed"), count.parse().expect("a count"));
            for i in 0..count {
                let own = Random(seed.wrapping_mul(0x1_0000_0001).wrapping_add(i as u64)).next();
                std::fs::write(Path::new(folder).join(format!("shares-{i:05}")), list(own, i))?;
            }
        }
        [word @ ("-c" | "-C"), files, answers] => {
            if !count(Path::new(files), Path::new(answers), word == "-C")? {
                std::process::exit(1);
            }
        }
        _ => {
            let mut file = Vec::new();
            std::io::stdin().read_to_end(&mut file)?;
            std::io::stdout().write_all(answer(&file).as_bytes())?;
        }
    }
    Ok(())
}
