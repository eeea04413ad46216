//! The program `shorten` of request [11]: a shorter list with the same refusal. The plain machine of `plain.rs` runs the lists, each from
//! the empty machine; long lists are shortened with the machine of `key.rs` and some of its states kept, short ones both ways, and both
//! must do the same. Of every result it is asked what the request says of it; if that fails, the question is about the documents.
//!
//! An input is a refusal number in one byte and an event file behind it. An answer is an event file, or the line `file N`.
//! `shorten` reads an input from standard input and writes the answer to standard output.
//! `shorten -o FOLDER INPUT...` writes the answer for each input to FOLDER, under the input's own name.
//! `shorten -n SEED COUNT FOLDER` makes inputs. The same arguments give the same inputs.
//! `shorten -c INPUTS ANSWERS`: two folders. Says in how many inputs each case of `refused_cases` and `result_cases` occurs. What never
//! occurs gets a sentence; then the exit status is 1.
//! `shorten -t INPUTS ANSWERS NAME...` makes inputs for measuring, with their answers, in two folders, and prints for each: its name,
//! bytes of the file, events, number, events left, passes. The number occurs at the last event alone. Without names: prints all names.

#[allow(dead_code)]
#[path = "key.rs"]
mod key;
#[allow(dead_code)]
#[path = "plain.rs"]
mod plain;

use key::Machine;
use plain::{Event, Hold, Plain};
use std::collections::BTreeSet;
use std::io::{Read, Write};
use std::path::Path;

/// The numbers with which an event can be refused. 1 never arises from the empty machine; the others are not of events.
const NUMBERS: [u8; 13] = [2, 3, 4, 5, 6, 7, 8, 9, 10, 11, 12, 13, 18];

/// Lists are shortened by the plain procedure too if no more than so many events are tried in all passes.
const SHORT: usize = 2_000;

/// What the procedure does with a list. Events are named by where they stand in the file, from 0.
#[derive(PartialEq)]
struct Run {
    kept: Vec<usize>,
    /// What each pass left out. The last pass left out none.
    passes: Vec<Vec<usize>>,
}

/// "Some event is still refused with that number": the list is run from the empty machine. 0 is no refusal.
fn refused(events: &[Event], list: &[usize], number: u8) -> bool {
    let mut m = Plain::empty();
    number != 0 && list.iter().any(|at| m.step(&events[*at]) == number)
}

/// "Events are tried from the last to the first, each left out if such a refusal remains": in the list as shortened so far. Those before
/// the one tried are still where they were when the pass began.
fn pass(list: &mut Vec<usize>, remains: &dyn Fn(&[usize]) -> bool) -> Vec<usize> {
    let mut out = Vec::new();
    for at in (0..list.len()).rev() {
        let event = list.remove(at);
        if remains(list) {
            out.push(event);
        } else {
            list.insert(at, event);
        }
    }
    out
}

/// "Over and over until a whole pass leaves out none."
fn over_and_over(events: usize, mut pass: impl FnMut(&mut Vec<usize>) -> Vec<usize>) -> Run {
    let mut run = Run { kept: (0..events).collect(), passes: Vec::new() };
    loop {
        let out = pass(&mut run.kept);
        let none = out.is_empty();
        run.passes.push(out);
        if none {
            return run;
        }
    }
}

fn step(m: &mut Machine, record: &[u8]) -> u8 {
    m.next(record).expect("a whole record").0.refusal
}

/// The same pass as `pass`. The events before the one tried are unchanged, so the machine before each sixteenth of them is kept.
fn quick_pass(list: &mut Vec<usize>, records: &[&[u8]], number: u8) -> Vec<usize> {
    const APART: usize = 16;
    let (mut before, mut m, mut first) = (Vec::new(), Machine::new(), list.len());
    for (at, event) in list.iter().enumerate() {
        if at % APART == 0 {
            before.push(m.clone());
        }
        if step(&mut m, records[*event]) == number {
            first = first.min(at);
        }
    }
    // Of the events that were tried: those left out, and those kept, the last first.
    let (mut out, mut kept): (Vec<usize>, Vec<usize>) = (Vec::new(), Vec::new());
    for at in (0..list.len()).rev() {
        let mut remains = first < at;
        if !remains {
            let mut m = before[at / APART].clone();
            for event in &list[at / APART * APART..at] {
                step(&mut m, records[*event]);
            }
            remains = kept.iter().rev().any(|event| step(&mut m, records[*event]) == number);
        }
        if remains { &mut out } else { &mut kept }.push(list[at]);
    }
    kept.reverse();
    *list = kept;
    out
}

/// The records of a good file, one by one.
fn records(file: &[u8]) -> Vec<&[u8]> {
    let (mut all, mut rest) = (Vec::new(), &file[5..]);
    while let [length, ..] = rest {
        let (record, tail) = rest.split_at(1 + *length as usize);
        all.push(record);
        rest = tail;
    }
    all
}

fn file_of(records: &[&[u8]]) -> Vec<u8> {
    let records = records.concat();
    [&(records.len() as u32 + 1).to_be_bytes(), &[1][..], &records].concat()
}

/// With which numbers the events of a list are refused.
fn refusals(records: &[&[u8]]) -> Vec<u8> {
    let mut m = Machine::new();
    records.iter().map(|record| step(&mut m, record)).collect()
}

fn short(run: &Run, records: usize) -> bool {
    run.passes.len() * records <= SHORT
}

/// The whole procedure, or the refusal of the file: "26, no event of the file is refused with that number, after 14, 15 and 16".
fn shorten(number: u8, file: &[u8]) -> Result<Run, u8> {
    let events = plain::read(file)?;
    let records = records(file);
    if number == 0 || !refusals(&records).contains(&number) {
        return Err(26);
    }
    let run = over_and_over(events.len(), |list| quick_pass(list, &records, number));
    if short(&run, records.len()) {
        let remains = |list: &[usize]| refused(&events, list, number);
        assert!(run == over_and_over(events.len(), |list| pass(list, &remains)), "both machines shorten a list in the same way");
    }
    Ok(run)
}

/// What the request says of the file written, asked of its bytes alone; and what follows from that.
fn ask(number: u8, file: &[u8], answer: &[u8]) {
    assert!(plain::read(answer).is_ok(), "the answer is an event file");
    let (old, new) = (records(file), records(answer));
    let mut rest = old.iter();
    assert!(new.iter().all(|record| rest.any(|other| other == record)), "some of its events, in their old order");
    let refusals = |without: usize| {
        let mut m = Machine::new();
        let list = new.iter().enumerate().filter(move |(at, _)| *at != without);
        list.map(move |(_, record)| step(&mut m, record))
    };
    let all: Vec<u8> = refusals(usize::MAX).collect();
    assert!(all.contains(&number), "some event is still refused with that number");
    for at in 0..new.len() {
        assert!(refusals(at).all(|refusal| refusal != number), "taking out any single event leaves a list where none is");
    }
    // A refused event changes nothing, so it could be taken out, and so could those behind the one asked for.
    let last = all.len() - 1;
    assert!(all[last] == number && all[..last].iter().all(|refusal| *refusal == 0), "the last event is refused, and no other");
}

/// The answer, and what was done for it.
fn answered(input: &[u8]) -> (Vec<u8>, Option<Run>) {
    // "An empty input is 14."
    let run = match input.split_first().ok_or(14).and_then(|(number, file)| shorten(*number, file)) {
        Err(refusal) => return (format!("file {refusal}\n").into_bytes(), None),
        Ok(run) => run,
    };
    let (number, file) = (input[0], &input[1..]);
    let records = records(file);
    let answer = file_of(&run.kept.iter().map(|at| records[*at]).collect::<Vec<_>>());
    ask(number, file, &answer);
    // In the first pass nothing is gone yet before the event that is tried. So it goes if it stands behind a refusal with the number, or
    // is refused with another.
    let all = refusals(&records);
    let first = all.iter().position(|refusal| *refusal == number).unwrap();
    assert!(run.kept.iter().all(|at| *at == first || *at < first && all[*at] == 0), "others go in the first pass");
    (answer, Some(run))
}

fn answer(input: &[u8]) -> Vec<u8> {
    answered(input).0
}

/// splitmix64
struct Random(u64);

impl Random {
    fn next(&mut self) -> u64 {
        self.0 = self.0.wrapping_add(0x9E37_79B9_7F4A_7C15);
        let mut z = self.0;
        z = (z ^ (z >> 30)).wrapping_mul(0xBF58_476D_1CE4_E5B9);
        z = (z ^ (z >> 27)).wrapping_mul(0x94D0_49BB_1331_11EB);
        z ^ (z >> 31)
    }

    /// 0 to n - 1
    fn below(&mut self, n: usize) -> usize {
        (self.next() >> 11) as usize % n
    }

    /// a to b
    fn range(&mut self, a: usize, b: usize) -> usize {
        a + self.below(b - a + 1)
    }

    fn percent(&mut self, p: usize) -> bool {
        self.below(100) < p
    }

    fn pick<T: Copy>(&mut self, from: &[T]) -> Option<T> {
        if from.is_empty() { None } else { Some(from[self.below(from.len())]) }
    }

    /// So many of the numbers 0 to 127, in any order. Both ends of the range are common.
    fn numbers(&mut self, many: usize) -> Vec<u8> {
        let mut all: Vec<u8> = (0..128).collect();
        for i in (1..all.len()).rev() {
            all.swap(i, self.below(i + 1));
        }
        for end in [0, 127] {
            let (from, to) = (all.iter().position(|n| *n == end).unwrap(), self.below(2 * many));
            all.swap(from, to.min(127));
        }
        all.truncate(many);
        all
    }
}

// The events in short.
fn client(thread: u8) -> Event {
    Event::Create { thread, server: false }
}
fn server(thread: u8) -> Event {
    Event::Create { thread, server: true }
}
fn give(timeslice: u8, thread: u8, priority: u8, quantum: u16) -> Event {
    Event::Give { timeslice, thread, priority, quantum }
}
fn call(server: u8) -> Event {
    Event::Call { server }
}
fn wake(thread: u8) -> Event {
    Event::Wake { thread }
}
fn charge(amount: u16) -> Event {
    Event::Charge { amount }
}
fn abort(thread: u8) -> Event {
    Event::Abort { thread }
}
fn refill(timeslice: u8) -> Event {
    Event::Refill { timeslice }
}
fn remove(thread: u8) -> Event {
    Event::Remove { thread }
}
fn rank(timeslice: u8, priority: u8) -> Event {
    Event::Rank { timeslice, priority }
}

fn record(event: &Event) -> Vec<u8> {
    let two = |n: u16| n.to_be_bytes();
    match *event {
        Event::Create { thread, server } => vec![3, 1, thread, server as u8],
        Event::Give { timeslice, thread, priority, quantum } => {
            vec![6, 2, timeslice, thread, priority, two(quantum)[0], two(quantum)[1]]
        }
        Event::Call { server } => vec![2, 3, server],
        Event::Reply => vec![1, 4],
        Event::Block => vec![1, 5],
        Event::Wake { thread } => vec![2, 6, thread],
        Event::Charge { amount } => vec![3, 7, two(amount)[0], two(amount)[1]],
        Event::Abort { thread } => vec![2, 8, thread],
        Event::Refill { timeslice } => vec![2, 9, timeslice],
        Event::Remove { thread } => vec![2, 10, thread],
        Event::Rank { timeslice, priority } => vec![3, 11, timeslice, priority],
    }
}

fn input_of(number: u8, events: &[Event]) -> Vec<u8> {
    let records: Vec<Vec<u8>> = events.iter().map(record).collect();
    let file = file_of(&records.iter().map(Vec::as_slice).collect::<Vec<_>>());
    [&[number][..], &file].concat()
}

/// A list in the making. The machine runs along, so that events can be chosen by what would happen.
struct List {
    random: Random,
    machine: Plain,
    events: Vec<Event>,
    bytes: usize,
    /// An event that is refused with this number is dropped: it would have changed nothing.
    spared: u8,
    /// The numbers that threads and timeslices have. They are few, so that removed ones come again.
    threads: Vec<u8>,
    numbers: Vec<u8>,
    /// A number that is none of these; 128 where they are all.
    strange: u8,
    servers: BTreeSet<u8>,
    /// Servers among a hundred threads.
    percent: usize,
    priorities: Vec<u8>,
    quanta: Vec<u16>,
    /// Events among a hundred that are refused.
    wrong: usize,
}

impl List {
    fn new(mut random: Random, threads: usize, timeslices: usize) -> List {
        let (threads, numbers) = (random.numbers(threads), random.numbers(timeslices));
        let priorities = (0..random.range(1, 4)).map(|_| random.pick(&[0, 1, 10, 20, 128, 255]).unwrap()).collect();
        let quanta = random.pick(&[&[1, 2, 3][..], &[1, 5], &[5, 10, 100], &[100, 65_535]]).unwrap().to_vec();
        List {
            percent: random.range(30, 70),
            random,
            machine: Plain::empty(),
            events: Vec::new(),
            bytes: 5,
            spared: 0,
            strange: (0..128).find(|n| !threads.contains(n) && !numbers.contains(n)).unwrap_or(128),
            threads,
            numbers,
            servers: BTreeSet::new(),
            priorities,
            quanta,
            wrong: 0,
        }
    }

    /// Hands back the refusal.
    fn add(&mut self, event: Event) -> u8 {
        let refusal = self.machine.step(&event);
        if refusal > 0 && refusal == self.spared {
            return refusal;
        }
        if let (Event::Create { thread, server }, 0) = (&event, refusal) {
            self.servers.remove(thread);
            if *server {
                self.servers.insert(*thread);
            }
        }
        self.bytes += record(&event).len();
        self.events.push(event);
        refusal
    }

    fn running(&self) -> Option<u8> {
        self.machine.runs.map(|runs| runs.thread)
    }

    /// What is left of the current timeslice.
    fn left(&self) -> Option<u16> {
        self.machine.runs.map(|runs| self.machine.timeslices[&runs.timeslice].left)
    }

    /// The threads with such a hold.
    fn held(&self, holds: impl Fn(Hold) -> bool) -> Vec<u8> {
        self.machine.threads.iter().filter(|(_, thread)| holds(thread.hold)).map(|(number, _)| *number).collect()
    }

    /// The live threads; those of the list's numbers that are free.
    fn live(&self) -> (Vec<u8>, Vec<u8>) {
        let live = |t: &u8| self.machine.threads.contains_key(t);
        self.threads.iter().partition(|t| live(t))
    }

    /// The live timeslices; the free ones.
    fn given(&self) -> (Vec<u8>, Vec<u8>) {
        self.numbers.iter().partition(|n| self.machine.timeslices.contains_key(n))
    }

    /// The live threads with a timeslice, and those without.
    fn owners(&self) -> (Vec<u8>, Vec<u8>) {
        let owners: BTreeSet<u8> = self.machine.timeslices.values().map(|timeslice| timeslice.owner).collect();
        self.live().0.into_iter().partition(|t| owners.contains(t))
    }

    /// The Spent timeslices, and the others.
    fn spent(&self) -> (Vec<u8>, Vec<u8>) {
        self.given().0.into_iter().partition(|n| self.machine.timeslices[n].left == 0)
    }

    fn give(&mut self) -> Option<Event> {
        let (timeslice, thread) = (self.random.pick(&self.given().1)?, self.random.pick(&self.owners().1)?);
        let (priority, quantum) = (self.random.pick(&self.priorities)?, self.random.pick(&self.quanta)?);
        Some(give(timeslice, thread, priority, quantum))
    }

    fn charge(&mut self) -> Option<Event> {
        let left = self.left()? as usize;
        let amount = if self.random.percent(40) { left } else { self.random.range(1, left) };
        Some(charge(amount as u16))
    }

    fn call(&mut self) -> Option<Event> {
        let running = self.running()?;
        let others: Vec<u8> = self.servers.iter().copied().filter(|s| *s != running && self.machine.threads.contains_key(s)).collect();
        let idle: Vec<u8> = others.iter().copied().filter(|s| self.machine.threads[s].hold == Hold::Idle).collect();
        let from = if self.random.percent(50) { idle } else { others };
        self.random.pick(&from).map(call)
    }

    /// An event that is accepted now, if the dice find one.
    fn sensible(&mut self) -> Option<Event> {
        let runs = self.running();
        // Where nothing runs few events are of use.
        let dice = if runs.is_none() && self.random.percent(85) { self.random.range(50, 99) } else { self.random.below(100) };
        let linked = |hold| matches!(hold, Hold::Calling(_) | Hold::Helping(_));
        match dice {
            0..=14 => self.charge(),
            15..=34 => self.call(),
            35..=42 if self.servers.contains(&runs?) => Some(Event::Reply),
            43..=49 => Some(Event::Block),
            50..=57 => self.random.pick(&self.spent().0).map(refill),
            58..=67 => self.random.pick(&self.held(|hold| hold == Hold::Blocked)).map(wake),
            68..=73 => self.random.pick(&self.held(linked)).map(abort),
            74..=76 => self.random.pick(&self.live().0).map(remove),
            77..=83 => {
                let thread = self.random.pick(&self.live().1)?;
                Some(Event::Create { thread, server: self.random.percent(self.percent) })
            }
            84..=91 => self.give(),
            _ => Some(rank(self.random.pick(&self.given().0)?, self.random.pick(&self.priorities)?)),
        }
    }

    /// Events of every kind that the number allows, refused with it now; some may not be.
    fn refusals(&mut self, number: u8) -> Vec<Event> {
        let ((live, mut free), (given, mut ungiven)) = (self.live(), self.given());
        free.push(self.strange);
        ungiven.push(self.strange);
        let clients: Vec<u8> = live.iter().copied().filter(|t| !self.servers.contains(t)).collect();
        let sets = [live, free, given, ungiven, self.owners().0, self.spent().1, clients];
        let (runs, left) = (self.running(), self.left().unwrap_or(0));
        let r = &mut self.random;
        let high = r.range(128, 255) as u8;
        let [alive, dead, old, new, owner, full, a_client] = sets.map(|from| r.pick(&from).unwrap_or(high));
        let (p, q, more) = (r.pick(&self.priorities).unwrap(), r.below(3) as u16, left.saturating_add(r.range(1, 3) as u16));
        match number {
            2 => vec![
                client(high), give(high, alive, p, q), give(new, high, p, q), call(high), wake(high), abort(high), refill(high),
                remove(high), rank(high, p),
            ],
            3 => vec![client(alive), server(alive), give(old, alive, p, q), give(old, dead, p, 0)],
            4 => vec![give(new, dead, p, q), call(dead), wake(dead), abort(dead), refill(new), remove(dead), rank(new, p)],
            5 => vec![call(r.pick(&[alive, dead, high]).unwrap()), Event::Reply, Event::Block, charge(q)],
            6 => vec![call(a_client)],
            7 => vec![call(runs.unwrap_or(high))],
            8 => vec![Event::Reply],
            9 => vec![wake(alive)],
            10 => vec![abort(alive)],
            11 => vec![charge(0), charge(more), charge(65_535)],
            12 => vec![give(new, alive, p, 0)],
            13 => vec![give(new, owner, p, q)],
            _ => vec![refill(full)],
        }
    }

    /// An event of that kind (0: of any) that is to be refused with the number.
    fn wrong(&mut self, number: u8, kind: u8) -> Event {
        let mut events = self.refusals(number);
        events.retain(|event| kind == 0 || record(event)[1] == kind);
        events.swap_remove(self.random.below(events.len()))
    }

    fn step(&mut self) {
        for _ in 0..8 {
            let event = if self.random.percent(self.wrong) {
                let number = self.random.pick(&NUMBERS).unwrap();
                Some(self.wrong(number, 0))
            } else {
                self.sensible()
            };
            if let Some(event) = event {
                self.add(event);
                return;
            }
        }
    }

    /// Adds events until one of that kind is refused with the number, spared till then. Says whether that came about.
    fn until(&mut self, number: u8, kind: u8) -> bool {
        for _ in 0..100 {
            self.spared = 0;
            let event = self.wrong(number, kind);
            if self.add(event) == number {
                return true;
            }
            self.spared = number;
            self.step();
        }
        false
    }

    /// The threads, but so many of a hundred; most of them with a timeslice.
    fn begin(&mut self, missing: usize) {
        for _ in 0..self.threads.len() {
            if self.random.percent(missing) {
                continue;
            }
            let thread = self.random.pick(&self.live().1).unwrap();
            let server = self.random.percent(self.percent);
            self.add(Event::Create { thread, server });
            if self.random.percent(70) {
                if let Some(event) = self.give() {
                    self.add(event);
                }
            }
        }
    }
}

/// What a lively list is to be like.
struct Lively {
    number: u8,
    /// The kind of the event that is refused with it, by its kind byte; 0 is any.
    kind: u8,
    /// Events before the one that is refused with the number.
    steps: usize,
    /// Events among a hundred that are refused on purpose.
    wrong: usize,
    /// None is refused with the number before it.
    spared: bool,
    /// Events behind it.
    more: usize,
}

fn lively(mut r: Random, like: &Lively) -> Vec<Event> {
    let (threads, timeslices) = match r.below(10) {
        0..=4 => (r.range(2, 4), r.range(1, 3)),
        5..=8 => (r.range(3, 8), r.range(2, 6)),
        _ => (r.range(9, 24), r.range(4, 16)),
    };
    let mut list = List::new(r, threads, timeslices);
    list.spared = if like.spared { like.number } else { 0 };
    list.wrong = like.wrong;
    list.begin(15);
    for _ in 0..like.steps {
        list.step();
    }
    list.until(like.number, like.kind);
    list.spared = 0;
    for _ in 0..like.more {
        list.step();
    }
    list.events
}

/// A list for 7 that needs many passes. Server s runs for timeslice 1, which stands above 0; above that stand 2 to `top`, each with a
/// smaller quantum. They are depleted in turn, the topmost by `ones` charges of 1; then s calls itself. If one of them is missing or at
/// the wrong place, a charge falls on the next and takes too little; from then on all charges are too large, and another thread calls s.
/// Before the charges, 0 is ranked above 1, so 1 is ranked above 2, and so on: each of these but the first is needed until the one before
/// it has gone. So each of `ranked` passes leaves out a rank; with 0 there is no timeslice 0, and nothing can be left out.
fn passes(r: &mut Random, top: usize, ranked: usize, ones: usize) -> Vec<Event> {
    let (threads, numbers) = (r.numbers(top + 2), r.numbers(top + 1));
    let (s, least) = (threads[top + 1], r.range(1, 20));
    // The charge for 2, if it falls on 1, depletes that.
    let quantum = |t: usize| (if ones > 0 { ones } else { least } + top - t.max(2).min(top)) as u16;
    let mut list = vec![server(s)];
    for t in [1, 0].into_iter().chain(2..top + 1).filter(|t| *t > 0 || ranked > 0) {
        list.push(client(threads[t]));
        list.push(give(numbers[t], threads[t], 2 * t as u8, quantum(t)));
        if t == 1 {
            list.push(call(s));
        }
    }
    // The last stays below the next one, its equal then, which is earlier in turn order.
    for t in 0..ranked {
        list.push(rank(numbers[t], 2 * t as u8 + if t + 1 < ranked { 3 } else { 2 }));
    }
    for t in (2..top + 1).rev() {
        if t == top && ones > 0 {
            list.extend((0..ones).map(|_| charge(1)));
        } else {
            list.push(charge(quantum(t)));
        }
    }
    list.push(call(s));
    list
}

/// The first timeslice must stand above the other at the block; then the other is charged, and has too little: 11. The first is ranked
/// above the other, the other above it, and it again. When the last rank is tried it is needed. The second goes; then one of the others is
/// enough, and in the same pass the earlier one is tried. Without the second rank the last one goes.
fn alternatives(r: &mut Random, three: bool) -> Vec<Event> {
    let (t, n) = (r.numbers(2), r.numbers(2));
    let (low, quantum) = (r.range(0, 100) as u8, r.range(1, 100) as u16);
    let mut list = vec![client(t[0]), client(t[1]), give(n[0], t[0], low, quantum + 50), give(n[1], t[1], low + 10, quantum)];
    list.push(rank(n[0], low + r.range(11, 50) as u8));
    if three {
        list.push(rank(n[1], low + r.range(51, 90) as u8));
    }
    list.push(rank(n[0], low + r.range(91, 150) as u8));
    list.extend([Event::Block, charge(quantum + r.range(1, 50) as u16)]);
    list
}

/// What one event spoils the next one mends: the second of a pair can go only when the first has gone, and that is tried later. The number
/// is 8, 11, 7 or 18, by turns; in the end the client, or the server that it called, runs.
fn pairs(r: &mut Random, turn: usize, many: usize) -> (u8, Vec<Event>) {
    let (t, n, quantum) = (r.numbers(2), r.numbers(1)[0], r.range(2, 50) as u16);
    let mut list = vec![client(t[0]), server(t[1]), give(n, t[0], 10, quantum)];
    let calls = turn % 4 == 2;
    if calls {
        list.push(call(t[1]));
    }
    let running = t[calls as usize];
    for _ in 0..many {
        match r.below(if calls { 2 } else { 4 }) {
            0 => list.extend([Event::Block, wake(running)]),
            1 => list.extend([charge(quantum), refill(n)]),
            2 => list.extend([call(t[1]), Event::Reply]),
            _ => list.extend([call(t[1]), abort(t[0]), Event::Block, wake(t[0])]),
        }
    }
    let (number, last) = match turn % 4 {
        0 => (8, Event::Reply),
        1 => (11, charge(quantum + 1)),
        2 => (7, call(t[1])),
        _ => (18, refill(n)),
    };
    list.push(last);
    (number, list)
}

/// Lists for 7 of which nothing can be left out, with a reply, wake, abort, remove or refill, by turns, that mends what is spoilt: between
/// the two something happens that could not happen otherwise. Server s runs for timeslice 0, and others call it as helpers. Turn 0: it
/// calls other servers; without a call it would reply itself. Else 2 is put out of the way, 1 is depleted, 2 comes back and is put out of
/// the way again: if it did not come back, s itself would be blocked.
fn needed(r: &mut Random, turn: usize) -> Vec<Event> {
    let (t, n) = (r.numbers(8), r.numbers(3));
    let (s, u) = (t[3], t[4]);
    let (few, low) = (r.range(1, 50) as u16, r.range(0, 100) as u8);
    let mut list = vec![server(s), client(t[0]), give(n[0], t[0], low, few), call(s)];
    if turn % 5 > 0 {
        list.extend([client(t[1]), give(n[1], t[1], low + 1, few), client(t[2]), give(n[2], t[2], low + 2, 2 * few), server(u)]);
    }
    match turn % 5 {
        0 => t[4..r.range(5, 8)].iter().for_each(|u| list.extend([server(*u), call(*u), Event::Reply])),
        1 => list.extend([Event::Block, charge(few), wake(t[2]), Event::Block]),
        2 => list.extend([call(u), Event::Block, charge(few), abort(t[2]), Event::Block]),
        3 => list.extend([call(u), Event::Block, charge(few), remove(u), Event::Block]),
        _ => list.extend([charge(2 * few), charge(few), refill(n[2]), Event::Block]),
    }
    list.push(call(s));
    list
}

/// Puts events between the others that are refused with 2 wherever they stand.
fn between(r: &mut Random, list: &mut Vec<Event>, many: usize) {
    for _ in 0..many {
        let high = r.range(128, 255) as u8;
        let events = [client(high), give(high, 0, 10, 1), wake(high), abort(high), refill(high), remove(high), rank(high, 1)];
        let event = events.into_iter().nth(r.below(7)).unwrap();
        list.insert(r.below(list.len() + 1), event);
    }
}

/// A good file with one fault, by turns, or with two.
fn damaged(r: &mut Random, file: &mut Vec<u8>, turn: usize) {
    let mut starts = vec![5];
    for record in records(file) {
        starts.push(starts.last().unwrap() + record.len());
    }
    let end = starts.pop().unwrap();
    let start = r.pick(&starts).unwrap();
    match turn % 13 {
        0 => file.push(r.next() as u8),
        1 => file.truncate(r.range(4, end - 1)),
        2 => file[..4].copy_from_slice(&[0; 4]),
        3 => file[r.below(2)] = 1,
        4 => file[4] = r.pick(&[0, 2, 3, 255]).unwrap(),
        5 => file[start + 1] = r.pick(&[0, 12, 13, 19, 255]).unwrap(),
        6 => file[start] = file[start].wrapping_add(r.pick(&[1, 128, 255]).unwrap()),
        7 => file[start] = 0,
        8 => file.extend([3, 1, 5, 2]),
        9 => file.extend([6, 2, 1, 1, 1]),
        10 => file.push(1),
        11 => {
            file[4] = 2;
            file.push(9);
        }
        _ => {
            file[4] = 2;
            file.extend([1, 12]);
        }
    }
    // Behind the first faults the length field is right, so that the fault is in what it counts.
    if turn % 13 > 3 && turn % 13 != 11 {
        let length = file.len() as u32 - 4;
        file[..4].copy_from_slice(&length.to_be_bytes());
    }
}

/// Inputs that are too short for a list, or have the shortest ones.
fn small(number: u8, turn: usize) -> Vec<u8> {
    let file: &[u8] = match turn % 13 {
        0 => return vec![],
        1 => &[],
        2 => &[0],
        3 => &[0, 0, 0],
        4 => &[0, 0, 0, 0],
        5 => &[0, 0, 0, 1],
        6 => &[0, 0, 0, 1, 1],
        7 => &[0, 0, 0, 1, 2],
        8 => &[0, 0, 0, 2, 1, 0],
        9 => &[0, 0, 0, 0, 1],
        10 => return vec![5, 0, 0, 0, 3, 1, 1, 4 + (number & 1)],
        11 => return vec![0, 0, 0, 0, 5, 1, 1, 4, 1, 5],
        _ => &[0, 0, 0, 3, 1, 1, 4],
    };
    [&[number][..], file].concat()
}

/// The number of passes that a list takes, and how many events it keeps; 0 where it has no such refusal.
fn measure(number: u8, list: &[Event]) -> (usize, usize) {
    shorten(number, &input_of(number, list)[1..]).map_or((0, 0), |run| (run.passes.len(), run.kept.len()))
}

/// Inputs that have no result, or are small.
fn without_result(mut r: Random, kind: usize, turn: usize, like: &Lively) -> Vec<u8> {
    let number = like.number;
    match kind {
        0 => input_of((turn % 2) as u8, &lively(r, like)),
        1 => {
            let other = [14, 15, 16, 17, 19, 26, 255, r.range(20, 254) as u8][turn % 8];
            input_of(other, &lively(r, like))
        }
        // An event could be refused with it, and none is.
        2 => {
            let mut list = List::new(r, 5, 4);
            (list.spared, list.wrong) = (number, 20);
            list.begin(15);
            (0..like.steps).for_each(|_| list.step());
            input_of(number, &list.events)
        }
        3 | 4 => {
            let mut file = input_of(0, &lively(Random(r.next()), like)).split_off(1);
            damaged(&mut r, &mut file, 2 * turn + kind);
            let fault = plain::read(&file).err().expect("a fault");
            [vec![[number, 0, 255, fault][turn % 4]], file].concat()
        }
        _ => small(number, turn),
    }
}

/// Inputs whose lists are built for what is to happen with them.
fn built(mut r: Random, kind: usize, turn: usize) -> Vec<u8> {
    let (number, mut list) = match kind {
        6 | 7 => {
            let top = r.range(1, 14);
            let ranked = if kind == 6 { r.range(0, top + 1) } else { top + 1 };
            let ones = r.pick(&[0, 0, 1, 10, 40]).unwrap();
            (7, passes(&mut r, top, ranked, ones))
        }
        8 if turn % 2 == 0 => (11, alternatives(&mut r, turn % 3 > 0)),
        8 => (7, needed(&mut r, turn / 2)),
        _ => {
            let many = r.range(1, 12);
            pairs(&mut r, turn, many)
        }
    };
    let many = r.pick(&[0, 0, 3, 20]).unwrap();
    between(&mut r, &mut list, many);
    input_of(number, &list)
}

/// Inputs with lively lists.
fn random(mut r: Random, kind: usize, turn: usize, mut like: Lively) -> Vec<u8> {
    let number = like.number;
    match kind {
        // Of several lists the one that takes the most passes, or keeps the most events.
        10 | 11 => {
            (like.spared, like.wrong) = (true, 5);
            let lists = (0..40).map(|_| lively(Random(r.next()), &like));
            let order = |list: &Vec<Event>| {
                let (passes, kept) = measure(number, list);
                if kind == 10 { (passes, kept) } else { (kept, passes) }
            };
            input_of(number, &lists.max_by_key(order).unwrap())
        }
        // An answer, asked for again: nothing can be left out.
        12 => {
            like.spared = true;
            let input = input_of(number, &lively(r, &like));
            let again = answer(&input);
            if again.starts_with(b"file") { input } else { [vec![number], again].concat() }
        }
        13 => {
            (like.steps, like.wrong) = (r.range(240, 290), 5);
            input_of(number, &lively(r, &like))
        }
        // Each kind of event with each of its numbers; and again, with such an event at the beginning of the list too, where nothing runs.
        14 | 15 => {
            let pairs = (1..).zip(REFUSED_WITH).flat_map(|(kind, numbers)| numbers.iter().map(move |number| (kind, *number)));
            let all: Vec<(u8, u8)> = pairs.collect();
            let (round, at) = ((2 * turn + kind) / all.len(), (2 * turn + kind) % all.len());
            let (kind, number) = all[at];
            let first = List::new(Random(r.next()), 3, 3).wrong(number, kind);
            let mut list = lively(r, &Lively { number, kind, spared: true, ..like });
            if round % 2 == 0 {
                list.insert(0, first);
            }
            input_of(number, &list)
        }
        _ => {
            like.spared = r.percent(50);
            like.more = r.pick(&[0, 0, 5, 20]).unwrap();
            input_of(number, &lively(r, &like))
        }
    }
}

/// The kinds of inputs go by turns, and the numbers within each kind.
fn input(seed: u64, index: usize) -> Vec<u8> {
    let mut r = Random(seed);
    let (kind, turn) = (index % 24, index / 24);
    let number = NUMBERS[(turn + kind) % NUMBERS.len()];
    let like = Lively { number, kind: 0, steps: r.range(0, 90), wrong: r.pick(&[0, 5, 20, 50]).unwrap(), spared: false, more: 0 };
    match kind {
        0..=5 => without_result(r, kind, turn, &like),
        6..=9 => built(r, kind, turn),
        _ => random(r, kind, turn, like),
    }
}

/// A list to be measured: so many events, or so many bytes of file.
#[derive(Clone, Copy)]
enum Size {
    Events(usize),
    Bytes(usize),
}

impl Size {
    /// Whether there is room for `steps` events or so.
    fn room(self, list: &List, steps: usize) -> bool {
        match self {
            Size::Events(events) => list.events.len() + steps < events,
            Size::Bytes(bytes) => list.bytes + 10 * steps < bytes,
        }
    }
}

/// The last event goes last again, and before it come events that are refused with 2, until the size is right. (A file with only 1, 2 or
/// 5 bytes of room stays so.)
fn pad(list: &mut Vec<Event>, size: Size) {
    let last = list.pop().unwrap();
    let length = |list: &[Event]| input_of(0, list).len() - 1 + record(&last).len();
    match size {
        Size::Events(events) => (list.len()..events - 1).for_each(|_| list.push(wake(255))),
        Size::Bytes(bytes) => {
            let mut room = bytes.checked_sub(length(list)).expect("room");
            while room >= 3 {
                let long = room == 4 || room % 3 > 0 && room > 6;
                list.push(if long { rank(255, 0) } else { wake(255) });
                room -= if long { 4 } else { 3 };
            }
        }
    }
    list.push(last);
}

/// A lively list with one event that is refused with the number, the last.
fn lively_to(seed: u64, number: u8, threads: usize, timeslices: usize, size: Size) -> Vec<Event> {
    let mut list = List::new(Random(seed), threads, timeslices);
    (list.percent, list.spared) = (50, number);
    list.priorities = vec![5, 10, 10, 20, 200];
    list.quanta = vec![10, 50];
    list.begin(0);
    while let Some(event) = list.give() {
        list.add(event);
    }
    while size.room(&list, 40) {
        list.step();
    }
    assert!(list.until(number, 0), "the number occurs");
    list.events
}

/// So often the same, and the last event; up to the size.
fn again(mut list: Vec<Event>, more: &dyn Fn() -> Vec<Event>, last: Vec<Event>, size: Size) -> Vec<Event> {
    let length = |list: &[Event]| list.iter().map(|event| record(event).len()).sum::<usize>();
    let (each, ends) = (more(), length(&last));
    let many = match size {
        Size::Events(events) => (events - list.len() - last.len()) / each.len(),
        Size::Bytes(bytes) => (bytes - 5 - length(&list) - ends) / length(&each),
    };
    (0..many).for_each(|_| list.extend(more()));
    list.extend(last);
    list
}

/// A chain of 127 links. Over and over its owner is aborted and calls again, as a helper; or the timeslice is depleted and refilled.
fn chain(size: Size) -> Vec<Event> {
    let mut list = vec![client(0)];
    list.extend((1..128).map(server));
    list.push(give(0, 0, 10, 100));
    list.extend((1..128).map(call));
    let more = || vec![abort(0), call(1), abort(0), call(1), charge(100), refill(0), Event::Block, wake(127)];
    again(list, &more, vec![abort(0), Event::Reply], size)
}

const MEASURED: [&str; 18] = [
    "300-lively", "300-many", "300-pairs", "300-spent", "300-whole", "300-passes", "passes-122", "lively", "many", "chain", "replies",
    "blocks", "refills", "removes", "spent", "whole", "whole-127", "passes",
];

/// The number and the list of that name.
fn measured(name: &str) -> (u8, Vec<Event>) {
    let (size, kind) = match name.strip_prefix("300-") {
        Some(kind) => (Size::Events(300), kind),
        None => (Size::Bytes(65_536), name),
    };
    let mut r = Random(11);
    let begin = |quantum| vec![client(0), give(0, 0, 10, quantum)];
    let charges = match size {
        Size::Events(events) => events - 3,
        Size::Bytes(_) => 16_379,
    };
    let (number, mut list) = match kind {
        "lively" => (7, lively_to(1, 7, 6, 4, size)),
        "many" if name == kind => (7, lively_to(2, 7, 128, 128, size)),
        "many" => (7, lively_to(2, 7, 60, 50, size)),
        "chain" => (8, chain(size)),
        // As many events as a file can have: nothing runs, so each of them is refused with 5.
        "replies" => (3, again(vec![client(0), wake(255)], &|| vec![Event::Reply], vec![client(0)], size)),
        "pairs" => (8, again(begin(9), &|| vec![Event::Block, wake(0), charge(9), refill(0)], vec![Event::Reply], size)),
        "blocks" => (8, again(begin(9), &|| vec![Event::Block, wake(0)], vec![Event::Reply], size)),
        "refills" => (11, again(begin(9), &|| vec![charge(9), refill(0)], vec![charge(10)], size)),
        "removes" => (13, again(begin(9), &|| vec![remove(0), client(0), give(0, 0, 10, 9)], vec![give(1, 0, 10, 9)], size)),
        // Nothing is left, and nothing runs at the end. No charge can go before the give has gone.
        "spent" => (5, again(begin(charges as u16), &|| vec![charge(1)], vec![charge(1)], Size::Events(charges + 3))),
        // One is left, and 2 are charged. All charges before are needed.
        "whole" => (11, again(begin(charges as u16 + 1), &|| vec![charge(1)], vec![charge(2)], Size::Events(charges + 3))),
        // The same with 127 threads and 126 timeslices, which are all needed too.
        "whole-127" => (7, passes(&mut r, 126, 0, 15_909)),
        "passes" if name == kind => (7, passes(&mut r, 2, 3, 16_369)),
        "passes" => (7, passes(&mut r, 73, 74, 4)),
        "passes-122" => (7, passes(&mut r, 120, 121, 0)),
        _ => panic!("there is no {name}"),
    };
    if name != "passes-122" {
        pad(&mut list, size);
    }
    (number, list)
}

/// Other ways to read the request. Where one of them gives another list than the program's own reading, the inputs tell the two apart.
#[derive(Clone, Copy)]
enum Reading {
    FromTheFirst,
    OnePass,
    ThreePasses,
    /// After an event is left out, the next tried is the last again.
    Anew,
    /// All that can be left out alone of the list that the pass began with is left out.
    AsItBegan,
    /// The last event of the list is refused.
    TheLast,
    /// Some event is refused, whatever the number.
    Any,
}

const READINGS: [(Reading, &str); 7] = [
    (Reading::FromTheFirst, "from the first to the last"),
    (Reading::OnePass, "one pass only"),
    (Reading::ThreePasses, "three passes only"),
    (Reading::Anew, "a new pass after each event left out"),
    (Reading::AsItBegan, "each tried in the list that the pass began with"),
    (Reading::TheLast, "only the last event's refusal counts"),
    (Reading::Any, "any refusal will do"),
];

fn misread(reading: Reading, events: &[Event], number: u8) -> Vec<usize> {
    let refusals = |list: &[usize]| {
        let mut m = Plain::empty();
        list.iter().map(|at| m.step(&events[*at])).collect::<Vec<u8>>()
    };
    let remains = |list: &[usize]| match reading {
        Reading::TheLast => refusals(list).last() == Some(&number),
        Reading::Any => refusals(list).iter().any(|refusal| *refusal > 0),
        _ => refused(events, list, number),
    };
    let without = |list: &[usize], at: usize| [&list[..at], &list[at + 1..]].concat();
    let mut list: Vec<usize> = (0..events.len()).collect();
    for passes in 1.. {
        let began = list.len();
        match reading {
            Reading::FromTheFirst => {
                let mut at = 0;
                while at < list.len() {
                    let shorter = without(&list, at);
                    if remains(&shorter) {
                        list = shorter;
                    } else {
                        at += 1;
                    }
                }
            }
            Reading::Anew => {
                if let Some(at) = (0..list.len()).rev().find(|at| remains(&without(&list, *at))) {
                    list.remove(at);
                }
            }
            Reading::AsItBegan => {
                list = (0..began).filter(|at| !remains(&without(&list, *at))).map(|at| list[at]).collect();
            }
            _ => {
                pass(&mut list, &remains);
            }
        }
        let enough = matches!((reading, passes), (Reading::OnePass, 1) | (Reading::ThreePasses, 3));
        if enough || list.len() == began {
            break;
        }
    }
    list
}

/// By the kind byte of a record, from 1.
const KINDS: [&str; 11] = ["create", "give", "call", "reply", "block", "wake", "charge", "abort", "refill", "remove", "rank"];

/// A refused file without its faults: the length field and the version are right, and it has the records before the first bad one.
fn mended(file: &[u8]) -> Vec<u8> {
    let (mut good, mut rest) = (Vec::new(), file.get(5..).unwrap_or(&[]));
    while let [length, ..] = rest {
        let Some(record) = rest.get(..1 + *length as usize) else { break };
        if plain::read(&file_of(&[record])).is_err() {
            break;
        }
        good.push(record);
        rest = &rest[record.len()..];
    }
    file_of(&good)
}

/// What must occur of refused inputs.
fn refused_cases(input: &[u8], answer: &[u8]) -> Vec<(String, bool)> {
    let says = |number: u8| answer == format!("file {number}\n").as_bytes();
    let number = input.first().copied();
    let file = input.get(1..).unwrap_or(&[]);
    let good = plain::read(file).is_ok();
    let events = if good { records(file).len() } else { 0 };
    let all = if good { refusals(&records(file)) } else { vec![] };
    let is = |n: u8| says(26) && number == Some(n) && events > 0;
    let mut cases = vec![
        ("an empty input gives 14".to_string(), input.is_empty() && says(14)),
        ("a number without a file gives 14".to_string(), input.len() == 1 && says(14)),
        ("a file of 65,537 bytes gives 14".to_string(), file.len() == 65_537 && says(14)),
        ("a file without events gives 26".to_string(), good && events == 0 && says(26)),
        ("0 gives 26, and events are accepted and refused".to_string(), is(0) && all.contains(&0) && all.iter().any(|n| *n > 0)),
        ("0 gives 26, and all events are refused".to_string(), is(0) && !all.contains(&0)),
        ("a number that an event could give gives 26, and others occur".to_string(), {
            events > 0 && says(26) && NUMBERS.contains(&number.unwrap()) && all.iter().any(|n| *n > 0)
        }),
        ("a number above 26 gives 26".to_string(), says(26) && number > Some(26)),
    ];
    for n in [1, 14, 15, 16, 17, 19, 26, 255] {
        cases.push((format!("{n} gives 26"), is(n)));
    }
    for n in [14, 15, 16] {
        let fault = says(n) && file.len() > 8;
        let would = number.is_some_and(|number| number > 0 && refusals(&records(&mended(file))).contains(&number));
        cases.push((format!("a file gives {n}, and the events before the fault are refused with the number"), fault && would));
        cases.push((format!("a file gives {n}, and the number is one that no event gives"), fault && !NUMBERS.contains(&number.unwrap())));
        cases.push((format!("a file gives {n}, and the number is {n} too"), says(n) && number == Some(n)));
    }
    cases
}

/// What must occur of results.
fn result_cases(input: &[u8], answer: &[u8]) -> Vec<(String, bool)> {
    let (own, run) = answered(input);
    assert!(own == answer, "the answers are this program's");
    let result = run.is_some();
    let very_short = run.as_ref().is_some_and(|run| short(run, 4 * (run.kept.len() + run.passes.concat().len())));
    let Run { kept, passes } = run.unwrap_or(Run { kept: vec![], passes: vec![] });
    let (number, records) = if result { (input[0], records(&input[1..])) } else { (0, vec![]) };
    let events = if result { plain::read(&input[1..]).unwrap() } else { vec![] };
    let all = refusals(&records);
    let (last, many) = (kept.last().copied().unwrap_or(0), all.iter().filter(|n| result && **n == number).count());
    let first = all.iter().position(|n| result && *n == number).unwrap_or(0);
    let mut cases: Vec<(String, bool)> = Vec::new();
    let mut case = |name: &str, occurs: bool| cases.push((name.to_string(), result && occurs));
    for n in NUMBERS {
        case(&format!("{n} is asked for, with a result"), number == n);
    }
    case("nothing is left out", kept.len() == records.len());
    case("nothing is left out of ten events or more", kept.len() == records.len() && kept.len() >= 10);
    case("one event is kept", kept.len() == 1);
    case("ten events or more are kept, and others left out", kept.len() >= 10 && kept.len() < records.len());
    case("a list of more than 255 events is shortened", records.len() > 255 && kept.len() < records.len());
    case("more than 255 events are kept", kept.len() > 255);
    case("a file of 65,536 bytes has a result", input.len() == 65_537);
    // The last pass, which leaves out none, is counted.
    for n in 1..=4 {
        case(&format!("{n} pass(es), the last one counted, which leaves out none"), passes.len() == n);
    }
    case("5 passes or more", passes.len() >= 5);
    case("10 passes or more", passes.len() >= 10);
    case("a later pass leaves out two events or more", passes[1.min(passes.len())..].iter().any(|out| out.len() > 1));
    case("a later pass leaves out an event that is accepted in the file", {
        passes[1.min(passes.len())..].iter().flatten().any(|at| all[*at] == 0)
    });
    case("the first event that is refused with the number is so at the end", first == last);
    case("another event is, which is accepted in the file", last < first);
    case("the refused event is not the last of the file", last + 1 < records.len());
    case("the refused event is the last of the file, and the first with the number", last + 1 == records.len() && first == last);
    case("several events are refused with the number", many > 1);
    case("one event is refused with the number", many == 1);
    case("events before the refused one are refused with other numbers", all[..first].iter().any(|n| *n > 0));
    case("the first event of the file is left out", kept.first() > Some(&0));
    for (kind, name) in (1..).zip(KINDS) {
        let is = |at: &usize| records[*at][1] == kind;
        case(&format!("{name} is left out"), passes.iter().flatten().any(is));
        case(&format!("{name} is left out in a later pass"), passes[1.min(passes.len())..].iter().flatten().any(is));
        case(&format!("{name} is kept, and accepted"), kept[..kept.len().max(1) - 1].iter().any(is));
        for n in REFUSED_WITH[kind as usize - 1] {
            case(&format!("{name} is refused with {n} at the end"), number == *n && is(&last));
        }
    }
    for (reading, name) in READINGS {
        // This would be slow for long lists.
        let other = very_short && misread(reading, &events, number) != kept;
        case(&format!("with another reading the answer is another: {name}"), other);
    }
    cases
}

/// With which numbers a result can end, by kind. A call that is refused with 4 does not end one: without the create of the current
/// timeslice's owner the give of it would be refused with 4 as well.
const REFUSED_WITH: [&[u8]; 11] =
    [&[2, 3], &[2, 3, 4, 12, 13], &[2, 5, 6, 7], &[5, 8], &[5], &[2, 4, 9], &[5, 11], &[2, 4, 10], &[2, 4, 18], &[2, 4], &[2, 4]];

/// Fails where one of the cases never occurs.
fn count(inputs: &Path, answers: &Path) -> std::io::Result<bool> {
    let mut names: Vec<_> = std::fs::read_dir(inputs)?.map(|entry| entry.map(|entry| entry.file_name())).collect::<Result<_, _>>()?;
    names.sort();
    let (mut times, mut shortened): (Vec<(String, usize)>, usize) = (Vec::new(), 0);
    for name in &names {
        let (input, answer) = (std::fs::read(inputs.join(name))?, std::fs::read(answers.join(name))?);
        let cases = [refused_cases(&input, &answer), result_cases(&input, &answer)].concat();
        times.resize(cases.len(), Default::default());
        for (sum, (case, occurs)) in times.iter_mut().zip(cases) {
            *sum = (case, sum.1 + occurs as usize);
        }
        shortened += !answer.starts_with(b"file") as usize;
    }
    for (case, times) in &times {
        println!("{times:5} {case}");
    }
    for (case, _) in times.iter().filter(|(_, times)| *times == 0) {
        println!("it never occurs: {case}");
    }
    let occur = times.iter().filter(|(_, times)| *times > 0).count();
    println!("{occur} of {} cases occur; {shortened} of {} inputs have a result", times.len(), names.len());
    Ok(occur == times.len())
}

/// Makes an input for measuring, with its answer; says what it is.
fn write_measured(name: &str, inputs: &str, answers: &str) -> std::io::Result<()> {
    let (number, list) = measured(name);
    let input = input_of(number, &list);
    let all = refusals(&records(&input[1..]));
    assert_eq!(all.iter().position(|n| *n == number), Some(list.len() - 1), "the number occurs at the last event alone");
    let (answer, run) = answered(&input);
    let run = run.expect("a result");
    std::fs::write(Path::new(inputs).join(name), &input)?;
    std::fs::write(Path::new(answers).join(name), answer)?;
    println!("{name} {} {} {number} {} {}", input.len() - 1, list.len(), run.kept.len(), run.passes.len());
    Ok(())
}

fn main() -> std::io::Result<()> {
    let arguments: Vec<String> = std::env::args().collect();
    let words: Vec<&str> = arguments[1..].iter().map(String::as_str).collect();
    match words[..] {
        ["-o", folder, ref inputs @ ..] => {
            for input in inputs.iter().map(Path::new) {
                std::fs::write(Path::new(folder).join(input.file_name().unwrap()), answer(&std::fs::read(input)?))?;
            }
        }
        ["-n", seed, count, folder] => {
            let (seed, count): (u64, usize) = (seed.parse().expect("a seed"), count.parse().expect("a count"));
            for i in 0..count {
                let own = Random(seed.wrapping_mul(0x1_0000_0001).wrapping_add(i as u64)).next();
                std::fs::write(Path::new(folder).join(format!("shorten-{i:05}")), input(own, i))?;
            }
        }
        ["-c", inputs, answers] => {
            if !count(Path::new(inputs), Path::new(answers))? {
                std::process::exit(1);
            }
        }
        ["-t"] => println!("{}", MEASURED.join("\n")),
        ["-t", inputs, answers, ref names @ ..] => {
            for name in names {
                write_measured(name, inputs, answers)?;
            }
        }
        _ => {
            let mut input = Vec::new();
            std::io::stdin().read_to_end(&mut input)?;
            std::io::stdout().write_all(&answer(&input))?;
        }
    }
    Ok(())
}
