//! The program `orders` of request [12]: abort orders from the second processor, over the machine of `key.rs`, which counts links. The
//! plain machine of `plain.rs` gets the same events, and both must say the same of each; if they do not, the question is about the
//! documents.
//! The readings that were given: an order is refused with 2 if its thread is above 127, then with 27 if an order is held for that thread
//! and the new number is not above that one; a withdraw is held with its number like an abort, also where nothing was held; a take clears
//! withdraws too, and after it every number is taken again; an order does not look at the machine; the aborts of a take act one after the
//! other, each on the machine that the one before left; a take with nothing held is accepted, with count 0.
//!
//! An input is a byte k, k commands of 6 bytes (op, thread, order number in 4 bytes, big-endian) and an event file. Op 0 gives an abort
//! order, 1 a withdraw order, 2 takes the orders, any other runs the next events, as many as the thread byte says. An answer has one line
//! for each command, in the key's columns; the last is the count of a take, the links of a run, 0 for an order. An input cut short before
//! the file, and a refused file, have the line `file N` instead.
//! `orders` reads an input from standard input and prints the answer.
//! `orders -o FOLDER INPUT...` writes the answer for each input to FOLDER, under the input's own name.
//! `orders -n SEED COUNT FOLDER` makes inputs. The same arguments give the same inputs.
//! `orders -c INPUTS ANSWERS`: two folders. Says in how many inputs each case of `input_cases`, `order_cases`, `take_cases`, `row_cases`,
//! `run_cases` and `READINGS` occurs. What never occurs gets a sentence; then the exit status is 1.
//! `orders -l FOLDER INPUT...` writes to FOLDER, for each input that is answered with lines, its events as they happen: the file's and,
//! where orders are taken, the same abort events. Lists without events, and those too long for a file, are left out.
//! `orders -k INPUTS ANSWERS KEYS` asks whether the answers follow from the keys of those lists; no machine is used for that.
//! `orders -m N` answers as the reading with that number does (the first is 1), to try the test itself.

#[allow(dead_code)]
#[path = "key.rs"]
mod key;
#[allow(dead_code)]
#[path = "plain.rs"]
mod plain;

use key::{Answer, Hold, Machine, NONE, SERVER, SPENT};
use plain::Plain;
use std::collections::BTreeMap;
use std::fmt::Write as _;
use std::io::{Read, Write};
use std::path::Path;

/// The running thread, the paying timeslice and the donation count.
type Runs = Option<(u8, u8, u32)>;

/// "The number of donation links after the last helping link of the chain", from the plain machine's holds.
fn plain_runs(m: &Plain) -> Runs {
    let runs = m.runs?;
    let (mut at, mut count) = (m.timeslices[&runs.timeslice].owner, 0);
    loop {
        (at, count) = match m.threads[&at].hold {
            plain::Hold::Calling(next) => (next, count + 1),
            plain::Hold::Helping(next) => (next, 0),
            _ => break,
        }
    }
    assert_eq!(at, runs.thread, "the chain of the paying timeslice ends at the running thread");
    Some((runs.thread, runs.timeslice, count))
}

fn runs(m: &Machine) -> Runs {
    if m.running == NONE { None } else { Some((m.running, m.current, m.count)) }
}

#[derive(Clone, Copy)]
struct Command {
    op: u8,
    /// Of a run: how many events.
    thread: u8,
    number: u32,
}

/// What a command did. The last column: a take's count, a run's links, 0 for an order.
#[derive(Clone, Copy)]
struct Done {
    refusal: u8,
    last: u64,
}

/// `rest` has the events of the file that no command has run.
trait Program {
    fn perform(&mut self, command: Command, rest: &mut &[&[u8]]) -> Done;
    fn machine(&self) -> &Machine;
}

/// "Runs the next events of the file (fewer where it ends)."
fn next<'a, 'f>(rest: &mut &'a [&'f [u8]], many: u8) -> &'a [&'f [u8]] {
    let (some, tail) = rest.split_at(rest.len().min(many as usize));
    *rest = tail;
    some
}

#[derive(Clone, Copy, PartialEq)]
struct Held {
    number: u32,
    abort: bool,
}

/// "Keep one order for each thread."
type Store = BTreeMap<u8, Held>;

/// The held aborts, "from the smallest order number up, equal numbers by smaller thread first".
fn aborts(store: &Store) -> Vec<(u32, u8)> {
    let mut all: Vec<(u32, u8)> = store.iter().filter(|(_, held)| held.abort).map(|(thread, held)| (held.number, *thread)).collect();
    all.sort();
    all
}

struct Orders {
    store: Store,
    machine: Machine,
    /// None where orders are made or counted: answers are given with both machines.
    plain: Option<Plain>,
}

impl Orders {
    fn new() -> Orders {
        Orders { store: Store::new(), machine: Machine::new(), plain: Some(Plain::empty()) }
    }

    fn without_plain() -> Orders {
        Orders { plain: None, ..Orders::new() }
    }

    fn event(&mut self, record: &[u8]) -> Answer {
        let answer = self.machine.next(record).expect("a whole record").0;
        if let Some(plain) = &mut self.plain {
            let refusal = plain.step(&plain::read(&file_of(&[record])).expect("a good record")[0]);
            assert!(refusal == answer.refusal && plain_runs(plain) == runs(&self.machine), "both machines say the same of an event");
        }
        answer
    }

    /// "27, order number not above the one held for that thread, after 2."
    fn give(&mut self, thread: u8, order: Held) -> u8 {
        if thread > 127 {
            return 2;
        }
        match self.store.get(&thread) {
            Some(held) if order.number <= held.number => 27,
            _ => {
                self.store.insert(thread, order);
                0
            }
        }
    }

    /// "Clears the store, and counts aborts refused with 4 or 10."
    fn take(&mut self) -> u64 {
        let in_turn = aborts(&self.store);
        self.store.clear();
        let refused = in_turn.into_iter().filter(|(_, thread)| [4, 10].contains(&self.event(&abort(*thread)).refusal));
        refused.count() as u64
    }
}

impl Program for Orders {
    fn perform(&mut self, Command { op, thread, number }: Command, rest: &mut &[&[u8]]) -> Done {
        match op {
            0 | 1 => Done { refusal: self.give(thread, Held { number, abort: op == 0 }), last: 0 },
            2 => Done { refusal: 0, last: self.take() },
            _ => Done { refusal: 0, last: next(rest, thread).iter().map(|record| self.event(record).links as u64).sum() },
        }
    }

    fn machine(&self) -> &Machine {
        &self.machine
    }
}

/// The commands and the file; None where the input is cut short before the file.
fn parts(input: &[u8]) -> Option<(Vec<Command>, &[u8])> {
    let (k, rest) = input.split_first()?;
    let bytes = rest.get(..6 * *k as usize)?;
    let command = |c: &[u8]| Command { op: c[0], thread: c[1], number: u32::from_be_bytes([c[2], c[3], c[4], c[5]]) };
    Some((bytes.chunks(6).map(command).collect(), &rest[bytes.len()..]))
}

/// The records of a file, one by one; or the number with which the file is refused.
fn records(file: &[u8]) -> Result<Vec<&[u8]>, u8> {
    let checked = key::check(file);
    assert_eq!(checked.err(), plain::read(file).err(), "both machines refuse the same files");
    let (mut all, mut rest) = (Vec::new(), checked?);
    while let [length, ..] = rest {
        let (record, tail) = rest.split_at(1 + *length as usize);
        all.push(record);
        rest = tail;
    }
    Ok(all)
}

fn answer(input: &[u8]) -> String {
    answered(input, &mut Orders::new())
}

fn answered(input: &[u8], program: &mut dyn Program) -> String {
    let Some((commands, file)) = parts(input) else { return "file 14\n".to_string() };
    let records = match records(file) {
        Ok(records) => records,
        Err(number) => return format!("file {number}\n"),
    };
    let (mut text, mut rest) = (String::new(), &records[..]);
    for (at, command) in commands.into_iter().enumerate() {
        let Done { refusal, last } = program.perform(command, &mut rest);
        let (number, word) = (at + 1, if refusal == 0 { "ok" } else { "no" });
        match runs(program.machine()) {
            Some((thread, timeslice, count)) => writeln!(text, "{number} {word} {refusal} {thread} {timeslice} {count} {last}"),
            None => writeln!(text, "{number} {word} {refusal} - - 0 {last}"),
        }
        .unwrap();
    }
    text
}

// The events in short.
fn client(thread: u8) -> Vec<u8> {
    vec![3, 1, thread, 0]
}
fn server(thread: u8) -> Vec<u8> {
    vec![3, 1, thread, 1]
}
fn give(timeslice: u8, thread: u8, priority: u8, quantum: u16) -> Vec<u8> {
    vec![6, 2, timeslice, thread, priority, (quantum >> 8) as u8, quantum as u8]
}
fn call(server: u8) -> Vec<u8> {
    vec![2, 3, server]
}
fn reply() -> Vec<u8> {
    vec![1, 4]
}
fn block() -> Vec<u8> {
    vec![1, 5]
}
fn wake(thread: u8) -> Vec<u8> {
    vec![2, 6, thread]
}
fn charge(amount: u16) -> Vec<u8> {
    vec![3, 7, (amount >> 8) as u8, amount as u8]
}
fn abort(thread: u8) -> Vec<u8> {
    vec![2, 8, thread]
}
fn refill(timeslice: u8) -> Vec<u8> {
    vec![2, 9, timeslice]
}
fn remove(thread: u8) -> Vec<u8> {
    vec![2, 10, thread]
}
fn rank(timeslice: u8, priority: u8) -> Vec<u8> {
    vec![3, 11, timeslice, priority]
}

fn file_of<T: AsRef<[u8]>>(records: &[T]) -> Vec<u8> {
    let records: Vec<u8> = records.iter().flat_map(|record| record.as_ref().to_vec()).collect();
    [&(records.len() as u32 + 1).to_be_bytes(), &[1][..], &records].concat()
}

/// splitmix64
struct Random(u64);

impl Random {
    fn next(&mut self) -> u64 {
        self.0 = self.0.wrapping_add(0x9E37_79B9_7F4A_7C15);
        let mut z = self.0;
        z = (z ^ (z >> 30)).wrapping_mul(0xBF58_476D_1CE4_E5B9);
        z = (z ^ (z >> 27)).wrapping_mul(0x94D0_49BB_1331_11EB);
        z ^ (z >> 31)
    }

    /// 0 to n - 1
    fn below(&mut self, n: usize) -> usize {
        (self.next() >> 11) as usize % n
    }

    /// a to b
    fn range(&mut self, a: usize, b: usize) -> usize {
        a + self.below(b - a + 1)
    }

    fn byte(&mut self) -> u8 {
        self.below(256) as u8
    }

    fn percent(&mut self, p: usize) -> bool {
        self.below(100) < p
    }

    fn pick<T: Copy>(&mut self, from: &[T]) -> T {
        from[self.below(from.len())]
    }

    fn some<T: Copy>(&mut self, from: &[T]) -> Option<T> {
        if from.is_empty() { None } else { Some(self.pick(from)) }
    }

    fn shuffle<T>(&mut self, all: &mut [T]) {
        for i in (1..all.len()).rev() {
            all.swap(i, self.below(i + 1));
        }
    }

    /// So many of the numbers 0 to 127, in any order. Both ends of the range are common.
    fn numbers(&mut self, many: usize) -> Vec<u8> {
        let mut all: Vec<u8> = (0..128).collect();
        self.shuffle(&mut all);
        for end in [0, 127] {
            let (from, to) = (all.iter().position(|n| *n == end).unwrap(), self.below(2 * many));
            all.swap(from, to.min(127));
        }
        all.truncate(many);
        all
    }
}

fn threads(m: &Machine, wanted: impl Fn(&key::Thread) -> bool) -> Vec<u8> {
    (0..128).filter(|n| m.threads[*n as usize].role != NONE && wanted(&m.threads[*n as usize])).collect()
}

/// Those whose abort would be accepted.
fn linked(m: &Machine) -> Vec<u8> {
    threads(m, |t| t.hold >= Hold::Calling)
}

fn hold(m: &Machine, thread: u8) -> Option<Hold> {
    m.threads.get(thread as usize).filter(|t| t.role != NONE).map(|t| t.hold)
}

/// How order numbers are drawn.
#[derive(Clone, Copy, PartialEq)]
enum Style {
    /// 0 to 3: equal ones are common.
    Few,
    /// One number, or the next.
    Equal(u32),
    /// Each byte is one of a few, so that the order depends on which byte counts first, and on the sign.
    Bytes,
    /// The highest byte alone differs, or the lowest.
    High,
    Low,
    /// Where bytes carry over, and the ends of the range.
    Edges,
    Any,
}

const STYLES: [Style; 6] = [Style::Few, Style::Bytes, Style::High, Style::Low, Style::Edges, Style::Any];
const EDGES: [u32; 14] = [
    0, 1, 2, 255, 256, 65_535, 65_536, 16_777_215, 16_777_216, 2_147_483_647, 2_147_483_648, 4_294_967_294, 4_294_967_295, 4_278_190_080,
];

/// An input in the making. Store and machine run along, so that commands and events can be chosen by what would happen.
struct Scene {
    r: Random,
    orders: Orders,
    commands: Vec<Command>,
    records: Vec<Vec<u8>>,
    /// The numbers that threads and timeslices have. They are few, so that removed ones come again.
    threads: Vec<u8>,
    numbers: Vec<u8>,
    priorities: Vec<u8>,
    style: Style,
    /// Events among a hundred that are drawn without looking at the machine.
    wrong: usize,
}

impl Scene {
    fn new(mut r: Random, many: usize) -> Scene {
        let (threads, numbers) = (r.numbers(many), r.numbers(many));
        let priorities = (0..r.range(1, 6)).map(|_| r.pick(&[0, 1, 10, 20, 128, 255])).collect();
        let (style, wrong) = (r.pick(&STYLES), r.pick(&[0, 5, 20]));
        Scene { r, orders: Orders::without_plain(), commands: vec![], records: vec![], threads, numbers, priorities, style, wrong }
    }

    fn machine(&self) -> &Machine {
        &self.orders.machine
    }

    fn full(&self) -> bool {
        self.commands.len() >= 255
    }

    fn command(&mut self, op: u8, thread: u8, number: u32) {
        if self.full() {
            return;
        }
        let command = Command { op, thread, number };
        self.commands.push(command);
        self.orders.perform(command, &mut &[][..]);
    }

    fn order(&mut self, abort: bool, thread: u8, number: u32) {
        self.command(!abort as u8, thread, number);
    }

    fn abort(&mut self, thread: u8, number: u32) {
        self.order(true, thread, number);
    }

    fn withdraw(&mut self, thread: u8, number: u32) {
        self.order(false, thread, number);
    }

    fn take(&mut self) {
        let ignored = (self.r.pick(&[0, 0, 0, 9, 255]), self.r.pick(&[0, 0, 0, 3, u32::MAX]));
        self.command(2, ignored.0, ignored.1);
    }

    fn run(&mut self, records: Vec<Vec<u8>>) {
        for some in records.chunks(255) {
            if self.full() {
                return;
            }
            let (op, number) = (self.r.pick(&[3, 3, 3, 3, 4, 5, 128, 255]), self.r.pick(&[0, 0, 1, 1 << 24, u32::MAX]));
            let command = Command { op, thread: some.len() as u8, number };
            self.commands.push(command);
            let all: Vec<&[u8]> = some.iter().map(Vec::as_slice).collect();
            self.orders.perform(command, &mut &all[..]);
            self.records.extend(some.to_vec());
        }
    }

    fn run_some(&mut self, many: usize) {
        let (mut m, mut records) = (self.machine().clone(), Vec::new());
        for _ in 0..many {
            let record = self.event(&m);
            m.next(&record);
            records.push(record);
        }
        if records.is_empty() {
            self.command(3, 0, 0);
        }
        self.run(records);
    }

    /// What shows places: who runs leaves, and the next is looked for. A command each, or two events.
    fn dig(&mut self, many: usize) {
        for _ in 0..many {
            let m = self.machine();
            if m.running == NONE {
                break;
            }
            let (serves, left) = (m.threads[m.running as usize].role == SERVER, m.left());
            let mut events = vec![match self.r.below(10) {
                0 => charge(left),
                1..=2 if serves => reply(),
                _ => block(),
            }];
            if self.r.percent(20) {
                events.push(block());
            }
            self.run(events);
        }
    }

    /// An event that leads somewhere. Calls and blocks are common, aborts are rare: those are what orders are for.
    fn event(&mut self, m: &Machine) -> Vec<u8> {
        let r = &mut self.r;
        let (thread, number, priority) = (r.pick(&self.threads), r.pick(&self.numbers), r.pick(&self.priorities));
        if r.percent(self.wrong) {
            let any = r.byte();
            return match r.below(8) {
                0 => wake(any),
                1 => client(any),
                2 => call(any),
                3 => reply(),
                4 => charge(any as u16),
                5 => abort(any),
                6 => remove(any | 64),
                _ => give(number, thread, any, 0),
            };
        }
        let live = threads(m, |_| true);
        let missing: Vec<u8> = self.threads.iter().copied().filter(|n| !live.contains(n)).collect();
        let poor: Vec<u8> = live.iter().copied().filter(|n| !m.owns[*n as usize]).collect();
        let free: Vec<u8> = self.numbers.iter().copied().filter(|n| !m.slice_used[*n as usize]).collect();
        let nothing = m.running == NONE;
        if !missing.is_empty() && (live.len() < 2 || r.percent(25)) {
            let new = r.pick(&missing);
            return if r.percent(50) { server(new) } else { client(new) };
        }
        if !poor.is_empty() && !free.is_empty() && r.percent(if nothing { 60 } else { 15 }) {
            return give(r.pick(&free), r.pick(&poor), priority, r.pick(&[1, 2, 100, 65_535]));
        }
        let blocked = threads(m, |t| t.hold == Hold::Blocked);
        let idle = threads(m, |t| t.hold == Hold::Idle);
        let servers: Vec<u8> = threads(m, |t| t.role == SERVER).into_iter().filter(|n| *n != m.running).collect();
        let left = m.left();
        let event = match r.below(if nothing { 40 } else { 100 }) {
            0..=4 => r.some(&linked(m)).map(abort).filter(|_| r.percent(30)),
            5..=14 => r.some(&m.placed(SPENT..SPENT + 1)).map(refill),
            15..=19 => r.some(&blocked).map(wake),
            20..=24 => r.some(&live).map(remove).filter(|_| r.percent(40)),
            25..=29 => Some(rank(number, priority)),
            30..=39 if nothing => r.some(&blocked).map(wake),
            30..=46 if !idle.is_empty() => r.some(&idle).map(call),
            30..=64 => r.some(&servers).map(call),
            65..=69 if servers.len() < threads(m, |t| t.role == SERVER).len() => Some(reply()),
            70..=74 if left > 0 => Some(charge(if r.percent(50) { left } else { 1 })),
            _ => None,
        };
        event.unwrap_or_else(block)
    }

    fn any_number(&mut self) -> u32 {
        let r = &mut self.r;
        match self.style {
            Style::Few => r.below(4) as u32,
            Style::Equal(number) => number.saturating_add(r.percent(30) as u32),
            Style::Bytes => u32::from_be_bytes([0; 4].map(|_: u8| r.pick(&[0, 1, 2, 127, 128, 254, 255]))),
            Style::High => (r.byte() as u32) << 24,
            Style::Low => r.below(256) as u32,
            Style::Edges => r.pick(&EDGES),
            Style::Any => r.next() as u32,
        }
    }

    /// Near the number that is held, or as others are.
    fn number(&mut self, thread: u8) -> u32 {
        let others: Vec<u32> = self.orders.store.values().map(|held| held.number).collect();
        let any = self.any_number();
        let byte = 1u32 << (8 * self.r.below(4));
        let Some(held) = self.orders.store.get(&thread).map(|held| held.number) else {
            return if self.r.percent(20) { self.r.some(&others).unwrap_or(any) } else { any };
        };
        match self.r.below(12) {
            0..=1 => held,
            2..=4 => held.saturating_add(1),
            5 => held.saturating_sub(1),
            6..=7 => held.saturating_add(byte),
            8 => held.saturating_sub(byte),
            9 => held.swap_bytes(),
            10 => self.r.pick(&[0, u32::MAX]),
            _ => any,
        }
    }

    /// So many numbers in rising order, some of them equal where the style has few.
    fn rising(&mut self, many: usize) -> Vec<u32> {
        let mut all: Vec<u32> = (0..many).map(|_| self.any_number()).collect();
        all.sort();
        all
    }

    /// A thread for an order: with a link, live, held, not there, above 127.
    fn thread(&mut self) -> u8 {
        let m = self.machine();
        let (linked, live) = (linked(m), threads(m, |_| true));
        let held: Vec<u8> = self.orders.store.keys().copied().collect();
        let r = &mut self.r;
        match r.below(20) {
            0..=9 if !linked.is_empty() => r.pick(&linked),
            10..=12 if !live.is_empty() => r.pick(&live),
            13..=16 if !held.is_empty() => r.pick(&held),
            17 => r.pick(&[127, 128, 129, 200, 254, 255]),
            18 => r.byte(),
            _ => r.pick(&self.threads),
        }
    }

    fn step(&mut self) {
        match self.r.below(20) {
            0..=4 => {
                let many = self.r.pick(&[0, 1, 1, 2, 2, 3, 5, 8, 13]);
                self.run_some(many);
            }
            5..=12 => {
                let thread = self.thread();
                let number = self.number(thread);
                self.abort(thread, number);
            }
            13..=15 => {
                let thread = self.thread();
                let number = self.number(thread);
                self.withdraw(thread, number);
            }
            16..=17 => self.take(),
            _ => {
                let many = self.r.range(1, 4);
                self.dig(many);
            }
        }
    }

    /// Chains of so many servers, each with a client that owns a timeslice; the last server blocks or, where the chain is to loop, calls
    /// one before it. So many further clients help a server of a chain, and so many servers own a timeslice. Nothing runs then.
    fn chains(&mut self, chains: &[(usize, bool)], helpers: usize, rich: usize) {
        let many: usize = chains.iter().map(|(links, _)| links + 1).sum::<usize>() + helpers;
        let mut names = self.r.numbers(many.min(128)).into_iter();
        let mut slices = self.r.numbers((chains.len() + helpers + rich).min(128)).into_iter();
        let (mut records, mut servers, mut ends) = (Vec::new(), Vec::new(), Vec::new());
        // Distinct priorities as a rule: the order of the timeslices is what makes the order of aborts matter.
        let alike = self.r.percent(20);
        let mut grant = |r: &mut Random, owner: u8| {
            give(slices.next().unwrap(), owner, if alike { r.pick(&[10, 20]) } else { r.byte() }, r.pick(&[2, 100]))
        };
        for (links, looped) in chains {
            let owner = names.next().unwrap();
            records.push(client(owner));
            records.push(grant(&mut self.r, owner));
            let first = servers.len();
            for _ in 0..*links {
                let next = names.next().unwrap();
                servers.push(next);
                records.push(server(next));
                records.push(call(next));
            }
            let end = servers[servers.len() - 1];
            records.push(if *looped && *links > 1 { call(self.r.pick(&servers[first..servers.len() - 1])) } else { block() });
            ends.push(end);
        }
        for helper in names {
            records.push(client(helper));
            records.push(grant(&mut self.r, helper));
            // Ends are helped at once more often than others: such a timeslice is freed by no abort but its owner's.
            records.push(call(if self.r.percent(50) { self.r.pick(&ends) } else { self.r.pick(&servers) }));
        }
        let mut owners = servers.clone();
        self.r.shuffle(&mut owners);
        for owner in owners.into_iter().take(rich) {
            records.push(grant(&mut self.r, owner));
        }
        let at = self.r.below(records.len());
        let rest = records.split_off(at);
        self.run(records);
        self.run(rest);
    }

    /// A crowd of up to so many chains, some of them loops.
    fn crowd(&mut self, most: usize, loops: usize) {
        let chains: Vec<(usize, bool)> = (0..self.r.range(2, most)).map(|_| (self.r.range(1, 3), self.r.percent(loops))).collect();
        let (helpers, rich) = (self.r.range(2, 8), self.r.below(3));
        self.chains(&chains, helpers, rich);
    }

    /// So many rungs, each with an end of its own that is Blocked, now and then in a loop instead. The client of a rung's lower timeslice
    /// reaches the end by one or two links, and an abort frees it; that of its upper timeslice helps the end and stays. All timeslices of a
    /// rung stand above those of the rungs before. So an abort makes a choice look at its rung's upper timeslice only if no rung above has
    /// been freed, and a later choice looks at those that are left. Hands back the threads to be aborted, the lowest rung first.
    fn ladder(&mut self, rungs: usize) -> Vec<u8> {
        let mut names = self.r.numbers(6 * rungs).into_iter();
        let mut slices = self.r.numbers(2 * rungs).into_iter();
        let mut wanted: Vec<(Vec<Vec<u8>>, u8)> = Vec::new();
        for rung in 0..rungs {
            let mut name = || names.next().unwrap();
            let (lower, upper, end, between, further) = (name(), name(), name(), name(), name());
            let priority = 20 * rung as u8 + self.r.below(10) as u8;
            let (two, looped, three) = (self.r.percent(40), self.r.percent(15), self.r.percent(30));
            let mut first = vec![client(lower), give(slices.next().unwrap(), lower, priority, 100)];
            if two {
                first.extend([server(between), call(between)]);
            }
            first.push(call(end));
            let mut second = vec![client(upper), give(slices.next().unwrap(), upper, priority + 10, 100)];
            if three {
                second.extend([server(further), call(further)]);
            }
            second.push(call(end));
            // Whoever comes first is Calling the end, which then leaves; the other is Helping it.
            let mut leaves = vec![block()];
            if looped {
                let other = name();
                leaves = vec![server(other), call(other), call(end)];
            }
            let calls_first = self.r.percent(50);
            let both = if calls_first { [first, leaves, second] } else { [second, leaves, first] };
            let freed = if two && self.r.percent(50) { between } else { lower };
            wanted.push(([vec![server(end)], both.concat()].concat(), freed));
        }
        let freed = wanted.iter().map(|(_, freed)| *freed).collect();
        self.r.shuffle(&mut wanted);
        let records: Vec<Vec<u8>> = wanted.into_iter().flat_map(|(records, _)| records).collect();
        self.run(records);
        freed
    }

    /// Chains of one kind or the other, and threads that can be aborted.
    fn scene(&mut self, loops: usize) -> Vec<u8> {
        if self.r.percent(70) {
            let rungs = self.r.range(2, 5);
            let mut freed = self.ladder(rungs);
            self.r.shuffle(&mut freed);
            return freed;
        }
        self.crowd(4, loops);
        self.some_linked(2, 6)
    }

    /// Some threads with links, in any order.
    fn some_linked(&mut self, least: usize, most: usize) -> Vec<u8> {
        let mut all = linked(self.machine());
        self.r.shuffle(&mut all);
        all.truncate(self.r.range(least, most));
        all
    }

    /// Aborts of these threads with these numbers, given in any order.
    fn aborts(&mut self, mut all: Vec<(u8, u32)>) {
        self.r.shuffle(&mut all);
        for (thread, number) in all {
            self.abort(thread, number);
        }
    }

    fn input(&self) -> Vec<u8> {
        self.input_with(&file_of(&self.records))
    }

    fn input_with(&self, file: &[u8]) -> Vec<u8> {
        let mut all = vec![self.commands.len() as u8];
        for c in &self.commands {
            all.extend([c.op, c.thread]);
            all.extend(c.number.to_be_bytes());
        }
        all.extend(file);
        all
    }
}

const KINDS: [&str; 24] = [
    "mixed", "few threads", "ends", "loops", "equal numbers", "against threads", "bytes", "high bytes", "signs", "superseded", "withdraws",
    "again", "refused aborts", "many orders", "any bytes", "cut", "refused file", "255 commands", "no command", "past the end", "links",
    "above 127", "gone", "something runs",
];

fn input(seed: u64, at: usize) -> Vec<u8> {
    let mut r = Random(Random(seed.wrapping_mul(0x1_0000_0001).wrapping_add(at as u64)).next());
    let (kind, turn) = (KINDS[at % KINDS.len()], at / KINDS.len());
    let many = match kind {
        "few threads" => r.range(2, 4),
        _ => r.range(4, 16),
    };
    let mut s = Scene::new(r, many);
    match kind {
        "mixed" | "few threads" => {
            let steps = s.r.range(5, 120);
            s.run_some(many * 3);
            for _ in 0..steps {
                s.step();
            }
        }
        "ends" => ends(&mut s, 0),
        "loops" => ends(&mut s, 50),
        "equal numbers" => {
            s.style = Style::Equal(s.r.pick(&EDGES));
            ends(&mut s, 20);
        }
        "against threads" => against_threads(&mut s, turn),
        "bytes" => {
            s.style = Style::Bytes;
            ends(&mut s, 20);
        }
        "high bytes" => {
            s.style = if turn % 2 == 0 { Style::High } else { Style::Low };
            ends(&mut s, 20);
        }
        "signs" => {
            s.style = Style::Edges;
            ends(&mut s, 20);
        }
        "superseded" => superseded(&mut s, turn),
        "withdraws" => withdraws(&mut s),
        "again" => again(&mut s, turn),
        "refused aborts" => refused_aborts(&mut s),
        "many orders" => many_orders(&mut s, turn),
        "any bytes" => any_bytes(&mut s, turn),
        "cut" => return cut(&mut s, turn),
        "refused file" => return refused_file(&mut s, turn),
        "255 commands" => {
            s.run_some(many * 3);
            while !s.full() {
                s.step();
            }
        }
        "no command" => {
            if turn % 4 != 1 {
                s.run_some(many);
            }
            s.commands.clear();
        }
        "past the end" => past_the_end(&mut s, turn),
        "links" => links(&mut s, turn),
        "above 127" => above_127(&mut s),
        "gone" => gone(&mut s, turn),
        _ => something_runs(&mut s),
    }
    // Events that are left, whatever they are: nobody runs them. A run past the end would.
    if turn % 4 == 1 && !["past the end", "no command"].contains(&kind) {
        s.records.extend([block(), client(0), abort(0)]);
    }
    s.input()
}

/// Chains whose ends are Blocked, and so many loops among a hundred; aborts of some of their threads; and what shows the places after them.
fn ends(s: &mut Scene, loops: usize) {
    let mut threads = s.scene(loops);
    for _ in 0..s.r.range(1, 2) {
        let mut numbers = s.rising(threads.len());
        s.r.shuffle(&mut numbers);
        s.aborts(threads.into_iter().zip(numbers).collect());
        if s.r.percent(20) {
            let thread = s.thread();
            let number = s.number(thread);
            s.withdraw(thread, number);
        }
        s.take();
        s.dig(9);
        if s.r.percent(30) {
            s.run_some(6);
        }
        threads = s.some_linked(2, 6);
    }
}

/// The numbers fall as the threads rise, or by turns rise with them; they are given in either order.
fn against_threads(s: &mut Scene, turn: usize) {
    let mut threads = s.scene(20);
    threads.sort();
    let mut numbers = s.rising(threads.len());
    if turn % 3 != 2 {
        numbers.reverse();
    }
    let mut all: Vec<(u8, u32)> = threads.into_iter().zip(numbers).collect();
    if turn % 2 == 0 {
        all.reverse();
    }
    for (thread, number) in all {
        s.abort(thread, number);
    }
    s.take();
    s.dig(9);
}

/// Order upon order for a few threads, with numbers that are above, equal and below; then a take, and what shows it.
fn superseded(s: &mut Scene, turn: usize) {
    if turn % 2 == 1 {
        s.crowd(3, 20);
    } else {
        let mut threads = s.ladder(2 + turn / 2 % 3);
        // Twice round, in another order: those that come again go behind the others.
        for round in [1, 2] {
            s.r.shuffle(&mut threads);
            for (at, thread) in threads.iter().enumerate() {
                let number = (round * 100 + at as u32) << (8 * (turn / 2 % 4));
                if round == 1 || s.r.percent(60) {
                    s.abort(*thread, number);
                }
            }
        }
        s.take();
        s.dig(9);
    }
    for _ in 0..s.r.range(1, 4) {
        let threads = s.some_linked(2, 4);
        if threads.is_empty() {
            s.run_some(6);
            continue;
        }
        for _ in 0..s.r.range(4, 20) {
            let thread = s.r.pick(&threads);
            let (abort, number) = (s.r.percent(if turn % 2 == 0 { 75 } else { 50 }), s.number(thread));
            s.order(abort, thread, number);
        }
        s.take();
        s.dig(5);
    }
}

/// Withdraws over aborts, aborts over withdraws, withdraws where nothing is held; with numbers that are not above, too.
fn withdraws(s: &mut Scene) {
    s.crowd(3, 20);
    for _ in 0..s.r.range(2, 4) {
        for thread in s.some_linked(2, 5) {
            let first = s.any_number();
            let (up, down) = (first.saturating_add(s.r.pick(&[1, 256, 1 << 24])), first.saturating_sub(s.r.pick(&[0, 1, 9])));
            let orders = match s.r.below(7) {
                0 => vec![(true, first), (false, up)],
                1 => vec![(true, first), (false, down)],
                2 => vec![(false, first), (true, up)],
                3 => vec![(false, first), (true, down)],
                4 => vec![(false, first)],
                5 => vec![(true, first), (false, up), (true, up.saturating_add(1))],
                _ => vec![(true, first), (false, up), (true, first)],
            };
            for (abort, number) in orders {
                s.order(abort, thread, number);
            }
        }
        s.take();
        if s.r.percent(30) {
            s.take();
        }
        s.dig(4);
        s.run_some(4);
    }
}

/// Take after take, with the numbers of the one before, below them and 0. Between them calls are made again.
fn again(s: &mut Scene, turn: usize) {
    s.crowd(3, 20);
    let mut last: BTreeMap<u8, u32> = BTreeMap::new();
    for round in 0..s.r.range(3, 8) {
        let mut threads = s.some_linked(1, 4);
        threads.extend(last.keys().copied().filter(|_| s.r.percent(50)));
        for thread in threads {
            let any = s.any_number();
            let before = last.get(&thread).copied().unwrap_or(any);
            let number = s.r.pick(&[before, before, before / 2, 0, any]);
            last.insert(thread, number);
            let abort = s.r.percent(80);
            s.order(abort, thread, number);
        }
        s.take();
        if round % 3 == turn % 3 {
            s.take();
        }
        s.dig(3);
        s.run_some(5);
    }
}

/// Threads of all sorts: Ready, Idle, Blocked, running, with a link, not there.
fn refused_aborts(s: &mut Scene) {
    s.crowd(3, 20);
    s.run_some(8);
    for _ in 0..s.r.range(2, 5) {
        let m = s.machine();
        let (live, running) = (threads(m, |_| true), m.running);
        let not_there: Vec<u8> = (0..128).filter(|n| !live.contains(n)).collect();
        let sort = s.r.below(4);
        let mut threads = s.some_linked(0, 3);
        for _ in 0..s.r.range(1, 6) {
            let thread = match sort {
                0 => s.r.pick(&live),
                1 => s.r.pick(&not_there),
                _ if s.r.percent(50) => s.r.below(128) as u8,
                _ => s.threads[0],
            };
            threads.push(thread);
        }
        if running != NONE && s.r.percent(30) {
            threads.push(running);
        }
        for thread in threads {
            let number = s.number(thread);
            s.abort(thread, number);
        }
        s.take();
        s.dig(3);
        s.run_some(3);
    }
}

/// An order for each thread, or nearly; on a machine with some threads, or none.
fn many_orders(s: &mut Scene, turn: usize) {
    if turn % 3 > 0 {
        s.crowd(4, 20);
    }
    let mut threads: Vec<u8> = (0..128).collect();
    s.r.shuffle(&mut threads);
    if turn % 2 == 1 {
        threads.truncate(s.r.range(20, 120));
    }
    for thread in threads {
        let (abort, number) = (turn % 3 == 0 || s.r.percent(90), s.any_number());
        s.order(abort, thread, number);
    }
    for _ in 0..s.r.below(20) {
        let thread = s.r.below(128) as u8;
        let number = s.number(thread);
        s.abort(thread, number);
    }
    s.take();
    s.dig(6);
    s.take();
    while turn % 4 == 3 && !s.full() {
        s.step();
    }
}

/// Bytes that nobody has chosen; ops and threads that exist are common.
fn any_bytes(s: &mut Scene, turn: usize) {
    let many = if turn % 4 == 0 { 1 + turn / 4 % 2 } else { s.r.range(1, 120) };
    if many > 2 {
        s.run_some(20);
    }
    while s.commands.len() < many {
        let op = if s.r.percent(95) { s.r.below(3) as u8 } else { s.r.byte() };
        if op > 2 || s.r.percent(15) {
            let many = s.r.below(6);
            s.run_some(many);
            continue;
        }
        let thread = if s.r.percent(70) { s.r.pick(&s.threads) } else { s.r.byte() };
        let number = s.r.next() as u32;
        s.command(op, thread, number);
    }
}

/// Good but for its end, which is missing.
fn cut(s: &mut Scene, turn: usize) -> Vec<u8> {
    s.run_some(20);
    for _ in 0..s.r.range(2, 30) {
        s.step();
    }
    let (k, mut input) = (s.commands.len(), s.input());
    input.truncate(match turn % 12 {
        0 => 0,
        1 => 1,
        at @ 2..=6 => 1 + 6 * s.r.below(k) + at - 1,
        7 => 1 + 6 * s.r.range(1, k - 1),
        8 => 6 * k,
        9 => 1 + 6 * k,
        10 => 1 + 6 * k + s.r.range(1, 3),
        _ => 1 + 6 * k + s.r.range(4, 20),
    });
    input
}

fn refused_file(s: &mut Scene, turn: usize) -> Vec<u8> {
    if turn % 3 > 0 {
        s.abort(3, 9);
    }
    s.run_some(12);
    for _ in 0..s.r.below(30) {
        s.step();
    }
    if turn % 7 == 2 || turn % 7 == 5 {
        s.commands.clear();
    }
    // Behind all that is run, so that only who judges the whole file first refuses it.
    s.run_some(2);
    if turn % 2 == 0 || turn % 7 == 5 {
        s.commands.pop();
    }
    let good = file_of(&s.records);
    let with = |bytes: &[u8]| file_of(&[&s.records.concat()[..], bytes]);
    let mut file = good.clone();
    match turn % 12 {
        0 => file.push(0),
        1 => file.truncate(good.len() - 1),
        2 => file[4] = s.r.pick(&[0, 2, 255]),
        3 => file = with(&[1, 12]),
        4 => file = with(&[3, 1, 9, 2]),
        5 => file = with(&[2, 6]),
        6 => file = with(&[2, 4, 0]),
        7 => file[..4].fill(0),
        8 => {
            // The version comes before the records.
            file = with(&[0]);
            file[4] = 2;
        }
        9 => {
            // The length comes before the version.
            file[4] = 2;
            file.push(1);
        }
        10 => {
            while file.len() < 65_537 {
                let room = 65_537 - file.len();
                file.extend(if room % 2 == 1 { wake(9) } else { reply() });
            }
            let length = file.len() as u32 - 4;
            file[..4].copy_from_slice(&length.to_be_bytes());
        }
        _ => file = with(&[0, 1, 4]),
    }
    s.input_with(&file)
}

/// Runs of more events than the file still has, and of none.
fn past_the_end(s: &mut Scene, turn: usize) {
    if turn % 3 != 0 {
        let many = s.r.range(1, 30);
        s.run_some(many);
    }
    s.run_some(0);
    for _ in 0..s.r.below(20) {
        s.step();
    }
    // The last events come with too large a number.
    let (more, op) = (s.r.pick(&[1, 2, 100, 250]), s.r.pick(&[3, 6, 255]));
    if turn % 4 != 3 && !s.full() {
        s.run_some(5);
        let last = s.commands.last_mut().unwrap();
        *last = Command { op, thread: last.thread + more, number: 0 };
    }
    for many in [0, 1, 255] {
        s.command(op, many, 0);
        let thread = s.thread();
        let number = s.number(thread);
        s.abort(thread, number);
        s.take();
    }
}

/// Long chains and many timeslices: loops that are broken by orders, and by events.
fn links(s: &mut Scene, turn: usize) {
    let many = if turn % 4 == 3 { 128 } else { s.r.range(6, 40) };
    let names = s.r.numbers(many);
    let mut records: Vec<Vec<u8>> = names.iter().enumerate().map(|(at, n)| if at == 0 { client(*n) } else { server(*n) }).collect();
    records.push(give(names[0], names[0], 255, 65_535));
    // Lower ones are not looked at until the chain's end is Blocked.
    for name in &names[1..] {
        records.push(give(*name, *name, 0, 9));
    }
    records.extend(names[1..].iter().map(|name| call(*name)));
    let end = names[many - 1];
    s.run(records);
    for round in 0..s.r.range(2, 4) {
        let pairs = s.r.pick(&[1, 2, 3, 10, 127]);
        let pairs = if many == 128 { if round == 0 { 30 } else { pairs.min(3) } } else { pairs };
        s.run((0..pairs).flat_map(|_| [call(names[1]), abort(end)]).collect());
        // A loop, or a Blocked end, that orders break.
        let event = s.r.pick(&[3, 5]);
        s.run(vec![if event == 3 { call(names[1]) } else { block() }]);
        let threads = s.some_linked(1, 3);
        let numbers = s.rising(threads.len());
        s.aborts(threads.into_iter().zip(numbers).collect());
        s.take();
        s.dig(2);
    }
}

/// Threads above 127; also those that are a held thread's number and 128.
fn above_127(s: &mut Scene) {
    s.crowd(3, 20);
    for _ in 0..s.r.range(2, 4) {
        for thread in s.some_linked(1, 4) {
            let first = s.any_number();
            s.abort(thread, first);
            let number = s.r.pick(&[first, first.saturating_add(1), first.saturating_sub(1), 0, u32::MAX]);
            let (abort, above) = (s.r.percent(50), s.r.pick(&[thread | 128, thread | 128, 128, 255]));
            s.order(abort, above, number);
        }
        for thread in [126, 127, 128, 129, 254, 255] {
            if s.r.percent(40) {
                let number = s.any_number();
                s.abort(thread, number);
            }
        }
        s.take();
        s.dig(4);
        s.run_some(4);
    }
}

/// Between an order and its take the thread replies, is woken, is removed, is made again, or only now gets its link.
fn gone(s: &mut Scene, turn: usize) {
    let early = s.threads.clone();
    if turn % 2 == 0 {
        for thread in early {
            let number = s.number(thread);
            s.abort(thread, number);
        }
    }
    s.crowd(3, 20);
    for _ in 0..s.r.range(2, 4) {
        let threads = s.some_linked(2, 5);
        let numbers = s.rising(threads.len());
        s.aborts(threads.iter().copied().zip(numbers).collect());
        let mut records = Vec::new();
        for thread in &threads {
            records.extend(match s.r.below(6) {
                0 => vec![remove(*thread)],
                1 => vec![remove(*thread), client(*thread)],
                2 => vec![remove(*thread), server(*thread)],
                3 => vec![abort(*thread)],
                _ => vec![],
            });
        }
        s.run(records);
        let many = s.r.below(8);
        s.run_some(many);
        s.take();
        s.dig(3);
        s.run_some(5);
    }
}

/// A thread runs all the while, above some timeslices and below others.
fn something_runs(s: &mut Scene) {
    let mut threads = s.scene(20);
    let m = s.machine();
    let thread = (0..128).find(|n| m.threads[*n as usize].role == NONE).unwrap();
    let number = (0..128).find(|n| !m.slice_used[*n as usize]).unwrap();
    let priority = s.r.pick(&[0, 15, 35, 60, 128, 200, 255]);
    s.run(vec![client(thread), give(number, thread, priority, 100)]);
    for _ in 0..s.r.range(1, 2) {
        let mut numbers = s.rising(threads.len());
        s.r.shuffle(&mut numbers);
        s.aborts(threads.into_iter().zip(numbers).collect());
        s.take();
        s.dig(8);
        threads = s.some_linked(2, 6);
    }
}

/// An abort of a take: what its thread held before it, and what became of it.
struct Applied {
    number: u32,
    thread: u8,
    hold: Option<Hold>,
    /// How its walk ended: None for a loop, or where there is no such thread.
    end: Option<Hold>,
    looped: bool,
    answer: Answer,
}

/// A command, with what was before it and what was after it.
struct Step {
    op: u8,
    thread: u8,
    number: u32,
    before: Store,
    done: Done,
    ran: Runs,
    runs: Runs,
    /// The hold of its thread, if that is there.
    hold: Option<Hold>,
    aborts: Vec<Applied>,
    /// The threads that are there after it, and those of them that have a link.
    live: Vec<u8>,
    links: Vec<u8>,
    /// The refusals of the events that were run, and how many events the file had left before.
    events: Vec<u8>,
    left: usize,
}

impl Step {
    fn gives(&self, op: u8, refusal: u8) -> bool {
        self.op.min(3) == op && self.done.refusal == refusal
    }

    fn held(&self) -> Option<Held> {
        self.before.get(&self.thread).copied()
    }

    fn takes(&self) -> bool {
        self.op == 2
    }

    fn refused(&self, number: u8) -> usize {
        self.aborts.iter().filter(|a| a.answer.refusal == number).count()
    }

    fn accepted(&self) -> Vec<&Applied> {
        self.aborts.iter().filter(|a| a.answer.refusal == 0).collect()
    }
}

#[derive(Default)]
struct Stepper {
    orders: Option<Orders>,
    steps: Vec<Step>,
}

impl Program for Stepper {
    fn perform(&mut self, command: Command, rest: &mut &[&[u8]]) -> Done {
        let orders = self.orders.get_or_insert_with(Orders::without_plain);
        let Command { op, thread, number } = command;
        let (before, ran, mut m, left) = (orders.store.clone(), runs(&orders.machine), orders.machine.clone(), rest.len());
        let hold_before = hold(&m, thread);
        let (at_first, mut applied, mut events) = (m.clone(), Vec::new(), Vec::new());
        if op == 2 {
            for (number, thread) in aborts(&before) {
                let (hold, walk) = (hold(&m, thread), m.walk(thread as usize));
                let looped = hold.is_some() && walk.links == m.live;
                let end = if hold.is_some() && !looped { Some(m.threads[walk.end].hold) } else { None };
                let answer = m.abort(thread);
                // An abort changes its own thread's hold alone: its choice ends at that thread, or where it ended before, so no retry is
                // made. Thus what the aborts of a take are answered does not depend on those before them.
                assert_eq!(answer.refusal, at_first.clone().abort(thread).refusal, "an abort does not change what another is answered");
                applied.push(Applied { number, thread, hold, end, looped, answer });
            }
        } else if op > 2 {
            let mut ahead = *rest;
            events = next(&mut ahead, thread).iter().map(|record| m.next(record).unwrap().0.refusal).collect();
        }
        let done = orders.perform(command, rest);
        let (live, links, runs) = (threads(&m, |_| true), linked(&m), runs(&orders.machine));
        let step = Step { op, thread, number, before, done, ran, runs, hold: hold_before, aborts: applied, live, links, events, left };
        let aborted = step.accepted().iter().any(|a| runs.is_some_and(|runs| runs.0 == a.thread));
        assert!(op != 2 || runs == ran || aborted, "what runs after a take ran before it, or is an aborted thread");
        self.steps.push(step);
        done
    }

    fn machine(&self) -> &Machine {
        &self.orders.as_ref().expect("a command").machine
    }
}

/// One of the takes applies its aborts the other way round.
struct Turned {
    orders: Orders,
    /// So many commands are before that take.
    before: usize,
}

impl Program for Turned {
    fn perform(&mut self, command: Command, rest: &mut &[&[u8]]) -> Done {
        let this = self.before == 0;
        self.before = self.before.wrapping_sub(1);
        if !this {
            return self.orders.perform(command, rest);
        }
        let in_turn = aborts(&self.orders.store);
        self.orders.store.clear();
        let refused = in_turn.iter().rev().filter(|(_, thread)| self.orders.event(&abort(*thread)).refusal > 0).count();
        Done { refusal: 0, last: refused as u64 }
    }

    fn machine(&self) -> &Machine {
        &self.orders.machine
    }
}

/// What a later run shows of a take whose aborts came the other way round.
struct Shows {
    /// Of the take: two aborts or more that are accepted have one number; the chain of one was a loop; two ends were Blocked.
    equal: bool,
    looped: bool,
    blocked: bool,
    /// Something ran before the take.
    ran: bool,
    /// Of the first line that differs: more links than the right way round; one event.
    more: bool,
    one: bool,
    /// How many lines differ, and after how many other commands the first.
    lines: usize,
    later: usize,
}

/// Tries each take with its aborts the other way round.
fn turned(input: &[u8], answer: &str, steps: &[Step]) -> Vec<Shows> {
    let mut all = Vec::new();
    for (at, step) in steps.iter().enumerate().filter(|(_, step)| step.accepted().len() > 1) {
        let other = answered(input, &mut Turned { orders: Orders::without_plain(), before: at });
        let mut differ = Vec::new();
        for (line, (a, b)) in answer.lines().zip(other.lines()).enumerate() {
            if a != b {
                let ((a, right), (b, wrong)) = (a.rsplit_once(' ').unwrap(), b.rsplit_once(' ').unwrap());
                // Aborts taken the other way round leave the plain machine as it is: only links that are followed later can differ.
                assert!(a == b && line > at && steps[line].op > 2, "the order of aborts shows in later links alone");
                differ.push((line, wrong.parse::<u64>().unwrap() > right.parse().unwrap()));
            }
        }
        let accepted = step.accepted();
        if let Some((line, more)) = differ.first() {
            all.push(Shows {
                equal: accepted.windows(2).any(|two| two[0].number == two[1].number),
                looped: accepted.iter().any(|a| a.looped),
                blocked: accepted.iter().filter(|a| a.end == Some(Hold::Blocked)).count() > 1,
                ran: step.ran.is_some(),
                more: *more,
                one: steps[*line].events.len() == 1,
                lines: differ.len(),
                later: line - at - 1,
            });
        }
    }
    all
}

#[derive(Default)]
struct Cases(Vec<(String, bool)>);

impl Cases {
    fn add(&mut self, name: &str, occurs: bool) {
        self.0.push((name.to_string(), occurs));
    }
}

/// What must occur of whole inputs.
fn input_cases(input: &[u8], answer: &str, steps: &[Step]) -> Cases {
    let mut cases = Cases::default();
    let mut case = |name: &str, occurs: bool| cases.add(name, occurs);
    let says = |number: u8| answer == format!("file {number}\n");
    let whole = parts(input);
    let k = input.first().map_or(0, |k| *k as usize);
    // How many bytes of commands there are, if they are too few.
    let commands = if whole.is_none() && says(14) && !input.is_empty() { Some(input.len() - 1) } else { None };
    case("an empty input gives 14", says(14) && input.is_empty());
    case("a number of commands without a command gives 14", commands == Some(0));
    case("an input cut short behind a whole command gives 14", commands.is_some_and(|bytes| bytes > 0 && bytes % 6 == 0));
    for some in 1..6 {
        case(&format!("an input that has {some} of a command's 6 bytes gives 14"), commands.is_some_and(|bytes| bytes % 6 == some));
    }
    case("an input with the last byte of its commands missing gives 14", commands.is_some_and(|bytes| bytes + 1 == 6 * k));

    let file = whole.as_ref().map_or(&[][..], |(_, file)| file);
    let asked = whole.as_ref().map_or(&[][..], |(commands, _)| commands);
    let good = whole.is_some() && records(file).is_ok();
    let bad = |number: u8| whole.is_some() && says(number);
    let field = file.get(..4).map_or(0, |f| u32::from_be_bytes([f[0], f[1], f[2], f[3]]) as usize);
    case("no byte of a file gives 14, with commands", bad(14) && file.is_empty() && k > 0);
    case("no byte of a file gives 14, without commands", bad(14) && file.is_empty() && k == 0);
    case("a file of 1 to 3 bytes gives 14", bad(14) && !file.is_empty() && file.len() < 4);
    case("a file of 4 bytes gives 14", bad(14) && file.len() == 4);
    case("a file of 65,537 bytes gives 14, and its length field is right", bad(14) && file.len() == 65_537 && field == 65_533);
    case("a byte more than the length field says gives 14", bad(14) && file.len() > 4 && field + 5 == file.len() && file.len() < 65_536);
    case("a byte less than the length field says gives 14", bad(14) && file.len() > 4 && field + 3 == file.len());
    case("a length field of 0 gives 14", bad(14) && file.len() > 4 && field == 0);
    case("14 over 15", bad(14) && file.len() > 4 && file[4] != 1);
    case("15", bad(15));
    case("15 over 16", bad(15) && key::check(&[&file[..4], &[1], &file[5..]].concat()).is_err());
    case("16", bad(16));
    // As far as the records are good.
    let many = |end: usize| records(&file_of(&[&file[5..end]])).ok().map(|records| records.len());
    let before: usize = if bad(16) { (5..file.len()).rev().find_map(many).unwrap_or(0) } else { 0 };
    let run: usize = asked.iter().filter(|c| c.op > 2).map(|c| c.thread as usize).sum();
    case("16 for a record behind all that would be run", bad(16) && run > 0 && run <= before);
    for number in [14, 15, 16] {
        case(&format!("{number}, and there is no command"), bad(number) && k == 0);
        case(&format!("{number}, and the first command needs no event"), bad(number) && asked.first().is_some_and(|c| c.op < 3));
    }
    for many in [0, 1, 2, 255] {
        case(&format!("{many} command(s)"), good && k == many && answer.lines().count() == many);
    }
    case("no command, and a file without events", good && k == 0 && file.len() == 5);
    case("no command, and a file with events", good && k == 0 && file.len() > 5 && answer.is_empty());
    case("a file without events, and commands", good && k > 0 && file.len() == 5);
    case("a file of 65,536 bytes", good && k > 0 && file.len() == 65_536);
    case("the largest input", good && input.len() == 1 + 255 * 6 + 65_536);
    case("events are left that no command runs", steps.last().is_some_and(|s| s.left > s.events.len()));
    case("no event is run", good && k > 0 && file.len() > 5 && steps.iter().all(|s| s.events.is_empty()));
    case("no order is given, and some are taken", good && steps.iter().any(Step::takes) && steps.iter().all(|s| s.op > 1));
    case("orders are given, and none is taken", good && steps.iter().any(|s| s.gives(0, 0)) && steps.iter().all(|s| !s.takes()));
    cases
}

/// What must occur of orders.
fn order_cases(steps: &[Step]) -> Cases {
    let mut cases = Cases::default();
    let mut case = |name: &str, holds: &dyn Fn(&Step) -> bool| cases.add(name, steps.iter().any(|s| s.op < 2 && holds(s)));
    let names = [(0, "an abort"), (1, "a withdraw")];
    for (op, name) in names {
        for refusal in [0, 2, 27] {
            case(&format!("{name} gives {refusal}, and something runs"), &|s| s.gives(op, refusal) && s.runs.is_some());
            case(&format!("{name} gives {refusal}, and nothing runs"), &|s| s.gives(op, refusal) && s.runs.is_none());
        }
        case(&format!("{name} where nothing is held"), &|s| s.gives(op, 0) && s.held().is_none());
        case(&format!("{name} with number 0 where nothing is held"), &|s| s.gives(op, 0) && s.held().is_none() && s.number == 0);
        case(&format!("{name} with number 4294967295"), &|s| s.gives(op, 0) && s.number == u32::MAX);
        for (other, held) in names {
            let over = |s: &Step| s.held().filter(|h| h.abort == (other == 0)).map(|h| h.number);
            case(&format!("{name} over {held}"), &|s| s.gives(op, 0) && over(s).is_some());
            case(&format!("{name} over {held} with the number below"), &|s| s.gives(op, 0) && over(s).is_some_and(|n| n + 1 == s.number));
            case(&format!("{name} over {held} gives 27, equal"), &|s| s.gives(op, 27) && over(s) == Some(s.number));
            case(&format!("{name} over {held} gives 27, below by 1"), &|s| s.gives(op, 27) && over(s).is_some_and(|n| n == s.number + 1));
            case(&format!("{name} over {held} gives 27, far below"), &|s| s.gives(op, 27) && over(s).is_some_and(|n| n / 2 > s.number));
        }
        for thread in [0, 127] {
            case(&format!("{name} of thread {thread}"), &|s| s.gives(op, 0) && s.thread == thread);
        }
        for thread in [128, 255] {
            case(&format!("{name} of thread {thread} gives 2"), &|s| s.gives(op, 2) && s.thread == thread);
        }
        case(&format!("{name} of another thread above 127 gives 2"), &|s| s.gives(op, 2) && s.thread > 128 && s.thread < 255);
        let below = |s: &Step| s.before.get(&(s.thread & 127)).map(|h| h.number);
        case(&format!("{name} gives 2, and would give 27 of the thread less 128"), &|s| s.gives(op, 2) && below(s) >= Some(s.number));
        case(&format!("{name} gives 2, and would be taken of the thread less 128"), &|s| {
            s.gives(op, 2) && below(s).is_some_and(|n| n < s.number)
        });
        // Orders do not look at the machine.
        case(&format!("{name} of a thread that is not there"), &|s| s.gives(op, 0) && s.hold.is_none());
        case(&format!("{name} of the running thread"), &|s| s.gives(op, 0) && s.ran.is_some_and(|ran| ran.0 == s.thread));
        for (hold, held) in HOLDS {
            case(&format!("{name} of a thread that is {held}"), &|s| s.gives(op, 0) && s.hold == Some(hold));
        }
    }
    // Numbers held and given.
    let over = |s: &Step, refusal: u8| s.held().filter(|_| s.done.refusal == refusal).map(|h| (h.number, s.number));
    let bytes = |a: u32, b: u32| a.to_be_bytes().iter().zip(b.to_be_bytes()).map(|(a, b)| *a != b).collect::<Vec<bool>>();
    for (refusal, name) in [(0, "taken"), (27, "27")] {
        for byte in 0..4 {
            case(&format!("{name}, and byte {byte} alone differs"), &|s| {
                over(s, refusal).is_some_and(|(a, b)| bytes(a, b) == (0..4).map(|at| at == byte).collect::<Vec<bool>>())
            });
        }
        case(&format!("{name}, and the low 2 bytes say otherwise"), &|s| {
            over(s, refusal).is_some_and(|(a, b)| a != b && (b > a) != (b as u16 > a as u16))
        });
        case(&format!("{name}, and the high 2 bytes are equal"), &|s| over(s, refusal).is_some_and(|(a, b)| a != b && a >> 16 == b >> 16));
        case(&format!("{name}, and the bytes the other way round say otherwise"), &|s| {
            over(s, refusal).is_some_and(|(a, b)| a != b && (b > a) != (b.swap_bytes() > a.swap_bytes()))
        });
        case(&format!("{name}, and numbers with a sign say otherwise"), &|s| {
            over(s, refusal).is_some_and(|(a, b)| a != b && (b > a) != (b as i32 > a as i32))
        });
    }
    case("0 is held, and 1 is taken", &|s| over(s, 0) == Some((0, 1)));
    case("0 is held, and 0 gives 27", &|s| over(s, 27) == Some((0, 0)));
    case("4294967295 is held, and gives 27", &|s| over(s, 27) == Some((u32::MAX, u32::MAX)));
    case("4294967295 is held, and 0 gives 27", &|s| over(s, 27) == Some((u32::MAX, 0)));
    case("4294967294 is held, and 4294967295 is taken", &|s| over(s, 0) == Some((u32::MAX - 1, u32::MAX)));
    case("2147483647 is held, and 2147483648 is taken", &|s| over(s, 0) == Some((0x7FFF_FFFF, 0x8000_0000)));
    let others = |s: &Step| s.before.iter().filter(|(thread, _)| **thread != s.thread).map(|(_, h)| h.number).collect::<Vec<u32>>();
    case("taken, and the number is below all that others hold", &|s| {
        s.done.refusal == 0 && !others(s).is_empty() && others(s).iter().all(|n| *n > s.number)
    });
    case("taken, and another holds this number", &|s| s.done.refusal == 0 && others(s).contains(&s.number));
    case("27, and the number is above all that others hold", &|s| {
        s.done.refusal == 27 && !others(s).is_empty() && others(s).iter().all(|n| *n < s.number)
    });
    for many in [0, 1, 127, 128] {
        case(&format!("an order is given and {many} are held"), &|s| s.before.len() == many);
    }
    cases
}

const HOLDS: [(Hold, &str); 5] =
    [(Hold::Ready, "Ready"), (Hold::Idle, "Idle"), (Hold::Blocked, "Blocked"), (Hold::Calling, "Calling"), (Hold::Helping, "Helping")];

/// What must occur of takes.
fn take_cases(steps: &[Step], turned: &[Shows]) -> Cases {
    let mut cases = Cases::default();
    let mut case = |name: &str, holds: &dyn Fn(&Step) -> bool| cases.add(name, steps.iter().any(|s| s.takes() && holds(s)));
    for (least, most) in [(0, 0), (1, 1), (2, 2), (3, 9), (10, 99), (100, 127), (128, 128)] {
        case(&format!("a count of {least} to {most}"), &|s| !s.before.is_empty() && s.done.last >= least && s.done.last <= most);
    }
    case("nothing is held, and something runs", &|s| s.before.is_empty() && s.runs.is_some());
    case("nothing is held, and nothing runs", &|s| s.before.is_empty() && s.runs.is_none());
    case("withdraws alone are held", &|s| !s.before.is_empty() && s.aborts.is_empty());
    case("withdraws alone are held, and the thread of one has a link", &|s| {
        s.aborts.is_empty() && s.before.keys().any(|thread| s.links.contains(thread))
    });
    case("withdraws and aborts are held", &|s| !s.aborts.is_empty() && s.aborts.len() < s.before.len());
    case("withdraws and aborts are held, and the withdrawn thread keeps its link", &|s| {
        !s.accepted().is_empty() && s.before.iter().any(|(thread, held)| !held.abort && s.links.contains(thread))
    });
    case("a withdraw of a thread that is not there is not counted", &|s| {
        s.done.last == 0 && s.before.iter().any(|(thread, held)| !held.abort && !s.live.contains(thread))
    });
    case("a withdraw of a thread without a link is not counted", &|s| {
        s.done.last == 0 && s.before.iter().any(|(thread, held)| !held.abort && s.live.contains(thread) && !s.links.contains(thread))
    });
    case("aborts alone are held, two or more, all accepted", &|s| s.aborts.len() > 1 && s.accepted().len() == s.before.len());
    case("five aborts are accepted", &|s| s.accepted().len() > 4);
    let (four, ten) = (|s: &Step| s.refused(4), |s: &Step| s.refused(10));
    case("refused with 4 alone, once", &|s| four(s) == 1 && s.aborts.len() == 1);
    case("refused with 10 alone, once", &|s| ten(s) == 1 && s.aborts.len() == 1);
    case("refused with 4, and not with 10, beside one accepted", &|s| four(s) > 0 && ten(s) == 0 && !s.accepted().is_empty());
    case("refused with 10, and not with 4, beside one accepted", &|s| ten(s) > 0 && four(s) == 0 && !s.accepted().is_empty());
    case("refused with 4 and with 10", &|s| four(s) > 0 && ten(s) > 0);
    case("refused with 4 and with 10, not as often, beside accepted ones", &|s| {
        four(s) > 0 && ten(s) > 0 && four(s) != ten(s) && s.accepted().len() > 1 && s.accepted().len() != four(s) + ten(s)
    });
    let first = |s: &Step| s.aborts.first().map(|a| a.answer.refusal);
    case("the first is refused with 4, and a later one accepted", &|s| first(s) == Some(4) && !s.accepted().is_empty());
    case("the first is refused with 10, and a later one accepted", &|s| first(s) == Some(10) && !s.accepted().is_empty());
    case("the last is refused, and the first accepted", &|s| first(s) == Some(0) && s.aborts[s.aborts.len() - 1].answer.refusal > 0);
    for (hold, name) in HOLDS {
        let refusal = if hold >= Hold::Calling { 0 } else { 10 };
        case(&format!("{refusal} for a thread that is {name}"), &|s| {
            s.aborts.iter().any(|a| a.hold == Some(hold) && a.answer.refusal == refusal)
        });
    }
    case("10 for the thread that ran", &|s| s.aborts.iter().any(|a| a.answer.refusal == 10 && s.ran.is_some_and(|r| r.0 == a.thread)));
    for thread in [0, 127] {
        for refusal in [0, 4, 10] {
            case(&format!("{refusal} for thread {thread}"), &|s| {
                s.aborts.iter().any(|a| a.thread == thread && a.answer.refusal == refusal)
            });
        }
    }
    for number in [0, u32::MAX] {
        case(&format!("an abort with number {number} is accepted"), &|s| s.accepted().iter().any(|a| a.number == number));
    }

    // How the walk of an abort ends.
    for (hold, name) in &HOLDS[..3] {
        case(&format!("the walk of an abort ends {name}"), &|s| s.accepted().iter().any(|a| a.end == Some(*hold)));
    }
    case("the walk of an abort loops", &|s| s.accepted().iter().any(|a| a.looped));
    case("two walks of a take loop", &|s| s.accepted().iter().filter(|a| a.looped).count() > 1);
    case("a walk of a take loops, and one of a thread of that loop no longer does", &|s| {
        s.accepted().windows(2).any(|two| two[0].looped && !two[1].looped && two[1].end == Some(Hold::Ready))
    });
    case("two walks of a take end Blocked", &|s| s.accepted().iter().filter(|a| a.end == Some(Hold::Blocked)).count() > 1);
    case("a walk ends at a thread that the same take has aborted", &|s| {
        s.accepted().windows(2).any(|two| two[0].end == Some(Hold::Blocked) && two[1].end == Some(Hold::Ready))
    });
    for (least, most) in [(1, 1), (2, 9), (10, 99), (100, 99_999)] {
        case(&format!("an abort follows {least} to {most} links"), &|s| {
            s.accepted().iter().any(|a| a.answer.links >= least && a.answer.links <= most)
        });
    }

    // In which order.
    let numbers = |s: &Step| s.accepted().iter().map(|a| (a.number, a.thread)).collect::<Vec<(u32, u8)>>();
    case("accepted with equal numbers, two", &|s| numbers(s).windows(2).any(|w| w[0].0 == w[1].0));
    case("accepted with equal numbers, three", &|s| numbers(s).windows(3).any(|w| w[0].0 == w[2].0));
    case("accepted, all with one number, three or more", &|s| numbers(s).len() > 2 && numbers(s).iter().all(|n| n.0 == numbers(s)[0].0));
    case("accepted with equal numbers and others below and above", &|s| {
        numbers(s).windows(4).any(|w| w[0].0 < w[1].0 && w[1].0 == w[2].0 && w[2].0 < w[3].0)
    });
    case("accepted, and the numbers fall as the threads rise, three or more", &|s| {
        numbers(s).len() > 2 && numbers(s).windows(2).all(|w| w[0].0 < w[1].0 && w[0].1 > w[1].1)
    });
    case("accepted, and the numbers rise with the threads, three or more", &|s| {
        numbers(s).len() > 2 && numbers(s).windows(2).all(|w| w[0].0 < w[1].0 && w[0].1 < w[1].1)
    });
    let falls = |s: &Step, read: &dyn Fn(u32) -> i64| numbers(s).windows(2).any(|w| read(w[0].0) > read(w[1].0));
    case("accepted, and the bytes the other way round say another order", &|s| falls(s, &|n| n.swap_bytes() as i64));
    case("accepted, and numbers with a sign say another order", &|s| falls(s, &|n| n as i32 as i64));
    case("accepted, and the low 2 bytes say another order", &|s| falls(s, &|n| n as u16 as i64));
    case("accepted, and the high 2 bytes are equal", &|s| numbers(s).windows(2).any(|w| w[0].0 < w[1].0 && w[0].0 >> 16 == w[1].0 >> 16));

    // What a take does.
    let some = |s: &Step| !s.accepted().is_empty();
    case("a take lets something run, where nothing ran", &|s| some(s) && s.ran.is_none() && s.runs.is_some());
    case("a take changes what runs, where something ran", &|s| some(s) && s.ran.is_some() && s.runs.is_some() && s.runs != s.ran);
    case("a take changes nothing of what runs, where something runs", &|s| some(s) && s.ran.is_some() && s.runs == s.ran);
    case("a take changes nothing of what runs, where nothing runs", &|s| some(s) && s.ran.is_none() && s.runs.is_none());
    case("an aborted thread runs after a take", &|s| s.accepted().iter().any(|a| s.runs.is_some_and(|r| r.0 == a.thread)));
    case("the first that was aborted runs, and not the last", &|s| {
        s.accepted().len() > 1 && s.runs.is_some_and(|r| r.0 == s.accepted()[0].thread)
    });
    case("a take ignores its thread and its number", &|s| some(s) && s.thread > 0 && s.number > 0);
    case("the links of a take differ from its count", &|s| {
        s.aborts.iter().map(|a| a.answer.links as u64).sum::<u64>() != s.done.last && s.done.last > 0
    });

    // Aborts the other way round.
    let mut case = |name: &str, holds: &dyn Fn(&Shows) -> bool| {
        cases.add(&format!("with a take the other way round, {name}"), turned.iter().any(holds));
    };
    case("a later run follows more links", &|t| t.more);
    case("a later run follows fewer links", &|t| !t.more);
    case("a run of one event follows other links", &|t| t.one);
    case("the next command follows other links", &|t| t.later == 0);
    case("links differ for the first time after two other commands", &|t| t.later > 1);
    case("links differ in two lines", &|t| t.lines > 1);
    case("links differ, and numbers are equal", &|t| t.equal);
    case("links differ, and a chain is a loop", &|t| t.looped);
    case("links differ, and no chain is a loop", &|t| !t.looped && t.blocked);
    case("links differ, and something ran before", &|t| t.ran);
    case("links differ, and nothing ran before", &|t| !t.ran);
    cases
}

/// What must occur of several commands.
fn row_cases(steps: &[Step]) -> Cases {
    let mut cases = Cases::default();
    let mut case = |name: &str, occurs: bool| cases.add(name, occurs);
    let takes: Vec<(usize, &Step)> = steps.iter().enumerate().filter(|(_, s)| s.takes()).collect();
    case("two takes in a row, the second with nothing held", takes.windows(2).any(|w| {
        w[0].0 + 1 == w[1].0 && !w[0].1.before.is_empty() && w[1].1.before.is_empty()
    }));
    case("five takes with aborts", takes.iter().filter(|(_, s)| !s.aborts.is_empty()).count() > 4);
    case("a count above 0 after another", takes.iter().filter(|(_, s)| s.done.last > 0).count() > 1);
    case("a count of 0 after one above 0", takes.windows(2).any(|w| w[0].1.done.last > 0 && w[1].1.done.last == 0));
    // An order of a thread that was held at the take before, as an abort or a withdraw, and is no more.
    let again = |wanted: &dyn Fn(Held, &Step) -> bool| {
        steps.iter().enumerate().any(|(at, s)| {
            let last = takes.iter().rev().find(|(take, _)| *take < at);
            let held = last.and_then(|(_, take)| take.before.get(&s.thread));
            s.op < 2 && s.done.refusal == 0 && s.held().is_none() && held.is_some_and(|held| wanted(*held, s))
        })
    };
    case("after a take the number is taken again, of an abort", again(&|held, s| held.abort && held.number == s.number));
    case("after a take the number is taken again, of a withdraw", again(&|held, s| !held.abort && held.number == s.number));
    case("after a take a smaller number is taken, of an abort", again(&|held, s| held.abort && held.number > s.number));
    case("after a take a smaller number is taken, of a withdraw", again(&|held, s| !held.abort && held.number > s.number));
    case("after a take 0 is taken", again(&|held, s| held.number > 0 && s.number == 0));
    case("after a take 0 is taken again", again(&|held, s| held.number == 0 && s.number == 0));
    case("a thread is aborted by two takes", takes.iter().enumerate().any(|(at, (_, s))| {
        s.accepted().iter().any(|a| takes[at + 1..].iter().any(|(_, t)| t.accepted().iter().any(|b| a.thread == b.thread)))
    }));
    // The orders of a thread that led to what a take found: those since the take before.
    let led = |wanted: &dyn Fn(&[&Step], &Step, u8) -> bool| {
        takes.iter().enumerate().any(|(i, (at, take))| {
            let from = if i == 0 { 0 } else { takes[i - 1].0 + 1 };
            take.before.keys().any(|thread| {
                let orders: Vec<&Step> = steps[from..*at].iter().filter(|s| s.op < 2 && s.thread == *thread).collect();
                wanted(&orders, take, *thread)
            })
        })
    };
    let accepted = |take: &Step, thread: u8| take.accepted().iter().any(|a| a.thread == thread);
    let keeps = |take: &Step, thread: u8| take.links.contains(&thread);
    let ops = |orders: &[&Step], wanted: &[(u8, u8)]| {
        orders.len() == wanted.len() && orders.iter().zip(wanted).all(|(s, (op, refusal))| s.gives(*op, *refusal))
    };
    case("abort, withdraw: not applied, and the link stays", led(&|o, s, t| ops(o, &[(0, 0), (1, 0)]) && keeps(s, t)));
    case("abort, withdraw refused: applied", led(&|o, s, t| ops(o, &[(0, 0), (1, 27)]) && accepted(s, t)));
    case("withdraw, abort: applied", led(&|o, s, t| ops(o, &[(1, 0), (0, 0)]) && accepted(s, t)));
    case("withdraw, abort refused: not applied, and the link stays", led(&|o, s, t| ops(o, &[(1, 0), (0, 27)]) && keeps(s, t)));
    case("abort, withdraw, abort: applied", led(&|o, s, t| ops(o, &[(0, 0), (1, 0), (0, 0)]) && accepted(s, t)));
    case("abort, withdraw, abort refused: not applied, and the link stays", led(&|o, s, t| {
        ops(o, &[(0, 0), (1, 0), (0, 27)]) && keeps(s, t)
    }));
    case("abort, refused with a smaller number, and with one between: applied", led(&|o, s, t| {
        ops(o, &[(0, 0), (0, 27), (0, 27)]) && o[1].number < o[2].number && accepted(s, t)
    }));
    case("three aborts of one thread: applied once", led(&|o, s, t| ops(o, &[(0, 0), (0, 0), (0, 0)]) && accepted(s, t)));
    case("given before there was such a thread: applied", led(&|o, s, t| o[0].hold.is_none() && o.len() == 1 && accepted(s, t)));
    case("given before the thread had a link: applied", led(&|o, s, t| {
        o.len() == 1 && o[0].hold.is_some_and(|hold| hold < Hold::Calling) && accepted(s, t)
    }));
    let refused = |take: &Step, thread: u8, number: u8| take.aborts.iter().any(|a| a.thread == thread && a.answer.refusal == number);
    let had_link = |orders: &[&Step]| orders.iter().all(|s| s.hold >= Some(Hold::Calling));
    case("given while the thread had a link: refused with 4", led(&|o, s, t| had_link(o) && refused(s, t, 4)));
    case("given while the thread had a link: refused with 10", led(&|o, s, t| had_link(o) && refused(s, t, 10)));
    case("given while the thread was not there: refused with 4", led(&|o, s, t| {
        o.iter().all(|s| s.hold.is_none()) && refused(s, t, 4)
    }));
    case("given while the thread was not there: refused with 10", led(&|o, s, t| {
        o.iter().all(|s| s.hold.is_none()) && refused(s, t, 10)
    }));
    // The order in which the accepted aborts were given last, against that in which they are applied.
    let given = |take: usize, thread: u8| steps[..take].iter().rposition(|s| s.op < 2 && s.thread == thread && s.done.refusal == 0);
    case("applied in another order than given, three or more", takes.iter().any(|(at, s)| {
        let all: Vec<Option<usize>> = s.accepted().iter().map(|a| given(*at, a.thread)).collect();
        all.len() > 2 && all.windows(2).any(|w| w[0] > w[1])
    }));
    case("equal numbers applied in another order than given", takes.iter().any(|(at, s)| {
        s.accepted().windows(2).any(|w| w[0].number == w[1].number && given(*at, w[0].thread) > given(*at, w[1].thread))
    }));
    case("a run between an order and its take", takes.iter().any(|(at, s)| {
        s.accepted().iter().any(|a| given(*at, a.thread).is_some_and(|from| steps[from..*at].iter().any(|s| s.events.contains(&0))))
    }));
    cases
}

/// What must occur of runs.
fn run_cases(steps: &[Step]) -> Cases {
    let mut cases = Cases::default();
    let mut case = |name: &str, holds: &dyn Fn(&Step) -> bool| cases.add(name, steps.iter().any(|s| s.op > 2 && holds(s)));
    for op in [3, 4, 255] {
        case(&format!("op {op} runs events"), &|s| s.op == op && s.events.contains(&0));
    }
    case("another op runs events", &|s| s.op > 4 && s.op < 255 && s.events.contains(&0));
    case("a run of 0 events, and some are left", &|s| s.thread == 0 && s.left > 0);
    case("a run of 0 events, and none is left", &|s| s.thread == 0 && s.left == 0);
    case("a run of 1 event", &|s| s.thread == 1 && s.events.len() == 1);
    case("a run of 128 to 254 events", &|s| s.events.len() > 127 && s.events.len() < 255);
    case("a run of 255 events", &|s| s.events.len() == 255);
    case("a run of as many events as are left", &|s| s.thread > 0 && s.left == s.thread as usize);
    case("a run past the file's end, of some events", &|s| s.thread as usize > s.left && s.left > 0);
    case("a run past the file's end, of none", &|s| s.thread > 0 && s.left == 0);
    case("a run past the file's end by 1", &|s| s.thread as usize == s.left + 1 && s.left > 0);
    case("events of a run are refused, and others accepted behind them", &|s| s.events.windows(2).any(|two| two[0] > 0 && two[1] == 0));
    case("the last event of a run is refused, and others accepted", &|s| s.events.last() > Some(&0) && s.events.contains(&0));
    case("all events of a run are refused", &|s| !s.events.is_empty() && !s.events.contains(&0));
    case("a run changes what runs", &|s| s.ran.is_some() && s.runs.is_some() && s.ran != s.runs);
    case("a run with orders held", &|s| !s.before.is_empty() && s.events.contains(&0));
    case("a run ignores its number", &|s| s.number > 0 && s.events.contains(&0));
    for (least, most) in [(0, 0), (1, 1), (2, 9), (10, 99), (100, 255), (256, 9_999), (10_000, 65_535), (65_536, 999_999)] {
        case(&format!("{least} to {most} links in all"), &|s| s.events.len() > 1 && s.done.last >= least && s.done.last <= most);
    }
    case("a million links in all", &|s| s.done.last >= 1_000_000);
    case("links in all, and the last event follows none", &|s| s.done.last > 0 && s.events.last() > Some(&0));
    case("thread and timeslice have three digits, and the count too", &|s| {
        s.runs.is_some_and(|(thread, timeslice, count)| thread > 99 && timeslice > 99 && count > 99)
    });
    cases
}

/// Other ways to read the request. Where one of them gives another answer than the program's own reading, the input tells the two apart.
#[derive(Clone, Copy, PartialEq)]
enum Reading {
    Right,
    ByThread,
    LargerThread,
    LargestNumber,
    Given,
    EqualGiven,
    FirstNumber,
    Little,
    Signed,
    Low2,
    High2,
    Low3,
    LittleSorted,
    SignedSorted,
    Low2Sorted,
    High2Sorted,
    WithdrawLeaves,
    WithdrawAlone,
    WithdrawForgets,
    WithdrawRefused,
    WithdrawEqual,
    WithdrawAny,
    WithdrawLast,
    WithdrawCounts,
    NotCleared,
    WithdrawsKept,
    RefusedKept,
    NumbersKept,
    HighestKept,
    EqualTaken,
    AllTaken,
    ZeroRefused,
    ZeroFree,
    MaxFree,
    MaxSkipped,
    Skips0,
    Skips127,
    Across,
    Takes128,
    Refuses127,
    Before2,
    Modulo,
    NotThere,
    NotLinked,
    AtOnce,
    RefusedNumber,
    RefusedKind,
    CountsAccepted,
    CountsAll,
    Only4,
    Only10,
    Adds,
    AtMost1,
    TakeLinks,
    Stops,
    OneEach,
    LastLinks,
    RunStops,
    Op3Alone,
}

const READINGS: [(Reading, &str); 58] = [
    (Reading::ByThread, "the aborts are taken by thread before number"),
    (Reading::LargerThread, "equal numbers are taken by larger thread first"),
    (Reading::LargestNumber, "the aborts are taken from the largest number down"),
    (Reading::Given, "the aborts are taken in the order in which they were given"),
    (Reading::EqualGiven, "equal numbers are taken in the order in which they were given"),
    (Reading::FirstNumber, "an abort that supersedes another keeps its place"),
    (Reading::Little, "numbers are little-endian"),
    (Reading::Signed, "numbers have a sign"),
    (Reading::Low2, "of numbers the low 2 bytes are compared"),
    (Reading::High2, "of numbers the high 2 bytes are compared"),
    (Reading::Low3, "of numbers the low 3 bytes are compared"),
    (Reading::LittleSorted, "a take compares numbers as little-endian"),
    (Reading::SignedSorted, "a take compares numbers with a sign"),
    (Reading::Low2Sorted, "a take compares the low 2 bytes"),
    (Reading::High2Sorted, "a take compares the high 2 bytes"),
    (Reading::WithdrawLeaves, "a withdraw leaves the earlier abort in force"),
    (Reading::WithdrawAlone, "a withdraw where nothing is held is not held"),
    (Reading::WithdrawForgets, "a withdraw leaves nothing held"),
    (Reading::WithdrawRefused, "a withdraw where nothing is held is refused"),
    (Reading::WithdrawEqual, "a withdraw with the number that is held is taken"),
    (Reading::WithdrawAny, "a withdraw with any number is taken"),
    (Reading::WithdrawLast, "no abort supersedes a withdraw"),
    (Reading::WithdrawCounts, "a take counts withdraws too"),
    (Reading::NotCleared, "a take does not clear the store"),
    (Reading::WithdrawsKept, "a take does not clear withdraws"),
    (Reading::RefusedKept, "a take does not clear the aborts that are refused"),
    (Reading::NumbersKept, "after a take each thread keeps its highest number"),
    (Reading::HighestKept, "after a take the highest number of all is kept"),
    (Reading::EqualTaken, "27 is not given for equal numbers"),
    (Reading::AllTaken, "27 is never given"),
    (Reading::ZeroRefused, "27 is given for number 0 where nothing is held"),
    (Reading::ZeroFree, "an order with number 0 is as none"),
    (Reading::MaxFree, "an order with number 4294967295 is as none"),
    (Reading::MaxSkipped, "an abort with number 4294967295 is not applied"),
    (Reading::Skips0, "an abort of thread 0 is not applied"),
    (Reading::Skips127, "an abort of thread 127 is not applied"),
    (Reading::Across, "27 is given if any thread's number is as high"),
    (Reading::Takes128, "thread 128 is accepted"),
    (Reading::Refuses127, "thread 127 is refused"),
    (Reading::Before2, "27 comes before 2, for the thread less 128"),
    (Reading::Modulo, "threads above 127 stand for those less 128"),
    (Reading::NotThere, "an order for a thread that is not there is refused"),
    (Reading::NotLinked, "an abort for a thread neither Calling nor Helping is refused"),
    (Reading::AtOnce, "an abort order is done at once"),
    (Reading::RefusedNumber, "a refused order changes the number held"),
    (Reading::RefusedKind, "a refused order changes abort or withdraw"),
    (Reading::CountsAccepted, "the count counts accepted aborts"),
    (Reading::CountsAll, "the count counts all aborts"),
    (Reading::Only4, "the count counts 4 alone"),
    (Reading::Only10, "the count counts 10 alone"),
    (Reading::Adds, "counts of several takes keep adding"),
    (Reading::AtMost1, "the count says only whether one is refused"),
    (Reading::TakeLinks, "the last column of a take is its links"),
    (Reading::Stops, "a take stops at a refused abort"),
    (Reading::OneEach, "a take applies one abort"),
    (Reading::LastLinks, "of a run the last event's links count"),
    (Reading::RunStops, "a run stops at a refused event"),
    (Reading::Op3Alone, "op 3 alone runs events"),
];

impl Reading {
    /// As what a number counts.
    fn number(self, number: u32) -> i64 {
        match self {
            Reading::Little => number.swap_bytes() as i64,
            Reading::Signed => number as i32 as i64,
            Reading::Low2 => number as u16 as i64,
            Reading::High2 => (number >> 16) as i64,
            Reading::Low3 => (number % (1 << 24)) as i64,
            _ => number as i64,
        }
    }

    /// By what the aborts of a take are put in order.
    fn rank(self, thread: u8, kept: Kept) -> (i64, i64) {
        let (number, thread) = (self.number(kept.number), thread as i64);
        match self {
            Reading::ByThread => (thread, number),
            Reading::LargerThread => (number, -thread),
            Reading::LargestNumber => (-number, thread),
            Reading::Given => (kept.given, 0),
            Reading::EqualGiven => (number, kept.given),
            Reading::FirstNumber => (kept.first as i64, thread),
            Reading::LittleSorted => (Reading::Little.number(kept.number), thread),
            Reading::SignedSorted => (Reading::Signed.number(kept.number), thread),
            Reading::Low2Sorted => (Reading::Low2.number(kept.number), thread),
            Reading::High2Sorted => (Reading::High2.number(kept.number), thread),
            _ => (number, thread),
        }
    }
}

#[derive(Clone, Copy)]
struct Kept {
    number: u32,
    abort: bool,
    /// The first number that was held for the thread since the last take.
    first: u32,
    given: i64,
}

/// The program by one of the readings; by `Right`, as it should be.
struct Other {
    reading: Reading,
    store: BTreeMap<u8, Kept>,
    machine: Machine,
    given: i64,
    /// What is kept of the takes so far, where the reading keeps it: each thread's highest number, and the counts.
    numbers: BTreeMap<u8, u32>,
    sum: u64,
}

impl Other {
    fn new(reading: Reading) -> Other {
        Other { reading, store: BTreeMap::new(), machine: Machine::new(), given: 0, numbers: BTreeMap::new(), sum: 0 }
    }

    fn order(&mut self, abort: bool, thread: u8, number: u32) -> u8 {
        use Reading::*;
        let reading = self.reading;
        let slot = if reading == Modulo || reading == Before2 { thread & 127 } else { thread };
        let held = self.store.get(&slot).copied().filter(|kept| match reading {
            ZeroFree => kept.number > 0,
            MaxFree => kept.number < u32::MAX,
            _ => true,
        });
        let bound = match reading {
            Across => self.store.values().map(|kept| kept.number).max(),
            NumbersKept => held.map(|kept| kept.number).max(self.numbers.get(&slot).copied()),
            HighestKept => held.map(|kept| kept.number).max(self.numbers.values().max().copied()),
            AllTaken => None,
            WithdrawAny if !abort => None,
            _ => held.map(|kept| kept.number),
        };
        let late = match bound {
            Some(bound) if reading.number(number) == reading.number(bound) => reading != EqualTaken && (reading != WithdrawEqual || abort),
            Some(bound) => reading.number(number) < reading.number(bound),
            None => reading == WithdrawRefused && !abort || reading == ZeroRefused && number == 0,
        };
        let most = match reading {
            Takes128 => 128,
            Refuses127 => 126,
            Modulo => 255,
            _ => 127,
        };
        let linked = hold(&self.machine, thread) >= Some(Hold::Calling);
        if late && reading == Before2 {
            return 27;
        }
        if thread > most {
            return 2;
        }
        if reading == NotThere && hold(&self.machine, thread).is_none() {
            return 4;
        }
        if reading == NotLinked && abort && !linked {
            return if hold(&self.machine, thread).is_none() { 4 } else { 10 };
        }
        if late {
            if let Some(kept) = self.store.get_mut(&slot) {
                match reading {
                    RefusedNumber => kept.number = number,
                    RefusedKind => kept.abort = abort,
                    _ => (),
                }
            }
            return 27;
        }
        self.given += 1;
        let mut kept = Kept { number, abort, first: held.map_or(number, |kept| kept.first), given: self.given };
        match reading {
            WithdrawAlone if !abort && held.is_none() => return 0,
            WithdrawForgets if !abort => {
                self.store.remove(&slot);
                return 0;
            }
            WithdrawLeaves if !abort => kept.abort = held.is_some_and(|kept| kept.abort),
            WithdrawLast => kept.abort &= held.is_none_or(|kept| kept.abort),
            AtOnce if abort => {
                self.machine.abort(thread);
                kept.abort = false;
            }
            _ => (),
        }
        self.store.insert(slot, kept);
        0
    }

    fn take(&mut self) -> u64 {
        use Reading::*;
        let reading = self.reading;
        let skips = |thread: u8, number: u32| match reading {
            MaxFree | MaxSkipped => number == u32::MAX,
            ZeroFree => number == 0,
            Skips0 => thread == 0,
            Skips127 => thread == 127,
            _ => false,
        };
        let in_force = self.store.iter().filter(|(thread, kept)| kept.abort && !skips(**thread, kept.number));
        let mut aborts: Vec<(u8, Kept)> = in_force.map(|(thread, kept)| (*thread, *kept)).collect();
        aborts.sort_by_key(|(thread, kept)| reading.rank(*thread, *kept));
        if reading == OneEach {
            aborts.truncate(1);
        }
        let mut answers = Vec::new();
        for (thread, _) in &aborts {
            answers.push(self.machine.abort(*thread));
            if reading == Stops && answers[answers.len() - 1].refusal > 0 {
                break;
            }
        }
        let many = |number: u8| answers.iter().filter(|answer| answer.refusal == number).count() as u64;
        let count = many(4) + many(10);
        self.sum += count;
        let withdraws = self.store.values().filter(|kept| !kept.abort).count() as u64;
        match reading {
            NotCleared => (),
            WithdrawsKept => self.store.retain(|_, kept| !kept.abort),
            RefusedKept => {
                let refused = |thread: &u8| aborts.iter().zip(&answers).any(|((t, _), answer)| t == thread && answer.refusal > 0);
                self.store.retain(|thread, _| refused(thread));
            }
            OneEach if !aborts.is_empty() => self.store.retain(|thread, _| *thread != aborts[0].0),
            _ => {
                for (thread, kept) in std::mem::take(&mut self.store) {
                    let highest = self.numbers.entry(thread).or_insert(kept.number);
                    *highest = kept.number.max(*highest);
                }
            }
        }
        match reading {
            CountsAccepted => many(0),
            CountsAll => aborts.len() as u64,
            WithdrawCounts => count + withdraws,
            Only4 => many(4),
            Only10 => many(10),
            Adds => self.sum,
            AtMost1 => count.min(1),
            TakeLinks => answers.iter().map(|answer| answer.links as u64).sum(),
            _ => count,
        }
    }

    fn run(&mut self, op: u8, many: u8, rest: &mut &[&[u8]]) -> u64 {
        if self.reading == Reading::Op3Alone && op > 3 {
            return 0;
        }
        let mut links = 0;
        for record in next(rest, many) {
            let answer = self.machine.next(record).unwrap().0;
            links = answer.links as u64 + if self.reading == Reading::LastLinks { 0 } else { links };
            if self.reading == Reading::RunStops && answer.refusal > 0 {
                break;
            }
        }
        links
    }
}

impl Program for Other {
    fn perform(&mut self, Command { op, thread, number }: Command, rest: &mut &[&[u8]]) -> Done {
        match op {
            0 | 1 => Done { refusal: self.order(op == 0, thread, number), last: 0 },
            2 => Done { refusal: 0, last: self.take() },
            _ => Done { refusal: 0, last: self.run(op, thread, rest) },
        }
    }

    fn machine(&self) -> &Machine {
        &self.machine
    }
}

/// Inputs of so many bytes are not misread: that would be slow.
const LARGE: usize = 4_000;

/// Fails where one of the cases never occurs.
fn count(inputs: &Path, answers: &Path) -> std::io::Result<bool> {
    let (names, mut times, mut commands) = (names(inputs)?, Vec::<(String, usize)>::new(), 0);
    for name in &names {
        let (input, answer) = (std::fs::read(inputs.join(name))?, std::fs::read_to_string(answers.join(name))?);
        let mut stepper = Stepper::default();
        assert!(answered(&input, &mut stepper) == answer, "the answers are this program's");
        let (steps, small) = (stepper.steps, input.len() < LARGE);
        let turned = if small { turned(&input, &answer, &steps) } else { vec![] };
        let mut cases = input_cases(&input, &answer, &steps).0;
        cases.extend([order_cases(&steps).0, take_cases(&steps, &turned).0, row_cases(&steps).0, run_cases(&steps).0].concat());
        let other = |reading| small && !steps.is_empty() && answered(&input, &mut Other::new(reading)) != answer;
        assert!(!other(Reading::Right), "with no other reading the answer is the same");
        for (reading, name) in READINGS {
            cases.push((format!("with another reading the answer is another: {name}"), other(reading)));
        }
        times.resize(cases.len(), Default::default());
        for (sum, (case, occurs)) in times.iter_mut().zip(cases) {
            *sum = (case, sum.1 + occurs as usize);
        }
        commands += steps.len();
    }
    for (case, times) in &times {
        println!("{times:5} {case}");
    }
    for (case, _) in times.iter().filter(|(_, times)| *times == 0) {
        println!("it never occurs: {case}");
    }
    let occur = times.iter().filter(|(_, times)| *times > 0).count();
    println!("{occur} of {} cases occur; {} inputs have {commands} commands", times.len(), names.len());
    Ok(occur == times.len())
}

fn names(folder: &Path) -> std::io::Result<Vec<std::ffi::OsString>> {
    let mut names: Vec<_> = std::fs::read_dir(folder)?.map(|entry| entry.map(|entry| entry.file_name())).collect::<Result<_, _>>()?;
    names.sort();
    Ok(names)
}

/// The events as they happen, by command: those of the file, and the aborts of a take. None where the input is not answered with lines.
fn happens(input: &[u8]) -> Option<Vec<(Command, Vec<Vec<u8>>)>> {
    let (commands, file) = parts(input)?;
    let records = records(file).ok()?;
    let (mut rest, mut store, mut all) = (&records[..], Store::new(), Vec::new());
    for command in commands {
        let events = match command.op {
            0 | 1 => {
                let late = store.get(&command.thread).is_some_and(|held: &Held| held.number >= command.number);
                if command.thread < 128 && !late {
                    store.insert(command.thread, Held { number: command.number, abort: command.op == 0 });
                }
                vec![]
            }
            2 => aborts(&std::mem::take(&mut store)).into_iter().map(|(_, thread)| abort(thread)).collect(),
            _ => next(&mut rest, command.thread).iter().map(|record| record.to_vec()).collect(),
        };
        all.push((command, events));
    }
    Some(all)
}

/// Whether the answer follows from the key: what runs is what the key says after the same events, the count of a take is that of its
/// aborts' lines with 4 or 10, and the links of a run are those of its events' lines.
fn follows(input: &[u8], answer: &str, key: &str) -> bool {
    let mut lines = key.lines().map(|line| line.split(' ').collect::<Vec<&str>>());
    let mut shown = ["-".to_string(), "-".to_string(), "0".to_string()];
    let mut text = String::new();
    for (at, (command, events)) in happens(input).expect("lines").into_iter().enumerate() {
        let (mut refused, mut links) = (0, 0);
        for _ in events {
            let Some(line) = lines.next().filter(|line| line.len() == 7) else { return false };
            refused += ["4", "10"].contains(&line[2]) as u64;
            links += line[6].parse().unwrap_or(0);
            shown = [line[3].to_string(), line[4].to_string(), line[5].to_string()];
        }
        // Whether an order is accepted, no key says.
        let said = answer.lines().nth(at).unwrap_or("").split(' ').skip(1).take(2).collect::<Vec<&str>>().join(" ");
        let (said, last) = match command.op {
            0 | 1 => (said, 0),
            2 => ("ok 0".to_string(), refused),
            _ => ("ok 0".to_string(), links),
        };
        writeln!(text, "{} {said} {} {last}", at + 1, shown.join(" ")).unwrap();
    }
    lines.next().is_none() && text == answer
}

fn main() -> std::io::Result<()> {
    let arguments: Vec<String> = std::env::args().collect();
    let words: Vec<&str> = arguments[1..].iter().map(String::as_str).collect();
    let mut input = Vec::new();
    match words[..] {
        ["-o", folder, ref inputs @ ..] => {
            for input in inputs.iter().map(Path::new) {
                std::fs::write(Path::new(folder).join(input.file_name().unwrap()), answer(&std::fs::read(input)?))?;
            }
        }
        ["-n", seed, count, folder] => {
            let (seed, count): (u64, usize) = (seed.parse().expect("a seed"), count.parse().expect("a count"));
            for i in 0..count {
                std::fs::write(Path::new(folder).join(format!("orders-{i:05}")), self::input(seed, i))?;
            }
        }
        ["-c", inputs, answers] => {
            if !count(Path::new(inputs), Path::new(answers))? {
                std::process::exit(1);
            }
        }
        ["-l", folder, ref inputs @ ..] => {
            for input in inputs.iter().map(Path::new) {
                let events = happens(&std::fs::read(input)?).unwrap_or_default();
                let list = file_of(&events.into_iter().flat_map(|(_, events)| events).collect::<Vec<_>>());
                if list.len() > 5 && list.len() <= key::LIMIT {
                    std::fs::write(Path::new(folder).join(input.file_name().unwrap()), list)?;
                }
            }
        }
        ["-k", inputs, answers, keys] => {
            let (inputs, answers, keys, mut many) = (Path::new(inputs), Path::new(answers), Path::new(keys), 0);
            for name in names(inputs)? {
                let Ok(key) = std::fs::read_to_string(keys.join(&name)) else { continue };
                let (input, answer) = (std::fs::read(inputs.join(&name))?, std::fs::read_to_string(answers.join(&name))?);
                if !follows(&input, &answer, &key) {
                    println!("{}: the answer does not follow from the key of its events", name.to_string_lossy());
                    std::process::exit(1);
                }
                many += 1;
            }
            println!("{many} answers follow from the key of their events");
        }
        ["-m", number] => {
            let (reading, _) = READINGS[number.parse::<usize>().expect("a reading") - 1];
            std::io::stdin().read_to_end(&mut input)?;
            std::io::stdout().write_all(answered(&input, &mut Other::new(reading)).as_bytes())?;
        }
        _ => {
            std::io::stdin().read_to_end(&mut input)?;
            std::io::stdout().write_all(answer(&input).as_bytes())?;
        }
    }
    Ok(())
}
