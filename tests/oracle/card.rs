//! The program `card` of request [9]: the register block of the bridge card, over the machine of `key.rs`, which counts links. The plain
//! machine of `plain.rs` gets the same events, and both must say the same of each; if they do not, the question is about the documents.
//! The readings that were given: byte 3 reads 0 whatever is stored there, and its lent byte is never touched; reading, writing and raising
//! work all the same with the card off, and a raise also with the line disabled; in a write to byte 1, bits written 0 stay; to raise a line
//! that is pending is accepted; bit i of a byte is its 2^i; a poll looks at the lowest line pending and enabled alone, so a line whose wake
//! is refused stays pending and holds back those above it.
//!
//! An input is a byte n, a block of n bytes, a byte k, k commands of 3 bytes (op a b) and an event file. Op 0 reads register a, 1 writes b
//! to register a, 2 raises line a, 3 polls, any other runs the next a events. An answer has two lines for each command: the key's columns;
//! and the byte read with the block behind it. An input cut short before the file, and a refused file, have the line `file N` instead.
//! `card` reads an input from standard input and prints the answer.
//! `card -o FOLDER INPUT...` writes the answer for each input to FOLDER, under the input's own name.
//! `card -n SEED COUNT FOLDER` makes inputs. The same arguments give the same inputs.
//! `card -c INPUTS ANSWERS`: two folders. Says in how many inputs each case of `input_cases`, `register_cases`, `poll_cases`, `run_cases`
//! and `READINGS` occurs. What never occurs gets a sentence; then the exit status is 1.

#[allow(dead_code)]
#[path = "key.rs"]
mod key;
#[allow(dead_code)]
#[path = "plain.rs"]
mod plain;

use key::{Answer, Hold, Machine, NONE, SERVER, SPENT};
use plain::Plain;
use std::fmt::Write as _;
use std::io::{Read, Write};
use std::path::Path;

/// The running thread, the paying timeslice and the donation count.
type Runs = Option<(u8, u8, u32)>;

/// "The number of donation links after the last helping link of the chain", from the plain machine's holds.
fn plain_runs(m: &Plain) -> Runs {
    let runs = m.runs?;
    let (mut at, mut count) = (m.timeslices[&runs.timeslice].owner, 0);
    loop {
        (at, count) = match m.threads[&at].hold {
            plain::Hold::Calling(next) => (next, count + 1),
            plain::Hold::Helping(next) => (next, 0),
            _ => break,
        }
    }
    assert_eq!(at, runs.thread, "the chain of the paying timeslice ends at the running thread");
    Some((runs.thread, runs.timeslice, count))
}

struct Card {
    block: Vec<u8>,
    machine: Machine,
    /// None where cards are made or counted: answers are given with both machines.
    plain: Option<Plain>,
}

/// What a command did. A refused one reads 0 and follows 0 links.
#[derive(Clone, Copy, PartialEq)]
struct Done {
    refusal: u8,
    read: u8,
    links: u64,
}

fn bit(byte: u8, line: u8) -> bool {
    byte >> line & 1 == 1
}

impl Card {
    fn new(block: &[u8]) -> Card {
        Card { block: block.to_vec(), machine: Machine::new(), plain: Some(Plain::empty()) }
    }

    /// Without the plain machine.
    fn copy(&self) -> Card {
        Card { block: self.block.clone(), machine: self.machine.clone(), plain: None }
    }

    fn runs(&self) -> Runs {
        let m = &self.machine;
        if m.running == NONE { None } else { Some((m.running, m.current, m.count)) }
    }

    fn event(&mut self, record: &[u8]) -> Answer {
        let answer = self.machine.next(record).expect("a whole record").0;
        if let Some(plain) = &mut self.plain {
            let refusal = plain.step(&plain::read(&file_of(&[record])).expect("a good record")[0]);
            let shown = plain_runs(plain);
            assert!(refusal == answer.refusal && shown == self.runs(), "both machines say the same of an event");
        }
        answer
    }

    /// "20, a block that is not 12 bytes, before all others."
    fn registers(&mut self) -> Result<&mut [u8; 12], u8> {
        self.block.as_mut_slice().try_into().map_err(|_| 20)
    }

    /// "Byte 3 reads 0."
    fn read(&mut self, register: u8) -> Result<u8, u8> {
        let block = self.registers()?;
        match register {
            3 => Ok(0),
            0..=11 => Ok(block[register as usize]),
            _ => Err(21),
        }
    }

    /// "Writing a 1 to a pending bit clears it."
    fn write(&mut self, register: u8, byte: u8) -> Result<(), u8> {
        let block = self.registers()?;
        match register {
            1 => block[1] &= !byte,
            0 | 2 | 4..=11 => block[register as usize] = byte,
            _ => return Err(21),
        }
        Ok(())
    }

    fn raise(&mut self, line: u8) -> Result<(), u8> {
        let block = self.registers()?;
        if line > 7 {
            return Err(21);
        }
        block[1] |= 1 << line;
        Ok(())
    }

    /// "The lowest line that is pending and enabled, with the card on."
    fn poll(&mut self) -> Result<u32, u8> {
        let block = self.registers()?;
        let line = (0..8).find(|line| bit(block[0], 0) && bit(block[1], *line) && bit(block[2], *line)).ok_or(22)?;
        self.take(line)
    }

    /// "Clears its bit and wakes its thread. If the wake is refused, its number comes back and the block is unchanged."
    fn take(&mut self, line: u8) -> Result<u32, u8> {
        let thread = self.block[4 + line as usize];
        let answer = self.event(&wake(thread));
        if answer.refusal > 0 {
            return Err(answer.refusal);
        }
        self.block[1] &= !(1 << line);
        Ok(answer.links)
    }

    fn perform<'a>(&mut self, [op, a, b]: [u8; 3], records: &mut dyn Iterator<Item = &'a [u8]>) -> Done {
        let (mut read, mut links) = (0, 0);
        let outcome = match op {
            0 => self.read(a).map(|byte| read = byte),
            1 => self.write(a, b),
            2 => self.raise(a),
            3 => self.poll().map(|followed| links = followed as u64),
            _ => {
                links = records.take(a as usize).map(|record| self.event(record).links as u64).sum();
                Ok(())
            }
        };
        Done { refusal: outcome.err().unwrap_or(0), read, links }
    }

    fn show(&self, number: usize, done: Done, text: &mut String) {
        let Done { refusal, read, links } = done;
        let word = if refusal == 0 { "ok" } else { "no" };
        match self.runs() {
            Some((thread, timeslice, count)) => writeln!(text, "{number} {word} {refusal} {thread} {timeslice} {count} {links}"),
            None => writeln!(text, "{number} {word} {refusal} - - 0 {links}"),
        }
        .unwrap();
        write!(text, "{read}").unwrap();
        for byte in &self.block {
            write!(text, " {byte}").unwrap();
        }
        text.push('\n');
    }
}

struct Parts<'a> {
    block: &'a [u8],
    commands: Vec<[u8; 3]>,
    file: &'a [u8],
}

/// None where the input is cut short before the file.
fn parts(input: &[u8]) -> Option<Parts<'_>> {
    let (n, rest) = input.split_first()?;
    let block = rest.get(..*n as usize)?;
    let (k, rest) = rest[block.len()..].split_first()?;
    let commands = rest.get(..3 * *k as usize)?;
    let file = &rest[commands.len()..];
    Some(Parts { block, commands: commands.chunks(3).map(|c| [c[0], c[1], c[2]]).collect(), file })
}

/// The records of a file, one by one; or the number with which the file is refused.
fn records(file: &[u8]) -> Result<Vec<&[u8]>, u8> {
    let checked = key::check(file);
    assert_eq!(checked.err(), plain::read(file).err(), "both machines refuse the same files");
    let (mut all, mut rest) = (Vec::new(), checked?);
    while let [length, ..] = rest {
        let (record, tail) = rest.split_at(1 + *length as usize);
        all.push(record);
        rest = tail;
    }
    Ok(all)
}

fn answer(input: &[u8]) -> String {
    answered(input, &mut |card, command, records| card.perform(command, records))
}

type Perform<'p> = &'p mut dyn for<'a> FnMut(&mut Card, [u8; 3], &mut dyn Iterator<Item = &'a [u8]>) -> Done;

fn answered(input: &[u8], perform: Perform) -> String {
    let Some(Parts { block, commands, file }) = parts(input) else { return "file 14\n".to_string() };
    let records = match records(file) {
        Ok(records) => records,
        Err(number) => return format!("file {number}\n"),
    };
    let (mut card, mut text, mut rest) = (Card::new(block), String::new(), records.into_iter());
    for (at, command) in commands.into_iter().enumerate() {
        let done = perform(&mut card, command, &mut rest);
        card.show(at + 1, done, &mut text);
    }
    text
}

// The events in short.
fn client(thread: u8) -> Vec<u8> {
    vec![3, 1, thread, 0]
}
fn server(thread: u8) -> Vec<u8> {
    vec![3, 1, thread, 1]
}
fn give(timeslice: u8, thread: u8, priority: u8, quantum: u16) -> Vec<u8> {
    vec![6, 2, timeslice, thread, priority, (quantum >> 8) as u8, quantum as u8]
}
fn call(server: u8) -> Vec<u8> {
    vec![2, 3, server]
}
fn reply() -> Vec<u8> {
    vec![1, 4]
}
fn block() -> Vec<u8> {
    vec![1, 5]
}
fn wake(thread: u8) -> Vec<u8> {
    vec![2, 6, thread]
}
fn charge(amount: u16) -> Vec<u8> {
    vec![3, 7, (amount >> 8) as u8, amount as u8]
}
fn abort(thread: u8) -> Vec<u8> {
    vec![2, 8, thread]
}
fn refill(timeslice: u8) -> Vec<u8> {
    vec![2, 9, timeslice]
}
fn remove(thread: u8) -> Vec<u8> {
    vec![2, 10, thread]
}
fn rank(timeslice: u8, priority: u8) -> Vec<u8> {
    vec![3, 11, timeslice, priority]
}

fn file_of<T: AsRef<[u8]>>(records: &[T]) -> Vec<u8> {
    let records: Vec<u8> = records.iter().flat_map(|record| record.as_ref().to_vec()).collect();
    [&(records.len() as u32 + 1).to_be_bytes(), &[1][..], &records].concat()
}

/// splitmix64
struct Random(u64);

impl Random {
    fn next(&mut self) -> u64 {
        self.0 = self.0.wrapping_add(0x9E37_79B9_7F4A_7C15);
        let mut z = self.0;
        z = (z ^ (z >> 30)).wrapping_mul(0xBF58_476D_1CE4_E5B9);
        z = (z ^ (z >> 27)).wrapping_mul(0x94D0_49BB_1331_11EB);
        z ^ (z >> 31)
    }

    /// 0 to n - 1
    fn below(&mut self, n: usize) -> usize {
        (self.next() >> 11) as usize % n
    }

    /// a to b
    fn range(&mut self, a: usize, b: usize) -> usize {
        a + self.below(b - a + 1)
    }

    fn byte(&mut self) -> u8 {
        self.below(256) as u8
    }

    fn percent(&mut self, p: usize) -> bool {
        self.below(100) < p
    }

    fn pick<T: Copy>(&mut self, from: &[T]) -> T {
        from[self.below(from.len())]
    }

    fn some<T: Copy>(&mut self, from: &[T]) -> Option<T> {
        if from.is_empty() { None } else { Some(self.pick(from)) }
    }

    /// So many of the numbers 0 to 127, in any order. Both ends of the range are common.
    fn numbers(&mut self, many: usize) -> Vec<u8> {
        let mut all: Vec<u8> = (0..128).collect();
        for i in (1..all.len()).rev() {
            all.swap(i, self.below(i + 1));
        }
        for end in [0, 127] {
            let (from, to) = (all.iter().position(|n| *n == end).unwrap(), self.below(2 * many));
            all.swap(from, to.min(127));
        }
        all.truncate(many);
        all
    }
}

fn threads(m: &Machine, wanted: impl Fn(&key::Thread) -> bool) -> Vec<u8> {
    (0..128).filter(|n| m.threads[*n as usize].role != NONE && wanted(&m.threads[*n as usize])).collect()
}

fn blocked(m: &Machine) -> Vec<u8> {
    threads(m, |t| t.hold == Hold::Blocked)
}

/// With which number a wake would be refused now.
fn wake_refusal(m: &Machine, thread: u8) -> u8 {
    m.clone().wake(thread).refusal
}

/// An input in the making. The card runs along, so that commands and events can be chosen by what would happen.
struct Scene {
    r: Random,
    card: Card,
    /// As it was lent.
    block: Vec<u8>,
    commands: Vec<[u8; 3]>,
    records: Vec<Vec<u8>>,
    /// The numbers that threads and timeslices have. They are few, so that removed ones come again.
    threads: Vec<u8>,
    numbers: Vec<u8>,
    priorities: Vec<u8>,
    /// Events among a hundred that are drawn without looking at the machine.
    wrong: usize,
}

impl Scene {
    fn new(mut r: Random, many: usize) -> Scene {
        let (threads, numbers) = (r.numbers(many), r.numbers(many));
        let priorities = (0..r.range(1, 4)).map(|_| r.pick(&[0, 1, 10, 20, 128, 255])).collect();
        let wrong = r.pick(&[0, 5, 20]);
        let (card, block, commands, records) = (Card::new(&[]).copy(), vec![], vec![], vec![]);
        let mut scene = Scene { r, card, block, commands, records, threads, numbers, priorities, wrong };
        scene.lend_any();
        scene
    }

    fn lend(&mut self, block: Vec<u8>) {
        self.card.block = block.clone();
        self.block = block;
    }

    fn lend_any(&mut self) {
        let r = &mut self.r;
        let mut block = vec![
            r.pick(&[1, 1, 1, 0, 3, 255, 254, 129]),
            r.pick(&[0, 0, 255, 1, 128, 85, 170]),
            r.pick(&[255, 255, 255, 0, 254, 127, 204]),
            r.pick(&[0, 0, 1, 77, 255]),
        ];
        let strange = r.percent(20);
        for _ in 0..8 {
            block.push(if strange { r.byte() } else { r.pick(&self.threads) });
        }
        self.lend(block);
    }

    /// On, and every line enabled.
    fn lend_on(&mut self, lines: &[u8]) {
        let control = self.r.pick(&[1, 1, 3, 255]);
        let mut block = vec![control, 0, 255, self.r.pick(&[0, 9, 255])];
        block.extend((0..8).map(|line| lines.get(line).copied().unwrap_or(255)));
        self.lend(block);
    }

    fn full(&self) -> bool {
        self.commands.len() >= 255
    }

    fn command(&mut self, op: u8, a: u8, b: u8) -> u8 {
        if self.full() {
            return 22;
        }
        self.commands.push([op, a, b]);
        self.card.perform([op, a, b], &mut std::iter::empty()).refusal
    }

    fn read(&mut self, register: u8) {
        let ignored = self.r.pick(&[0, 0, 1, 255]);
        self.command(0, register, ignored);
    }

    fn write(&mut self, register: u8, byte: u8) {
        self.command(1, register, byte);
    }

    fn raise(&mut self, line: u8) {
        let ignored = self.r.pick(&[0, 0, 1, 255]);
        self.command(2, line, ignored);
    }

    fn poll(&mut self) -> u8 {
        let ignored = [self.r.pick(&[0, 0, 0, 9, 255]), self.r.pick(&[0, 0, 0, 3, 128])];
        self.command(3, ignored[0], ignored[1])
    }

    fn polls(&mut self) {
        while self.poll() == 0 {}
    }

    fn run(&mut self, records: Vec<Vec<u8>>) {
        for some in records.chunks(255) {
            if self.full() {
                return;
            }
            let command = [self.r.pick(&[4, 4, 4, 5, 7, 8, 128, 255]), some.len() as u8, self.r.pick(&[0, 0, 1, 255])];
            self.commands.push(command);
            self.card.perform(command, &mut some.iter().map(Vec::as_slice));
            self.records.extend(some.to_vec());
        }
    }

    fn run_some(&mut self, many: usize) {
        let (mut m, mut records) = (self.card.machine.clone(), Vec::new());
        for _ in 0..many {
            let record = self.event(&m);
            m.next(&record);
            records.push(record);
        }
        if records.is_empty() {
            self.command(4, 0, 0);
        }
        self.run(records);
    }

    /// An event that leads somewhere. Blocks are common, wakes are rare: those are what polls are for.
    fn event(&mut self, m: &Machine) -> Vec<u8> {
        let r = &mut self.r;
        let (thread, number, priority) = (r.pick(&self.threads), r.pick(&self.numbers), r.pick(&self.priorities));
        if r.percent(self.wrong) {
            let any = r.byte();
            return match r.below(8) {
                0 => wake(any),
                1 => client(any),
                2 => call(any),
                3 => reply(),
                4 => charge(any as u16),
                5 => abort(any),
                6 => remove(any | 64),
                _ => give(number, thread, any, 0),
            };
        }
        let live = threads(m, |_| true);
        let missing: Vec<u8> = self.threads.iter().copied().filter(|n| !live.contains(n)).collect();
        let poor: Vec<u8> = live.iter().copied().filter(|n| !m.owns[*n as usize]).collect();
        let free: Vec<u8> = self.numbers.iter().copied().filter(|n| !m.slice_used[*n as usize]).collect();
        let nothing = m.running == NONE;
        if !missing.is_empty() && (live.len() < 2 || r.percent(25)) {
            let new = r.pick(&missing);
            return if r.percent(50) { server(new) } else { client(new) };
        }
        if !poor.is_empty() && !free.is_empty() && r.percent(if nothing { 60 } else { 15 }) {
            return give(r.pick(&free), r.pick(&poor), priority, r.pick(&[1, 2, 100, 65_535]));
        }
        let linked = threads(m, |t| t.hold >= Hold::Calling);
        let idle = threads(m, |t| t.hold == Hold::Idle);
        let servers: Vec<u8> = threads(m, |t| t.role == SERVER).into_iter().filter(|n| *n != m.running).collect();
        let left = m.left();
        let event = match r.below(if nothing { 40 } else { 100 }) {
            0..=9 => r.some(&linked).map(abort).filter(|_| nothing || r.percent(30)),
            10..=19 => r.some(&m.placed(SPENT..SPENT + 1)).map(refill),
            20..=24 => r.some(&blocked(m)).map(wake).filter(|_| r.percent(40)),
            25..=29 => r.some(&live).map(remove).filter(|_| r.percent(40)),
            30..=34 => Some(rank(number, priority)),
            35..=39 if nothing => r.some(&blocked(m)).map(wake),
            35..=46 if !idle.is_empty() => r.some(&idle).map(call),
            35..=59 => r.some(&servers).map(call),
            60..=69 if servers.len() < threads(m, |t| t.role == SERVER).len() => Some(reply()),
            70..=75 if left > 0 => Some(charge(if r.percent(50) { left } else { 1 })),
            _ => None,
        };
        event.unwrap_or_else(block)
    }

    /// A thread for a line: Blocked now, live, not live, above 127.
    fn thread(&mut self) -> u8 {
        let m = &self.card.machine;
        let (blocked, live) = (blocked(m), threads(m, |_| true));
        let r = &mut self.r;
        match r.below(10) {
            0..=5 if !blocked.is_empty() => r.pick(&blocked),
            6..=7 if !live.is_empty() => r.pick(&live),
            8 => r.pick(&[128, 129, 200, 254, 255]),
            9 => r.byte(),
            _ => r.pick(&self.threads),
        }
    }

    /// A line of a thread that is Blocked just then, or not; any where there is none.
    fn line(&mut self, wanted: bool) -> u8 {
        let Ok(block) = self.card.registers().copied() else { return self.r.below(8) as u8 };
        let m = &self.card.machine;
        let lines: Vec<u8> = (0..8).filter(|line| (wake_refusal(m, block[4 + *line as usize]) == 0) == wanted).collect();
        self.r.some(&lines).unwrap_or(self.r.below(8) as u8)
    }

    fn register(&self, register: usize) -> u8 {
        self.card.block.get(register).copied().unwrap_or(0)
    }

    fn step(&mut self) {
        let (some, any) = (1u8 << self.r.below(8), self.r.byte());
        match self.r.below(20) {
            0..=3 => {
                let many = self.r.pick(&[0, 1, 1, 2, 2, 3, 5, 8, 13]);
                self.run_some(many);
            }
            4..=7 => {
                let wanted = self.r.percent(70);
                let line = self.line(wanted);
                self.raise(line);
            }
            8..=9 => {
                self.poll();
            }
            10..=11 => self.polls(),
            12..=13 => {
                let (line, thread) = (self.r.below(8) as u8, self.thread());
                self.write(4 + line, thread);
            }
            14 => {
                let enabled = self.register(2);
                let byte = self.r.pick(&[255, 255, enabled ^ some, enabled | some, any]);
                self.write(2, byte);
            }
            15 => {
                let control = self.register(0);
                let byte = self.r.pick(&[1, 1, control | 1, control ^ 1, 0, 254, any]);
                self.write(0, byte);
            }
            16 => {
                let pending = self.register(1);
                let byte = self.r.pick(&[0, 255, some, pending & some, pending & any, !pending, any]);
                self.write(1, byte);
            }
            17 => {
                let register = self.r.below(12) as u8;
                self.read(register);
            }
            18 => self.wrong_one(),
            _ => self.free(),
        }
    }

    /// A command that is refused, with 20 or 21.
    fn wrong_one(&mut self) {
        let any = self.r.byte();
        let register = self.r.pick(&[12, 12, 13, 127, 128, 255, any.max(12)]);
        match self.r.below(4) {
            0 => self.read(register),
            1 => self.write(register, any),
            2 => {
                let byte = self.r.pick(&[0, 1, 255, any]);
                let stored = self.register(3);
                let byte = self.r.pick(&[byte, stored]);
                self.write(3, byte);
            }
            _ => {
                let line = self.r.pick(&[8, 8, 9, 11, 12, 128, 255, any.max(8)]);
                self.raise(line);
            }
        }
    }

    /// The lowest line that is pending and enabled no longer is.
    fn free(&mut self) {
        let lowest = self.register(1) & self.register(2);
        let lowest = lowest & lowest.wrapping_neg();
        let enabled = self.register(2);
        match self.r.below(3) {
            0 => self.write(1, lowest),
            1 => self.write(2, enabled & !lowest),
            _ => {
                self.write(2, enabled & !lowest);
                self.polls();
                self.write(2, enabled);
            }
        }
    }

    /// So many chains, each with a client that owns a timeslice and so many servers; the last thread of each is Blocked, and nothing runs.
    /// Hands back those threads. Some chains are helped by a further client.
    fn crowd(&mut self, chains: &[usize]) -> Vec<u8> {
        let many: usize = chains.iter().map(|links| links + 2).sum();
        let mut names = self.r.numbers(many.min(128)).into_iter();
        let mut slices = self.r.numbers(many.min(128)).into_iter();
        let (mut ends, mut records) = (Vec::new(), Vec::new());
        for links in chains {
            let owner = names.next().unwrap();
            let mut end = owner;
            records.push(client(owner));
            records.push(give(slices.next().unwrap(), owner, self.r.pick(&self.priorities), self.r.pick(&[2, 100])));
            let first = records.len();
            for _ in 0..*links {
                end = names.next().unwrap();
                records.push(server(end));
                records.push(call(end));
            }
            records.push(block());
            if *links > 0 && names.len() > 0 && self.r.percent(40) {
                let (helper, helped) = (names.next().unwrap(), records[first][2]);
                records.push(client(helper));
                records.push(give(slices.next().unwrap(), helper, self.r.pick(&self.priorities), 100));
                records.push(call(helped));
            }
            ends.push(end);
        }
        self.run(records);
        ends
    }

    /// As `crowd`, of up to 8 chains, with a line for each of their ends. The block is lent before the events are run: it is written.
    fn manned(&mut self, most: usize, longest: usize) -> Vec<u8> {
        let many = self.r.range(2, most);
        let chains: Vec<usize> = (0..many).map(|_| self.r.below(longest + 1)).collect();
        self.lend_on(&[]);
        let ends = self.crowd(&chains);
        for (line, end) in (0..).zip(&ends) {
            self.write(4 + line, *end);
        }
        ends
    }

    fn raise_all(&mut self, mut lines: Vec<u8>) {
        while !lines.is_empty() {
            let line = lines.swap_remove(self.r.below(lines.len()));
            self.raise(line);
        }
    }

    fn input(&self) -> Vec<u8> {
        self.input_with(&file_of(&self.records))
    }

    fn input_with(&self, file: &[u8]) -> Vec<u8> {
        let commands = self.commands.concat();
        [&[self.block.len() as u8][..], &self.block, &[self.commands.len() as u8], &commands, file].concat()
    }
}

const KINDS: [&str; 20] = [
    "mixed", "few threads", "crowd", "held", "one thread", "chain", "any bytes", "length", "cut", "refused file", "255 commands",
    "no command", "past the end", "pending", "control", "links", "registers", "off and on", "disabled", "refused wakes",
];

fn input(seed: u64, at: usize) -> Vec<u8> {
    let mut r = Random(Random(seed.wrapping_mul(0x1_0000_0001).wrapping_add(at as u64)).next());
    let (kind, turn) = (KINDS[at % KINDS.len()], at / KINDS.len());
    let many = match kind {
        "few threads" => r.range(1, 4),
        "links" => r.range(20, 60),
        _ => r.range(3, 16),
    };
    let mut s = Scene::new(r, many);
    match kind {
        "mixed" | "few threads" => {
            let steps = s.r.range(5, 120);
            s.run_some(many * 2);
            for _ in 0..steps {
                s.step();
            }
        }
        "crowd" => crowd(&mut s, turn),
        "held" => held(&mut s, turn),
        "one thread" => one_thread(&mut s),
        "chain" => chain(&mut s, turn),
        "any bytes" => any_bytes(&mut s, turn),
        "length" => length(&mut s, turn),
        "cut" => return cut(&mut s, turn),
        "refused file" => return refused_file(&mut s, turn),
        "255 commands" => {
            s.run_some(many * 2);
            while !s.full() {
                s.step();
            }
        }
        "no command" => {
            s.run_some(many);
            s.commands.clear();
            // Of any length, by turns.
            let n = [12, 0, 255, 11, 13][turn % 5];
            s.block = (0..n).map(|_| s.r.byte()).collect();
            if turn % 4 == 1 {
                s.records.clear();
            }
        }
        "past the end" => past_the_end(&mut s, turn),
        "pending" => pending(&mut s, turn),
        "control" => control(&mut s),
        "links" => links(&mut s, turn),
        "registers" => registers(&mut s),
        "off and on" => off_and_on(&mut s),
        "disabled" => disabled(&mut s),
        _ => refused_wakes(&mut s),
    }
    // Events that are left, whatever they are: nobody runs them. A run past the end would.
    if turn % 4 == 1 && kind != "past the end" {
        s.records.extend([block(), client(0), wake(0)]);
    }
    s.input()
}

/// All lines at once, or a few; polls until the first refusal, then again.
fn crowd(s: &mut Scene, turn: usize) {
    let most = if turn % 2 == 0 { 8 } else { 4 };
    let ends = s.manned(most, 3);
    let lines: Vec<u8> = (0..if turn % 4 == 0 { 8 } else { ends.len() as u8 }).collect();
    if turn % 4 == 0 {
        for line in ends.len()..8 {
            let thread = s.r.pick(&ends);
            s.write(4 + line as u8, thread);
        }
    }
    for _ in 0..s.r.range(1, 3) {
        s.raise_all(lines.clone());
        s.polls();
        let many = s.r.range(1, 8);
        s.run_some(many);
        s.polls();
    }
}

/// A line whose wake is refused below one whose wake would not be; then, by turns, what lets it be taken.
fn held(s: &mut Scene, turn: usize) {
    s.manned(6, 2);
    let low = s.r.below(6) as u8;
    let high = s.r.range(low as usize + 1, 7) as u8;
    let ends = blocked(&s.card.machine);
    let thread = s.r.pick(&ends);
    // A thread that runs, so that it can be made to block.
    let runner: Vec<u8> = (0..128).filter(|n| s.card.machine.threads[*n as usize].role == NONE).collect();
    let runner = s.r.pick(&runner);
    let number = (0..128).find(|n| !s.card.machine.slice_used[*n as usize]).unwrap();
    s.run(vec![client(runner), give(number, runner, 255, 100)]);
    let missing = (0..128).find(|n| s.card.machine.threads[*n as usize].role == NONE).unwrap();
    let refused = if turn % 7 == 4 { runner } else { s.r.pick(&[runner, missing, 128, 255]) };
    s.write(4 + low, refused);
    s.write(4 + high, thread);
    let mut lines = vec![low, high];
    if s.r.percent(30) && high < 7 {
        lines.push(high + 1);
    }
    s.raise_all(lines);
    for _ in 0..s.r.range(1, 2) {
        s.poll();
    }
    match turn % 7 {
        0 => s.write(1, 1 << low),
        1 => s.write(2, !(1 << low)),
        2 => {
            s.write(0, 0);
            s.poll();
            s.write(0, 1);
            s.poll();
            s.write(1, 1 << low);
        }
        3 => {
            let other = s.r.pick(&ends);
            s.write(4 + low, other);
        }
        4 => s.run(vec![block()]),
        5 => {
            s.run_some(3);
            s.poll();
            s.write(0, 254);
            s.poll();
            s.raise(low);
            s.write(2, 255 ^ 1 << low);
            s.write(0, 255);
        }
        // More is cleared than the lower line, but not the higher.
        _ => s.write(1, !(1 << high)),
    }
    s.polls();
    s.write(2, 255);
    s.polls();
    for _ in 0..s.r.below(20) {
        s.step();
    }
}

/// Several lines with one thread, which blocks again after some of its wakes.
fn one_thread(s: &mut Scene) {
    let ends = s.manned(3, 2);
    let thread = s.r.pick(&ends);
    for line in 0..8 {
        if s.r.percent(80) {
            s.write(4 + line, thread);
        }
    }
    s.raise_all((0..8).collect());
    for _ in 0..s.r.range(4, 14) {
        s.poll();
        if s.r.percent(60) {
            let many = s.r.range(1, 2);
            s.run(vec![block(); many]);
        }
    }
    s.polls();
}

/// A long chain: its end blocks and is polled over and over.
fn chain(s: &mut Scene, turn: usize) {
    let links = [1, 2, 3, 10, 25, 60, 126, 100][turn % 8];
    s.lend_on(&[]);
    let end = s.crowd(&[links])[0];
    let line = s.r.below(8) as u8;
    s.write(4 + line, end);
    for _ in 0..s.r.range(2, 6) {
        s.raise(line);
        s.polls();
        s.run(vec![block()]);
        if s.r.percent(30) {
            s.run_some(2);
        }
    }
    s.raise(line);
    s.polls();
}

/// Bytes that nobody has chosen; registers, lines and ops that exist are common.
fn any_bytes(s: &mut Scene, turn: usize) {
    let n = if s.r.percent(80) { 12 } else { s.r.range(10, 14) };
    let block = (0..n).map(|_| s.r.byte()).collect();
    s.lend(block);
    let many = if turn % 4 == 0 { 1 + turn / 4 % 2 } else { s.r.range(1, 120) };
    while s.commands.len() < many {
        let op = if s.r.percent(95) { s.r.below(4) as u8 } else { s.r.byte() };
        if op > 3 || s.r.percent(15) {
            let many = s.r.below(6);
            s.run_some(many);
            continue;
        }
        let a = if s.r.percent(80) { s.r.below(14) as u8 } else { s.r.byte() };
        let b = s.r.byte();
        s.command(op, a, b);
    }
}

/// Blocks that are not of 12 bytes; where there are more the first 12 would often be good, and a line of them could be taken.
fn length(s: &mut Scene, turn: usize) {
    let any = s.r.below(256);
    let n = [0, 1, 11, 13, 24, 255, any][turn % 7];
    s.run_some(20);
    let thread = s.thread();
    let mut block = vec![1, 255, 255, 7];
    block.resize(n.max(4), thread);
    block.truncate(n);
    if s.r.percent(30) {
        block = (0..n).map(|_| s.r.byte()).collect();
    }
    s.lend(block);
    for register in [0, 1, 3, 4, 11, 12, 255] {
        s.read(register);
        let byte = s.r.byte();
        s.write(register, byte);
    }
    for line in [0, 7, 8, 255] {
        s.raise(line);
    }
    s.poll();
    for _ in 0..s.r.range(0, 60) {
        s.step();
    }
}

/// Good but for its end, which is missing.
fn cut(s: &mut Scene, turn: usize) -> Vec<u8> {
    s.run_some(20);
    for _ in 0..s.r.range(2, 30) {
        s.step();
    }
    if turn % 3 == 1 {
        s.block = (0..s.r.range(2, 255)).map(|_| s.r.byte()).collect();
    }
    let (n, k, mut input) = (s.block.len(), s.commands.len(), s.input());
    input.truncate(match turn % 10 {
        0 => 0,
        1 => 1,
        2 => s.r.range(2, n),
        3 => 1 + n,
        4 => 2 + n,
        5 => 2 + n + s.r.range(1, 3 * k - 1),
        6 => 2 + n + 3 * k - s.r.range(1, 2),
        7 => 2 + n + 3 * s.r.range(1, k - 1),
        8 => 2 + n + 3 * k,
        _ => 2 + n + 3 * k + s.r.range(1, 3),
    });
    input
}

fn refused_file(s: &mut Scene, turn: usize) -> Vec<u8> {
    if turn % 3 > 0 {
        s.raise(3);
    }
    s.run_some(12);
    for _ in 0..s.r.below(30) {
        s.step();
    }
    if turn % 5 == 3 {
        s.block = (0..s.r.range(0, 255)).map(|_| s.r.byte()).collect();
    }
    if turn % 7 == 2 {
        s.commands.clear();
    }
    // Behind all that is run, so that only who judges the whole file first refuses it.
    s.run_some(2);
    if turn % 2 == 0 {
        s.commands.pop();
    }
    let good = file_of(&s.records);
    let with = |bytes: &[u8]| file_of(&[&s.records.concat()[..], bytes]);
    let mut file = good.clone();
    match turn % 12 {
        0 => file.push(0),
        1 => file.truncate(good.len() - 1),
        2 => file[4] = s.r.pick(&[0, 2, 255]),
        3 => file = with(&[1, 12]),
        4 => file = with(&[3, 1, 9, 2]),
        5 => file = with(&[2, 6]),
        6 => file = with(&[2, 4, 0]),
        7 => file[..4].fill(0),
        8 => {
            // The version comes before the records.
            file = with(&[0]);
            file[4] = 2;
        }
        9 => {
            // The length comes before the version.
            file[4] = 2;
            file.push(1);
        }
        10 => {
            while file.len() < 65_537 {
                let room = 65_537 - file.len();
                file.extend(if room % 2 == 1 { wake(9) } else { reply() });
            }
            let length = file.len() as u32 - 4;
            file[..4].copy_from_slice(&length.to_be_bytes());
        }
        _ => file = with(&[0, 1, 4]),
    }
    s.input_with(&file)
}

/// Runs of more events than the file still has, and of none.
fn past_the_end(s: &mut Scene, turn: usize) {
    if turn % 3 != 0 {
        let many = s.r.range(1, 30);
        s.run_some(many);
    }
    s.run_some(0);
    for _ in 0..s.r.below(20) {
        s.step();
    }
    // The last events come with too large a number.
    let (more, op) = (s.r.pick(&[1, 2, 100, 250]), s.r.pick(&[4, 6, 255]));
    if turn % 4 != 3 && !s.full() {
        s.run_some(5);
        let last = s.commands.last_mut().unwrap();
        *last = [op, last[1] + more, 0];
    }
    for a in [0, 1, 255] {
        s.command(op, a, 0);
        s.step_without_run();
    }
}

impl Scene {
    /// The file is at its end.
    fn step_without_run(&mut self) {
        let (wanted, lines) = (self.r.percent(80), self.records.len());
        let line = self.line(wanted);
        self.raise(line);
        self.poll();
        self.free();
        assert_eq!(lines, self.records.len());
    }
}

/// Writes to byte 1: every pattern of some lines, and each bit alone.
fn pending(s: &mut Scene, turn: usize) {
    if turn % 2 == 0 {
        s.manned(4, 1);
    }
    for round in 0..s.r.range(8, 24) {
        let lines: Vec<u8> = (0..8).filter(|_| s.r.percent(60)).collect();
        s.raise_all(lines);
        let pending = s.register(1);
        let any = s.r.byte();
        let byte = match round % 8 {
            0 => 0,
            1 => 255,
            2 => pending,
            3 => !pending,
            4 => pending & any,
            5 => 1 << (turn % 8),
            _ => any,
        };
        s.write(1, byte);
        s.read(1);
        if s.r.percent(30) {
            s.poll();
        }
    }
}

/// Control with all kinds of other bits; between them raises, polls and reads.
fn control(s: &mut Scene) {
    let ends = s.manned(4, 1);
    for _ in 0..s.r.range(5, 30) {
        let any = s.r.byte();
        let byte = s.r.pick(&[0, 1, 2, 254, 255, 128, 129, any, any]);
        s.write(0, byte);
        s.read(0);
        let line = s.r.below(ends.len()) as u8;
        s.raise(line);
        s.poll();
        if s.r.percent(40) {
            s.run(vec![block()]);
        }
    }
}

/// Many timeslices at the end of one chain, which blocks and is woken by events: each block follows all the links to it.
fn links(s: &mut Scene, turn: usize) {
    let many = if turn % 4 == 3 { 128 } else { s.r.range(4, 40) };
    let names = s.r.numbers(many);
    let mut records: Vec<Vec<u8>> = names.iter().enumerate().map(|(at, n)| if at == 0 { client(*n) } else { server(*n) }).collect();
    records.push(give(names[0], names[0], 255, 65_535));
    // Lower ones are not looked at until the chain's end is Blocked.
    for name in &names[1..] {
        records.push(give(*name, *name, 0, 9));
    }
    records.extend(names[1..].iter().map(|name| call(*name)));
    let end = names[many - 1];
    s.lend_on(&[end; 8]);
    s.run(records);
    for _ in 0..s.r.range(2, 5) {
        let pairs = s.r.pick(&[1, 2, 3, 10, 127]);
        s.run((0..pairs).flat_map(|_| [block(), wake(end)]).collect());
        s.run(vec![block()]);
        let line = s.r.below(8) as u8;
        s.raise(line);
        s.poll();
        // A loop: nothing runs, and each walk follows as many links as there are threads.
        if s.r.percent(50) {
            s.run(vec![call(names[1]), abort(end)]);
        }
    }
}

/// Each register is written and read, in any order.
fn registers(s: &mut Scene) {
    let block = (0..12).map(|_| s.r.byte()).collect();
    s.lend(block);
    for _ in 0..s.r.range(20, 80) {
        let (register, any) = (s.r.below(12) as u8, s.r.byte());
        let byte = s.r.pick(&[any, any, 0]);
        match s.r.below(8) {
            0..=2 => s.write(register, byte),
            3 => s.wrong_one(),
            4 => s.raise(register % 8),
            _ => s.read(register),
        }
    }
    for register in 0..12 {
        s.read(register);
    }
}

/// Polls, raises and writes with the card off; then it is on.
fn off_and_on(s: &mut Scene) {
    let ends = s.manned(6, 2);
    for _ in 0..s.r.range(2, 5) {
        let lines: Vec<u8> = (0..ends.len() as u8).filter(|_| s.r.percent(60)).collect();
        let (before, other) = (s.r.percent(50), s.r.pick(&[0, 0, 254, 2]));
        if before {
            s.raise_all(lines.clone());
        }
        s.write(0, other);
        if !before {
            s.raise_all(lines);
        }
        s.poll();
        for _ in 0..s.r.below(4) {
            s.step();
        }
        s.write(0, other | 1);
        s.polls();
        s.run(vec![block(), block()]);
    }
}

/// Lines that are pending and not enabled, below and above such as are both.
fn disabled(s: &mut Scene) {
    s.manned(8, 2);
    for round in 0..s.r.range(3, 6) {
        let (enabled, pending) = (s.r.byte(), if round == 0 { 255 } else { s.r.byte() });
        let one = 1 << s.line(true);
        let enabled = if round == 0 { one } else { s.r.pick(&[enabled, enabled, !pending, 0]) };
        s.write(2, enabled);
        s.raise_all((0..8).filter(|line| bit(pending, *line)).collect());
        s.polls();
        if s.r.percent(50) {
            s.write(2, !enabled);
            s.polls();
        }
        let many = s.r.range(1, 6);
        s.run(vec![block(); many]);
    }
}

/// Threads of all sorts in turn: Ready, Idle, Calling, Helping, running, not there, above 127, Blocked; also with the card off.
fn refused_wakes(s: &mut Scene) {
    s.lend_on(&[]);
    let chains = [0, 1, 2, 3];
    let ends = s.crowd(&chains);
    let spare = (0..128).find(|n| s.card.machine.threads[*n as usize].role == NONE).unwrap();
    s.run(vec![server(spare), wake(ends[1]), wake(ends[2]), wake(ends[0])]);
    for _ in 0..s.r.range(10, 30) {
        let line = s.r.below(8) as u8;
        let live = threads(&s.card.machine, |_| true);
        let any = s.r.byte();
        let one = s.r.pick(&live);
        let thread = s.r.pick(&[s.card.machine.running, one, one, one, spare, 128, 255, any]);
        s.write(4 + line, thread);
        s.raise(line);
        let off = s.r.percent(20);
        if off {
            s.write(0, 0);
        }
        s.poll();
        s.write(1, 255);
        if off {
            s.poll();
            s.write(0, 1);
        }
        if s.r.percent(20) {
            s.run_some(2);
        }
    }
}

/// A command, with what was before it and what was after it.
struct Step {
    op: u8,
    a: u8,
    b: u8,
    before: Vec<u8>,
    after: Vec<u8>,
    done: Done,
    ran: Runs,
    runs: Runs,
    /// By line, before the command: with which number the wake of its thread would be refused, and what that thread's hold is. Empty where
    /// the block has not 12 bytes.
    wakes: Vec<u8>,
    holds: Vec<Option<Hold>>,
    /// The refusals of the events that were run, and how many events the file had left before.
    events: Vec<u8>,
    left: usize,
}

impl Step {
    fn gives(&self, op: u8, refusal: u8) -> bool {
        self.op.min(4) == op && self.done.refusal == refusal
    }

    fn twelve(&self) -> bool {
        self.before.len() == 12
    }

    fn on(&self) -> bool {
        self.twelve() && bit(self.before[0], 0)
    }

    /// The lines pending and enabled, whether the card is on or off.
    fn lines(&self) -> Vec<u8> {
        (0..8).filter(|line| self.twelve() && bit(self.before[1] & self.before[2], *line)).collect()
    }

    fn lowest(&self) -> Option<u8> {
        self.lines().first().copied()
    }

    /// With which number the wake of the lowest of them would be refused.
    fn lowest_wake(&self) -> Option<u8> {
        self.lowest().map(|line| self.wakes[line as usize])
    }

    fn takes(&self, line: u8) -> bool {
        self.gives(3, 0) && self.lowest() == Some(line)
    }

    fn writes(&self, register: u8) -> bool {
        self.gives(1, 0) && self.a == register
    }

    /// A line whose wake would be accepted, above the one whose wake is refused.
    fn held(&self) -> Option<(u8, u8)> {
        let lines = self.lines();
        let refused = self.op == 3 && [2, 4, 9].contains(&self.done.refusal);
        let above = lines.iter().find(|line| refused && **line != lines[0] && self.wakes[**line as usize] == 0);
        above.map(|line| (lines[0], *line))
    }
}

/// Of an input that is answered with lines.
fn steps(input: &[u8]) -> (String, Vec<Step>) {
    let mut all = Vec::new();
    let mut left = parts(input).and_then(|p| records(p.file).ok().map(|records| records.len())).unwrap_or(0);
    let text = answered(input, &mut |card, [op, a, b], records| {
        card.plain = None;
        let some: Vec<&[u8]> = if op > 3 { records.take(a as usize).collect() } else { vec![] };
        let (before, ran, mut m) = (card.block.clone(), card.runs(), card.machine.clone());
        let lines = if before.len() == 12 { &before[4..] } else { &[] };
        let wakes = lines.iter().map(|thread| wake_refusal(&m, *thread)).collect();
        let holds = lines.iter().map(|n| m.threads.get(*n as usize).filter(|t| t.role != NONE).map(|t| t.hold)).collect();
        let events: Vec<u8> = some.iter().map(|record| m.next(record).unwrap().0.refusal).collect();
        let done = card.perform([op, a, b], &mut some.iter().copied());
        let (after, runs) = (card.block.clone(), card.runs());
        all.push(Step { op, a, b, before, after, done, ran, runs, wakes, holds, left, events });
        left -= some.len();
        done
    });
    (text, all)
}

#[derive(Default)]
struct Cases(Vec<(String, bool)>);

impl Cases {
    fn add(&mut self, name: &str, occurs: bool) {
        self.0.push((name.to_string(), occurs));
    }
}

/// What must occur of whole inputs.
fn input_cases(input: &[u8], answer: &str, steps: &[Step]) -> Cases {
    let mut cases = Cases::default();
    let mut case = |name: &str, occurs: bool| cases.add(name, occurs);
    let says = |number: u8| answer == format!("file {number}\n");
    let whole = parts(input);
    let n = input.first().map_or(0, |n| *n as usize);
    let k = input.get(1 + n).map_or(0, |k| *k as usize);
    let cut = whole.is_none() && says(14);
    // How many bytes of commands there are, if they are too few.
    let commands = if cut && input.len() > 1 + n { Some(input.len() - 2 - n) } else { None };
    case("an empty input gives 14", cut && input.is_empty());
    case("a length without a block gives 14", cut && input.len() == 1 && n > 0);
    case("an input cut short within the block gives 14", cut && input.len() > 1 && input.len() < 1 + n);
    case("a block without a number of commands gives 14", cut && n > 0 && input.len() == 1 + n);
    case("a block of no bytes without a number of commands gives 14", cut && n == 0 && input.len() == 1);
    case("a number of commands without a command gives 14", commands == Some(0));
    case("an input cut short behind a whole command gives 14", commands.is_some_and(|bytes| bytes > 0 && bytes % 3 == 0));
    case("an input that has one byte of a command gives 14", commands.is_some_and(|bytes| bytes % 3 == 1));
    case("an input that has two bytes of a command gives 14", commands.is_some_and(|bytes| bytes % 3 == 2));
    case("an input with the last byte of its commands missing gives 14", commands.is_some_and(|bytes| bytes + 1 == 3 * k));

    let file = whole.as_ref().map_or(&[][..], |p| p.file);
    let good = whole.is_some() && records(file).is_ok();
    let bad = |number: u8| whole.is_some() && says(number);
    let field = file.get(..4).map_or(0, |f| u32::from_be_bytes([f[0], f[1], f[2], f[3]]) as usize);
    case("no byte of a file gives 14, with commands", bad(14) && file.is_empty() && k > 0);
    case("no byte of a file gives 14, without commands", bad(14) && file.is_empty() && k == 0);
    case("a file of 1 to 3 bytes gives 14", bad(14) && !file.is_empty() && file.len() < 4);
    case("a file of 65,537 bytes gives 14, and its length field is right", bad(14) && file.len() == 65_537 && field == 65_533);
    case("a byte more than the length field says gives 14", bad(14) && file.len() > 4 && field + 5 == file.len() && file.len() < 65_536);
    case("a byte less than the length field says gives 14", bad(14) && file.len() > 4 && field + 3 == file.len());
    case("a length field of 0 gives 14", bad(14) && file.len() > 4 && field == 0);
    case("14 over 15", bad(14) && file.len() > 4 && file[4] != 1);
    case("15", bad(15));
    case("15 over 16", bad(15) && key::check(&[&file[..4], &[1], &file[5..]].concat()).is_err());
    case("16", bad(16));
    // As far as the records are good.
    let many = |end: usize| records(&file_of(&[&file[5..end]])).ok().map(|records| records.len());
    let before: usize = if bad(16) { (5..file.len()).rev().find_map(many).unwrap_or(0) } else { 0 };
    let run: usize = whole.as_ref().map_or(0, |p| p.commands.iter().filter(|c| c[0] > 3).map(|c| c[1] as usize).sum());
    case("16 for a record behind all that would be run", bad(16) && run > 0 && run <= before);
    for number in [14, 15, 16] {
        case(&format!("{number}, and there is no command"), bad(number) && k == 0);
        case(&format!("{number}, and the block has not 12 bytes"), bad(number) && n != 12 && k > 0);
        case(&format!("{number}, and there are commands that need no event"), {
            bad(number) && n == 12 && whole.as_ref().is_some_and(|p| p.commands[..1.min(k)].iter().any(|c| c[0] < 4))
        });
    }
    for many in [0, 1, 2, 255] {
        case(&format!("{many} command(s)"), good && k == many && answer.lines().count() == 2 * many);
    }
    for many in [0, 12, 255] {
        case(&format!("no command, and a block of {many} bytes"), good && k == 0 && n == many && answer.is_empty());
    }
    for many in [0, 1, 11, 12, 13, 24, 255] {
        case(&format!("a block of {many} bytes, with commands"), good && k > 0 && n == many);
    }
    case("a file without events, and commands", good && k > 0 && file.len() == 5);
    case("a file of 65,536 bytes", good && k > 0 && file.len() == 65_536);
    case("the largest input", good && input.len() == 1 + 255 + 1 + 765 + 65_536);
    case("events are left that no command runs", steps.last().is_some_and(|s| s.left > s.events.len()));
    case("no event is run", good && k > 0 && file.len() > 5 && steps.iter().all(|s| s.events.is_empty()));
    cases
}

/// What must occur of reads, writes and raises.
fn register_cases(steps: &[Step]) -> Cases {
    let mut cases = Cases::default();
    let mut case = |name: &str, holds: &dyn Fn(&Step) -> bool| cases.add(name, steps.iter().any(holds));
    for register in (0..12).filter(|register| *register != 3) {
        let at = register as usize;
        case(&format!("register {register} is read, and is not 0"), &|s| s.gives(0, 0) && s.a == register && s.done.read > 0);
        case(&format!("register {register} is read, and is 0"), &|s| s.gives(0, 0) && s.a == register && s.done.read == 0);
        case(&format!("a write changes register {register}"), &|s| s.writes(register) && s.before[at] != s.after[at]);
        case(&format!("a write leaves register {register} as it is"), &|s| s.writes(register) && s.before[at] == s.after[at]);
    }
    case("byte 3 is not 0, and reads 0", &|s| s.gives(0, 0) && s.a == 3 && s.before[3] > 0 && s.done.read == 0);
    case("byte 3 is 0, and reads 0", &|s| s.gives(0, 0) && s.a == 3 && s.before[3] == 0);
    case("a byte above 127 is read", &|s| s.gives(0, 0) && s.done.read > 127);
    case("a read ignores its last byte", &|s| s.gives(0, 0) && s.b > 0);

    // Writes to byte 1.
    let clears = |s: &Step| s.before[1] & s.b;
    case("0 is written to byte 1, and lines are pending", &|s| s.writes(1) && s.b == 0 && s.before[1] > 0);
    case("255 is written to byte 1, and some lines are pending", &|s| s.writes(1) && s.b == 255 && s.before[1] > 0 && s.before[1] < 255);
    case("255 is written to byte 1, and all lines are pending", &|s| s.writes(1) && s.b == 255 && s.before[1] == 255);
    case("255 is written to byte 1, and no line is pending", &|s| s.writes(1) && s.b == 255 && s.before[1] == 0);
    case("a write to byte 1 clears some lines, and leaves some", &|s| s.writes(1) && clears(s) > 0 && s.after[1] > 0);
    case("a write to byte 1 has 1 for lines that are not pending, alone", &|s| s.writes(1) && s.b > 0 && clears(s) == 0 && s.before[1] > 0);
    case("a write to byte 1 has all four: 0 and 1, pending and not", &|s| {
        s.writes(1) && clears(s) > 0 && !s.before[1] & s.b > 0 && s.before[1] & !s.b > 0 && s.before[1] | s.b < 255
    });
    case("the byte that is stored is written to byte 1", &|s| s.writes(1) && s.b == s.before[1] && s.b > 0 && s.b < 255);
    for line in 0..8 {
        case(&format!("a write to byte 1 clears line {line} alone"), &|s| s.writes(1) && clears(s) == 1 << line && s.after[1] > 0);
    }
    // Writes to the others.
    case("control gets other bits, and bit 0 is clear", &|s| s.writes(0) && s.b > 1 && !bit(s.b, 0) && s.before[0] != s.b);
    case("control gets other bits, and bit 0 is set", &|s| s.writes(0) && s.b > 1 && bit(s.b, 0) && s.before[0] != s.b);
    case("control loses other bits, and the card stays on", &|s| s.writes(0) && s.b == 1 && s.on() && s.before[0] > 1);
    case("control loses other bits, and the card stays off", &|s| s.writes(0) && s.b == 0 && !s.on() && s.before[0] > 1);
    case("a write is accepted with the card off, to byte 1 and not 0", &|s| s.writes(1) && !s.on() && s.before[1] != s.after[1]);
    case("a write is accepted with the card off, to byte 2", &|s| s.writes(2) && !s.on() && s.before[2] != s.after[2]);
    case("a read is accepted with the card off", &|s| s.gives(0, 0) && !s.on() && s.done.read > 0);
    case("a thread above 127 is written", &|s| s.gives(1, 0) && s.a > 3 && s.b > 127);
    // Raises.
    for line in 0..8 {
        case(&format!("line {line} is raised"), &|s| s.gives(2, 0) && s.a == line && !bit(s.before[1], line));
    }
    let new = |s: &Step| s.gives(2, 0) && s.before[1] != s.after[1];
    case("a raise changes nothing", &|s| s.gives(2, 0) && s.before == s.after);
    case("a raise changes nothing, with the card on and the line enabled", &|s| {
        s.gives(2, 0) && s.before == s.after && s.on() && bit(s.before[2], s.a)
    });
    case("a line is raised with the card off", &|s| new(s) && !s.on() && bit(s.before[2], s.a));
    case("a line is raised that is disabled, with the card on", &|s| new(s) && s.on() && !bit(s.before[2], s.a));
    case("a line is raised that is disabled, with the card off", &|s| new(s) && !s.on() && !bit(s.before[2], s.a));
    case("a line is raised while others are pending, below and above", &|s| {
        new(s) && s.before[1] >> s.a > 0 && s.before[1] % (1 << s.a) > 0
    });
    case("a line is raised whose thread is Blocked", &|s| new(s) && s.wakes[s.a as usize] == 0);
    case("a line is raised whose wake would be refused", &|s| new(s) && s.wakes[s.a as usize] > 0);
    case("a raise ignores its last byte", &|s| s.gives(2, 0) && s.b > 0);

    // Refusals.
    for (op, name) in [(0, "read"), (1, "write")] {
        for register in [12, 255] {
            case(&format!("a {name} of register {register} gives 21"), &|s| s.gives(op, 21) && s.a == register);
        }
        case(&format!("a {name} of another register above 11 gives 21"), &|s| s.gives(op, 21) && s.a > 12 && s.a < 255);
        case(&format!("a {name} of register 12 gives 20, and the block has such a byte"), &|s| {
            s.gives(op, 20) && s.a == 12 && s.before.len() > 12
        });
        case(&format!("a {name} of register 255 gives 20"), &|s| s.gives(op, 20) && s.a == 255);
        case(&format!("a {name} gives 20, and the block has such a byte, not 0"), &|s| {
            s.gives(op, 20) && s.a < 12 && s.before.get(s.a as usize).is_some_and(|byte| *byte > 0)
        });
        case(&format!("a {name} gives 20, and the block has no such byte"), &|s| {
            s.gives(op, 20) && s.a < 12 && s.before.len() <= s.a as usize
        });
    }
    case("a write to byte 3 gives 21, of 0", &|s| s.gives(1, 21) && s.a == 3 && s.b == 0);
    case("a write to byte 3 gives 21, of what is stored, not 0", &|s| s.gives(1, 21) && s.a == 3 && s.b == s.before[3] && s.b > 0);
    case("a write to byte 3 gives 21, of another byte", &|s| s.gives(1, 21) && s.a == 3 && s.b != s.before[3] && s.b > 0);
    case("a write to byte 3 gives 20", &|s| s.gives(1, 20) && s.a == 3 && s.before.len() > 3);
    for line in [8, 255] {
        case(&format!("line {line} gives 21"), &|s| s.gives(2, 21) && s.a == line);
        case(&format!("line {line} gives 20"), &|s| s.gives(2, 20) && s.a == line);
    }
    case("another line above 7 gives 21", &|s| s.gives(2, 21) && s.a > 8 && s.a < 255);
    case("line 0 gives 20, and could be raised in the first 12 bytes", &|s| {
        s.gives(2, 20) && s.a == 0 && s.before.len() > 12 && !bit(s.before[1], 0)
    });
    case("line 7 gives 20", &|s| s.gives(2, 20) && s.a == 7);
    for op in 0..4 {
        for many in [0, 1, 11, 13, 24, 255] {
            case(&format!("op {op} gives 20, of a block of {many} bytes"), &|s| s.gives(op, 20) && s.before.len() == many);
        }
        case(&format!("op {op} is refused, and something runs"), &|s| s.op == op && s.done.refusal > 0 && s.runs.is_some());
    }
    cases
}

/// What must occur of polls.
fn poll_cases(steps: &[Step]) -> Cases {
    let mut cases = Cases::default();
    let mut case = |name: &str, holds: &dyn Fn(&Step) -> bool| cases.add(name, steps.iter().any(holds));
    let took = |s: &Step| s.gives(3, 0);
    for line in 0..8 {
        case(&format!("line {line} is taken"), &|s| s.takes(line));
        case(&format!("line {line} is taken, and all others stay pending"), &|s| s.takes(line) && s.after[1] == 255 ^ 1 << line);
    }
    for line in 0..7 {
        case(&format!("line {line} holds back another: its wake is refused"), &|s| s.held().is_some_and(|(low, _)| low == line));
    }
    let above = |s: &Step| s.lines()[1..].iter().any(|line| s.wakes[*line as usize] == 0);
    let below = |s: &Step| s.before[1] % (1 << s.lowest().unwrap());
    case("a line is taken, and one above could be too", &|s| took(s) && above(s));
    case("a line is taken, and the wake of one above would be refused", &|s| {
        took(s) && s.lines()[1..].iter().any(|line| s.wakes[*line as usize] > 0)
    });
    case("a line is taken, and one below is pending but disabled", &|s| took(s) && below(s) > 0);
    case("a line is taken, and one below is pending but disabled, whose thread is Blocked", &|s| {
        took(s) && (0..s.lowest().unwrap()).any(|line| bit(s.before[1], line) && s.wakes[line as usize] == 0)
    });
    case("a line is taken, and one below is enabled but not pending", &|s| took(s) && s.before[2] % (1 << s.lowest().unwrap()) > 0);
    case("a line is taken, and the only one pending", &|s| took(s) && s.after[1] == 0);
    case("a line is taken, and control has other bits", &|s| took(s) && s.before[0] > 1);
    case("a line is taken, and byte 3 is not 0", &|s| took(s) && s.before[3] > 0);
    for thread in [0, 127] {
        case(&format!("thread {thread} is woken"), &|s| took(s) && s.before[4 + s.lowest().unwrap() as usize] == thread);
    }
    case("another line above has the same thread", &|s| {
        took(s) && s.lines()[1..].iter().any(|line| s.before[4 + *line as usize] == s.before[4 + s.lowest().unwrap() as usize])
    });
    case("a poll lets something run, where nothing ran", &|s| took(s) && s.ran.is_none() && s.runs.is_some());
    case("a poll changes what runs, where something ran", &|s| took(s) && s.ran.is_some() && s.runs != s.ran);
    case("a poll changes nothing of what runs, where something runs", &|s| took(s) && s.ran.is_some() && s.runs == s.ran);
    case("a poll changes nothing of what runs, where nothing runs", &|s| took(s) && s.ran.is_none() && s.runs.is_none());
    case("the thread woken runs on its own timeslice", &|s| took(s) && s.done.links == 0 && s.runs != s.ran);
    case("the donation count is above 1 after a poll", &|s| took(s) && s.runs != s.ran && s.runs.is_some_and(|r| r.2 > 1));
    case("the donation count is below the links that a poll follows", &|s| took(s) && s.runs.is_some_and(|r| (r.2 as u64) < s.done.links));
    for links in 0..3 {
        case(&format!("a poll follows {links} link(s)"), &|s| took(s) && s.done.links == links && s.runs != s.ran);
    }
    case("a poll follows 3 to 9 links", &|s| took(s) && s.done.links > 2 && s.done.links < 10);
    case("a poll follows 10 to 99 links", &|s| took(s) && s.done.links > 9 && s.done.links < 100);
    case("a poll follows 100 links or more", &|s| took(s) && s.done.links > 99);
    case("a poll ignores its two bytes", &|s| took(s) && s.a > 0 && s.b > 0);

    // 20 and 22.
    case("20, and a line could be taken by the first 12 bytes", &|s| {
        s.gives(3, 20) && s.before.len() > 12 && bit(s.before[0], 0) && s.before[1] & s.before[2] > 0
    });
    case("20, and no line could be taken by the first 12 bytes", &|s| s.gives(3, 20) && s.before.len() > 12 && !bit(s.before[0], 0));
    let none = |s: &Step| s.gives(3, 22);
    case("22, card off: nothing else is missing", &|s| none(s) && s.before[0] == 0 && s.lowest_wake() == Some(0));
    case("22, card off: nothing else is missing, and control has other bits", &|s| {
        none(s) && s.before[0] > 1 && s.lowest_wake() == Some(0)
    });
    for number in [2, 4, 9] {
        case(&format!("22, card off: the wake would give {number}"), &|s| none(s) && s.lowest_wake() == Some(number));
        case(&format!("22, disabled: the wake would give {number}"), &|s| {
            none(s) && s.on() && (0..8).find(|line| bit(s.before[1], *line)).is_some_and(|line| s.wakes[line as usize] == number)
        });
        case(&format!("22, nothing pending: the wake of line 0 would give {number}"), &|s| {
            none(s) && s.before[1] == 0 && s.wakes[0] == number
        });
    }
    case("22, nothing pending, all enabled", &|s| none(s) && s.on() && s.before[1] == 0 && s.before[2] == 255);
    case("22, nothing pending: the wake of an enabled line would be accepted", &|s| {
        none(s) && s.on() && s.before[1] == 0 && (0..8).any(|line| bit(s.before[2], line) && s.wakes[line as usize] == 0)
    });
    case("22, nothing enabled", &|s| none(s) && s.on() && s.before[1] > 0 && s.before[2] == 0);
    case("22, pending and enabled have nothing in common", &|s| none(s) && s.on() && s.before[1] > 0 && s.before[2] > 0);
    case("22, disabled: the wake of a pending line would be accepted", &|s| {
        none(s) && s.on() && (0..8).any(|line| bit(s.before[1], line) && s.wakes[line as usize] == 0)
    });
    case("22, card off, nothing pending, nothing enabled", &|s| none(s) && !s.on() && s.before[1] == 0 && s.before[2] == 0);

    // The wake's own.
    let number = |s: &Step| s.before[4 + s.lowest().unwrap() as usize];
    for thread in [128, 255] {
        case(&format!("2, of thread {thread}"), &|s| s.gives(3, 2) && number(s) == thread);
    }
    case("2, of another thread above 127", &|s| s.gives(3, 2) && number(s) > 128 && number(s) < 255);
    case("4, of thread 0 to 127", &|s| s.gives(3, 4) && number(s) < 128);
    case("4, where no thread is", &|s| s.gives(3, 4) && s.holds.iter().all(Option::is_none));
    let holds = [(Hold::Ready, "Ready"), (Hold::Idle, "Idle"), (Hold::Calling, "Calling"), (Hold::Helping, "Helping")];
    for (hold, name) in holds {
        case(&format!("9, of a thread that is {name}"), &|s| s.gives(3, 9) && s.holds[s.lowest().unwrap() as usize] == Some(hold));
    }
    case("9, of the running thread", &|s| s.gives(3, 9) && s.ran.is_some_and(|ran| ran.0 == number(s)));
    for refusal in [2, 4, 9] {
        case(&format!("{refusal}, and a line above could be taken"), &|s| s.done.refusal == refusal && s.held().is_some());
        case(&format!("{refusal}, and nothing runs"), &|s| s.gives(3, refusal) && s.runs.is_none());
        case(&format!("{refusal}, and something runs"), &|s| s.gives(3, refusal) && s.runs.is_some());
    }

    // Several in a row.
    let mut case = |name: &str, occurs: bool| cases.add(name, occurs);
    let row = |numbers: &[u8]| steps.windows(numbers.len()).any(|w| w.iter().zip(numbers).all(|(s, n)| s.gives(3, *n)));
    case("two polls in a row are accepted", row(&[0, 0]));
    case("eight polls in a row are accepted, then 22", row(&[0, 0, 0, 0, 0, 0, 0, 0, 22]));
    case("a poll is accepted, the next is 22", row(&[0, 22]));
    for refusal in [2, 4, 9] {
        case(&format!("a poll is accepted, the next is {refusal}"), row(&[0, refusal]));
        case(&format!("{refusal} in two polls in a row"), row(&[refusal, refusal]));
    }
    case("a thread is woken, and its next line gives 9", steps.windows(2).any(|w| {
        took(&w[0]) && w[1].gives(3, 9) && number(&w[0]) == number(&w[1])
    }));
    case("a thread is woken, blocks, and is woken again", steps.windows(3).any(|w| {
        took(&w[0]) && w[1].op > 3 && took(&w[2]) && number(&w[0]) == number(&w[2])
    }));
    case("a thread is woken by one line and then by another", steps.iter().enumerate().any(|(at, s)| {
        took(s) && steps[at..].iter().any(|t| took(t) && number(t) == number(s) && t.lowest() != s.lowest())
    }));
    // What befell a line between a poll that it was held back at and the one that took it; it was pending all the time.
    let between = |befell: &dyn Fn(&[Step], u8) -> bool| {
        steps.iter().enumerate().any(|(at, s)| {
            let Some((low, high)) = s.held() else { return false };
            let until = steps[at..].iter().position(|t| t.takes(high) || !bit(t.after[1], high)).map(|more| at + more);
            until.is_some_and(|until| steps[until].takes(high) && befell(&steps[at..until], low))
        })
    };
    let off_on = |some: &[Step]| {
        let off = some.iter().position(|t| t.writes(0) && t.on() && !bit(t.b, 0));
        off.is_some_and(|off| some[off..].iter().any(|t| t.writes(0) && bit(t.b, 0)))
    };
    let cleared = |t: &Step, low: u8| t.writes(1) && bit(t.before[1] & t.b, low);
    case("held back, and taken after a write to byte 1 cleared the lower line", between(&|some, low| some.iter().any(|t| cleared(t, low))));
    case("held back, and taken after a write to byte 1 cleared the lower line and others", between(&|some, low| {
        some.iter().any(|t| cleared(t, low) && t.before[1] & t.b != 1 << low)
    }));
    case("held back, and taken after the lower line was disabled, which is pending still", between(&|some, low| {
        some.iter().any(|t| t.writes(2) && bit(t.before[2], low) && !bit(t.b, low)) && bit(some[some.len() - 1].after[1], low)
    }));
    case("held back, and taken after the card was off and on", between(&|some, _| off_on(some)));
    case("held back, and again after the card was off and on", steps.iter().enumerate().any(|(at, s)| {
        s.held().is_some() && steps[at + 1..].iter().enumerate().any(|(more, t)| t.held() == s.held() && off_on(&steps[at..at + 1 + more]))
    }));
    case("held back, and taken after the lower line got another thread and was taken", between(&|some, low| {
        some.iter().any(|t| t.writes(4 + low)) && some.iter().any(|t| t.takes(low))
    }));
    case("held back, and taken after the lower line's thread blocked and was taken", between(&|some, low| {
        some.iter().any(|t| t.op > 3) && some.iter().all(|t| !t.writes(4 + low)) && some.iter().any(|t| t.takes(low))
    }));
    // The same of a line that was not taken for another reason.
    let later = |why: &dyn Fn(&Step, u8) -> bool| {
        steps.iter().enumerate().any(|(at, s)| {
            (0..8).any(|line| {
                none(s) && bit(s.before[1], line) && why(s, line) && {
                    let next = steps[at..].iter().find(|t| t.takes(line) || !bit(t.after[1], line));
                    next.is_some_and(|t| t.takes(line))
                }
            })
        })
    };
    case("a line is not taken with the card off, and then it is", later(&|s, line| !s.on() && bit(s.before[2], line)));
    case("a line is not taken while it is disabled, and then it is", later(&|s, line| s.on() && !bit(s.before[2], line)));
    case("a line is raised with the card off, and then taken", steps.iter().enumerate().any(|(at, s)| {
        s.gives(2, 0) && !s.on() && !bit(s.before[1], s.a) && {
            let next = steps[at..].iter().find(|t| t.takes(s.a) || !bit(t.after[1], s.a));
            next.is_some_and(|t| t.takes(s.a))
        }
    }));
    cases
}

/// What must occur of runs.
fn run_cases(steps: &[Step]) -> Cases {
    let mut cases = Cases::default();
    let mut case = |name: &str, holds: &dyn Fn(&Step) -> bool| cases.add(name, steps.iter().any(|s| s.gives(4, 0) && holds(s)));
    for op in [4, 5, 255] {
        case(&format!("op {op} runs events"), &|s| s.op == op && s.events.contains(&0));
    }
    case("another op runs events", &|s| s.op > 5 && s.op < 255 && s.events.contains(&0));
    case("a run of 0 events, and some are left", &|s| s.a == 0 && s.left > 0);
    case("a run of 0 events, and none is left", &|s| s.a == 0 && s.left == 0);
    case("a run of 1 event", &|s| s.a == 1 && s.events.len() == 1);
    case("a run of 255 events", &|s| s.events.len() == 255);
    case("a run of as many events as are left", &|s| s.a > 0 && s.left == s.a as usize);
    case("a run past the file's end, of some events", &|s| s.a as usize > s.left && s.left > 0);
    case("a run past the file's end, of none", &|s| s.a > 0 && s.left == 0);
    case("a run past the file's end by 1", &|s| s.a as usize == s.left + 1 && s.left > 0);
    case("events of a run are refused, and others accepted behind them", &|s| s.events.windows(2).any(|two| two[0] > 0 && two[1] == 0));
    case("the last event of a run is refused, and others accepted", &|s| s.events.last() > Some(&0) && s.events.contains(&0));
    case("all events of a run are refused", &|s| !s.events.is_empty() && !s.events.contains(&0));
    for many in [0, 1, 11, 13, 24, 255] {
        case(&format!("a run with a block of {many} bytes"), &|s| s.before.len() == many);
    }
    case("a run of events with a block that has not 12 bytes", &|s| !s.twelve() && s.events.contains(&0) && s.ran != s.runs);
    case("a run changes what runs", &|s| s.ran.is_some() && s.runs.is_some() && s.ran != s.runs);
    case("a run with the card off", &|s| s.twelve() && !s.on() && s.events.contains(&0));
    case("a run with lines that could be taken, which stay pending", &|s| s.on() && s.lowest_wake() == Some(0) && s.events.contains(&0));
    case("a run ignores its last byte", &|s| s.b > 0 && s.events.contains(&0));
    for (least, most) in [(0, 0), (1, 1), (2, 9), (10, 99), (100, 255), (256, 9_999), (10_000, 65_535), (65_536, 999_999)] {
        case(&format!("{least} to {most} links in all"), &|s| s.events.len() > 1 && s.done.links >= least && s.done.links <= most);
    }
    case("a million links in all", &|s| s.done.links >= 1_000_000);
    case("links in all, and the last event follows none", &|s| s.done.links > 0 && s.events.last() > Some(&0));
    case("thread and timeslice have three digits, and the count too", &|s| {
        s.runs.is_some_and(|(thread, timeslice, count)| thread > 99 && timeslice > 99 && count > 99)
    });
    cases
}

/// Other ways to read the request. Where one of them gives another answer than the program's own reading, the input tells the two apart.
#[derive(Clone, Copy)]
enum Reading {
    Highest,
    ClearedAlthoughRefused,
    BitKept,
    AllCleared,
    NextAbove,
    Disabled,
    Off,
    AnyBit,
    WakeBefore22,
    OneSets,
    Stored,
    Byte3Written,
    Byte3Taken,
    Byte3Read,
    RefusedRead,
    OffRaise,
    DisabledRaise,
    Toggled,
    Alone,
    Bit0,
    After21,
    PollLinks,
    LastLinks,
    Stops,
    RunRefused,
}

const READINGS: [(Reading, &str); 25] = [
    (Reading::Highest, "a poll takes the highest line"),
    (Reading::ClearedAlthoughRefused, "the bit is cleared though the wake is refused"),
    (Reading::BitKept, "the bit stays set though the line is taken"),
    (Reading::AllCleared, "a poll clears all lines"),
    (Reading::NextAbove, "where the wake is refused the next line is tried"),
    (Reading::Disabled, "a poll takes disabled lines"),
    (Reading::Off, "a poll takes lines with the card off"),
    (Reading::AnyBit, "any bit of control switches the card on"),
    (Reading::WakeBefore22, "with the card off the wake's refusals come before 22"),
    (Reading::OneSets, "writing a 1 to a pending bit sets it"),
    (Reading::Stored, "a write to byte 1 stores the byte"),
    (Reading::Byte3Written, "byte 3 is written"),
    (Reading::Byte3Taken, "a write to byte 3 is accepted and changes nothing"),
    (Reading::Byte3Read, "byte 3 reads as it is stored"),
    (Reading::RefusedRead, "a refused read gives the byte that is there"),
    (Reading::OffRaise, "a raise does nothing with the card off"),
    (Reading::DisabledRaise, "a raise does nothing for a disabled line"),
    (Reading::Toggled, "a raise of a pending line clears it"),
    (Reading::Alone, "a raise clears the other lines"),
    (Reading::Bit0, "of control bit 0 alone is stored"),
    (Reading::After21, "20 comes after 21"),
    (Reading::PollLinks, "a poll follows no link"),
    (Reading::LastLinks, "of a run the last event's links count"),
    (Reading::Stops, "a run stops at a refused event"),
    (Reading::RunRefused, "a run needs a block of 12 bytes"),
];

/// The command is done as it should be, and then changed to what the other reading has.
fn misread<'a>(reading: Reading, card: &mut Card, command: [u8; 3], records: &mut dyn Iterator<Item = &'a [u8]>) -> Done {
    let ([op, a, b], before) = (command, card.copy());
    card.plain = None;
    let some: Vec<&[u8]> = if op > 3 { records.take(a as usize).collect() } else { vec![] };
    let mut done = card.perform(command, &mut some.iter().copied());
    if before.block.len() != 12 {
        match reading {
            Reading::RefusedRead if op == 0 => done.read = before.block.get(a as usize).copied().unwrap_or(0),
            Reading::After21 if op < 2 && a > 11 || op == 1 && a == 3 || op == 2 && a > 7 => done.refusal = 21,
            Reading::RunRefused if op > 3 => (*card, done) = (before, Done { refusal: 20, read: 0, links: 0 }),
            _ => (),
        }
        return done;
    }
    let was = &before.block;
    let lines = was[1] & was[2];
    let lowest = |lines: u8| (0..8).find(|line| bit(lines, *line));
    let take = |line: Option<u8>| {
        let mut card = before.copy();
        let outcome = line.ok_or(22).and_then(|line| card.take(line));
        (card, Done { refusal: outcome.err().unwrap_or(0), read: 0, links: outcome.unwrap_or(0) as u64 })
    };
    let run = |stops: bool| {
        let (mut card, mut links) = (before.copy(), 0);
        for record in &some {
            let answer = card.event(record);
            links = answer.links as u64 + if stops { links } else { 0 };
            if stops && answer.refusal > 0 {
                break;
            }
        }
        (card, Done { refusal: 0, read: 0, links })
    };
    let on = bit(was[0], 0);
    let refused = [2, 4, 9].contains(&done.refusal);
    match (op, reading) {
        (3, Reading::Highest) if on => (*card, done) = take((0..8).rev().find(|line| bit(lines, *line))),
        (3, Reading::NextAbove) if refused => {
            let above = (0..8).find(|line| bit(lines, *line) && take(Some(*line)).1.refusal == 0);
            (*card, done) = take(above.or(lowest(lines)));
        }
        (3, Reading::Disabled) if on => (*card, done) = take(lowest(was[1])),
        (3, Reading::Off) => (*card, done) = take(lowest(lines)),
        (3, Reading::AnyBit) if was[0] > 0 => (*card, done) = take(lowest(lines)),
        (3, Reading::WakeBefore22) if !on && take(lowest(lines)).1.refusal > 0 => (*card, done) = take(lowest(lines)),
        (3, Reading::ClearedAlthoughRefused) if refused => card.block[1] &= !(1 << lowest(lines).unwrap()),
        (3, Reading::BitKept) => card.block[1] = was[1],
        (3, Reading::AllCleared) if done.refusal == 0 => card.block[1] = 0,
        (3, Reading::PollLinks) => done.links = 0,
        (1, Reading::OneSets) if a == 1 => card.block[1] = was[1] | b,
        (1, Reading::Stored) if a == 1 => card.block[1] = b,
        (1, Reading::Byte3Written) if a == 3 => (done.refusal, card.block[3]) = (0, b),
        (1, Reading::Byte3Taken) if a == 3 => done.refusal = 0,
        (1, Reading::Bit0) if a == 0 => card.block[0] &= 1,
        (0, Reading::Byte3Read) if a == 3 => done.read = was[3],
        (2, Reading::OffRaise) if !on => card.block[1] = was[1],
        (2, Reading::DisabledRaise) if a < 8 && !bit(was[2], a) => card.block[1] = was[1],
        (2, Reading::Toggled) if a < 8 => card.block[1] = was[1] ^ 1 << a,
        (2, Reading::Alone) if a < 8 => card.block[1] = 1 << a,
        (4.., Reading::LastLinks) => (*card, done) = run(false),
        (4.., Reading::Stops) => (*card, done) = run(true),
        _ => (),
    }
    done
}

/// Inputs of so many bytes are not misread: that would be slow.
const LARGE: usize = 1_000;

/// Fails where one of the cases never occurs.
fn count(inputs: &Path, answers: &Path) -> std::io::Result<bool> {
    let mut names: Vec<_> = std::fs::read_dir(inputs)?.map(|entry| entry.map(|entry| entry.file_name())).collect::<Result<_, _>>()?;
    names.sort();
    let (mut times, mut commands): (Vec<(String, usize)>, usize) = (Vec::new(), 0);
    for name in &names {
        let (input, answer) = (std::fs::read(inputs.join(name))?, std::fs::read_to_string(answers.join(name))?);
        let (text, steps) = steps(&input);
        assert!(text == answer, "the answers are this program's");
        let mut cases = input_cases(&input, &answer, &steps).0;
        cases.extend([register_cases(&steps).0, poll_cases(&steps).0, run_cases(&steps).0].concat());
        for (reading, name) in READINGS {
            let other = |input| answered(input, &mut |card, command, records| misread(reading, card, command, records));
            let told = input.len() < LARGE && !steps.is_empty() && other(&input) != answer;
            cases.push((format!("with another reading the answer is another: {name}"), told));
        }
        times.resize(cases.len(), Default::default());
        for (sum, (case, occurs)) in times.iter_mut().zip(cases) {
            *sum = (case, sum.1 + occurs as usize);
        }
        commands += steps.len();
    }
    for (case, times) in &times {
        println!("{times:5} {case}");
    }
    for (case, _) in times.iter().filter(|(_, times)| *times == 0) {
        println!("it never occurs: {case}");
    }
    let occur = times.iter().filter(|(_, times)| *times > 0).count();
    println!("{occur} of {} cases occur; {} inputs have {commands} commands", times.len(), names.len());
    Ok(occur == times.len())
}

fn main() -> std::io::Result<()> {
    let arguments: Vec<String> = std::env::args().collect();
    let words: Vec<&str> = arguments[1..].iter().map(String::as_str).collect();
    match words[..] {
        ["-o", folder, ref inputs @ ..] => {
            for input in inputs.iter().map(Path::new) {
                std::fs::write(Path::new(folder).join(input.file_name().unwrap()), answer(&std::fs::read(input)?))?;
            }
        }
        ["-n", seed, count, folder] => {
            let (seed, count): (u64, usize) = (seed.parse().expect("a seed"), count.parse().expect("a count"));
            for i in 0..count {
                std::fs::write(Path::new(folder).join(format!("card-{i:05}")), input(seed, i))?;
            }
        }
        ["-c", inputs, answers] => {
            if !count(Path::new(inputs), Path::new(answers))? {
                std::process::exit(1);
            }
        }
        _ => {
            let mut input = Vec::new();
            std::io::stdin().read_to_end(&mut input)?;
            std::io::stdout().write_all(answer(&input).as_bytes())?;
        }
    }
    Ok(())
}
