//! The plain machine of document 01 with requests [2], [3] and [4]. It has no places, no release and no choice: after every
//! accepted event it judges all live timeslices afresh. It prints the key without its last column
//! (links followed), which the plain machine does not define.
//!
//! `plain` reads an event file from standard input.
//! `plain -o FOLDER FILE...` writes the answer for each file to FOLDER, under the file's own name.
//!
//! Deliberately simple, and deliberately shares no code with `key.rs`. `reason.rs` and `shares.rs` use the machine as a module.

use std::collections::BTreeMap;
use std::fmt::Write as _;
use std::io::{Read, Write};

pub enum Event {
    Create { thread: u8, server: bool },
    Give { timeslice: u8, thread: u8, priority: u8, quantum: u16 },
    Call { server: u8 },
    Reply,
    Block,
    Wake { thread: u8 },
    Charge { amount: u16 },
    Abort { thread: u8 },
    Refill { timeslice: u8 },
    Remove { thread: u8 },
    Rank { timeslice: u8, priority: u8 },
}

/// "Reading a file". The rules for 16 are the same whichever of them is broken first.
pub fn read(file: &[u8]) -> Result<Vec<Event>, u8> {
    if file.len() < 4 || file.len() > 65_536 {
        return Err(14);
    }
    let mut says: u64 = 0;
    for i in 0..4 {
        says = says * 256 + file[i] as u64;
    }
    let follows = file.len() as u64 - 4;
    if says == 0 || says != follows {
        return Err(14);
    }
    if file[4] != 1 {
        return Err(15);
    }
    let mut events = Vec::new();
    let mut at = 5;
    while at < file.len() {
        let length = file[at] as usize;
        if at + 1 + length > file.len() {
            return Err(16);
        }
        let record = &file[at + 1..at + 1 + length];
        if record.is_empty() {
            return Err(16);
        }
        let two = |i: usize| record[i] as u16 * 256 + record[i + 1] as u16;
        events.push(match (record[0], record.len()) {
            (1, 3) if record[2] <= 1 => Event::Create { thread: record[1], server: record[2] == 1 },
            (2, 6) => Event::Give {
                timeslice: record[1],
                thread: record[2],
                priority: record[3],
                quantum: two(4),
            },
            (3, 2) => Event::Call { server: record[1] },
            (4, 1) => Event::Reply,
            (5, 1) => Event::Block,
            (6, 2) => Event::Wake { thread: record[1] },
            (7, 3) => Event::Charge { amount: two(1) },
            (8, 2) => Event::Abort { thread: record[1] },
            (9, 2) => Event::Refill { timeslice: record[1] },
            (10, 2) => Event::Remove { thread: record[1] },
            (11, 3) => Event::Rank { timeslice: record[1], priority: record[2] },
            _ => return Err(16),
        });
        at += 1 + length;
    }
    Ok(events)
}

#[derive(Clone, Copy, PartialEq)]
pub enum Hold {
    Ready,
    Idle,
    Blocked,
    Calling(u8),
    Helping(u8),
}

#[derive(Clone, Copy, PartialEq)]
enum Service {
    None,
    Caller(u8),
    Orphan,
}

pub struct Thread {
    server: bool,
    pub hold: Hold,
    service: Service,
}

pub struct Timeslice {
    pub owner: u8,
    pub priority: u8,
    quantum: u16,
    pub left: u16,
}

#[derive(Clone, Copy)]
pub struct Runs {
    pub thread: u8,
    pub timeslice: u8,
    count: usize,
}

/// What a walk meets: the threads that it leaves by a link, in turn, and where it ends. Where the
/// chain is a loop there is no end.
struct Chain {
    passed: Vec<u8>,
    end: Option<u8>,
}

pub struct Plain {
    pub threads: BTreeMap<u8, Thread>,
    pub timeslices: BTreeMap<u8, Timeslice>,
    pub turn_order: Vec<u8>,
    pub runs: Option<Runs>,
}

impl Plain {
    pub fn empty() -> Plain {
        Plain { threads: BTreeMap::new(), timeslices: BTreeMap::new(), turn_order: Vec::new(), runs: None }
    }

    fn walk(&self, from: u8) -> Chain {
        let mut passed = Vec::new();
        let mut here = from;
        while passed.len() < self.threads.len() {
            match self.threads[&here].hold {
                Hold::Calling(next) | Hold::Helping(next) => {
                    passed.push(here);
                    here = next;
                }
                _ => return Chain { passed, end: Some(here) },
            }
        }
        Chain { passed, end: None }
    }

    /// The donation links after the last helping link.
    fn donations(&self, chain: &Chain) -> usize {
        let calling = |t: &&u8| matches!(self.threads[t].hold, Hold::Calling(_));
        chain.passed.iter().rev().take_while(calling).count()
    }

    /// Does the chain's end let the timeslice run?
    fn lets_run(&self, chain: &Chain) -> bool {
        match chain.end {
            None => false,
            Some(end) => match self.threads[&end].hold {
                Hold::Ready => true,
                Hold::Idle => !chain.passed.is_empty(),
                _ => false,
            },
        }
    }

    /// The topmost of all live timeslices that have time left and whose chain's end lets them run.
    fn topmost(&self) -> Option<(u8, Chain)> {
        let mut best: Option<(u8, Chain)> = None;
        for &s in &self.turn_order {
            if self.timeslices[&s].left == 0 {
                continue;
            }
            let chain = self.walk(self.timeslices[&s].owner);
            if !self.lets_run(&chain) {
                continue;
            }
            // Among equals the earlier in turn order stands above, and it was met first.
            let better = match &best {
                None => true,
                Some((b, _)) => self.timeslices[&s].priority > self.timeslices[b].priority,
            };
            if better {
                best = Some((s, chain));
            }
        }
        best
    }

    fn judge(&mut self) {
        loop {
            let Some((timeslice, chain)) = self.topmost() else {
                self.runs = None;
                return;
            };
            let end = chain.end.unwrap();
            if self.threads[&end].hold == Hold::Ready {
                let count = self.donations(&chain);
                self.runs = Some(Runs { thread: end, timeslice, count });
                return;
            }
            // Idle after a link: the last helper's retry.
            let helper = *chain.passed.iter().rev().find(|t| matches!(self.threads[t].hold, Hold::Helping(_))).unwrap();
            self.threads.get_mut(&helper).unwrap().hold = Hold::Calling(end);
            let server = self.threads.get_mut(&end).unwrap();
            server.hold = Hold::Ready;
            server.service = Service::Caller(helper);
        }
    }

    /// The refusal number of an event, 0 for none, in document 01's order for each operation.
    fn refusal(&self, event: &Event) -> u8 {
        match *event {
            Event::Create { thread, .. } => {
                if thread > 127 {
                    2
                } else if self.threads.contains_key(&thread) {
                    3
                } else {
                    0
                }
            }
            Event::Give { timeslice, thread, quantum, .. } => {
                if timeslice > 127 || thread > 127 {
                    2
                } else if self.timeslices.contains_key(&timeslice) {
                    3
                } else if !self.threads.contains_key(&thread) {
                    4
                } else if self.timeslices.values().any(|t| t.owner == thread) {
                    13
                } else if quantum == 0 {
                    12
                } else {
                    0
                }
            }
            Event::Call { server } => match self.runs {
                None => 5,
                Some(_) if server > 127 => 2,
                Some(_) if !self.threads.contains_key(&server) => 4,
                Some(_) if !self.threads[&server].server => 6,
                Some(r) if r.thread == server => 7,
                Some(_) => 0,
            },
            Event::Reply => match self.runs {
                None => 5,
                Some(r) if !self.threads[&r.thread].server => 8,
                Some(_) => 0,
            },
            Event::Block => match self.runs {
                None => 5,
                Some(_) => 0,
            },
            Event::Wake { thread } => {
                if thread > 127 {
                    2
                } else if !self.threads.contains_key(&thread) {
                    4
                } else if self.threads[&thread].hold != Hold::Blocked {
                    9
                } else {
                    0
                }
            }
            Event::Charge { amount } => match self.runs {
                None => 5,
                Some(r) if amount == 0 || amount > self.timeslices[&r.timeslice].left => 11,
                Some(_) => 0,
            },
            Event::Abort { thread } => {
                if thread > 127 {
                    2
                } else if !self.threads.contains_key(&thread) {
                    4
                } else if !matches!(self.threads[&thread].hold, Hold::Calling(_) | Hold::Helping(_)) {
                    10
                } else {
                    0
                }
            }
            // Spent is a place, and the plain machine has none: "Left is 0 exactly for Spent."
            Event::Refill { timeslice } => {
                if timeslice > 127 {
                    2
                } else if !self.timeslices.contains_key(&timeslice) {
                    4
                } else if self.timeslices[&timeslice].left > 0 {
                    18
                } else {
                    0
                }
            }
            Event::Remove { thread } => {
                if thread > 127 {
                    2
                } else if !self.threads.contains_key(&thread) {
                    4
                } else {
                    0
                }
            }
            Event::Rank { timeslice, .. } => {
                if timeslice > 127 {
                    2
                } else if !self.timeslices.contains_key(&timeslice) {
                    4
                } else {
                    0
                }
            }
        }
    }

    /// What an accepted event changes, as under "Events", with no release and no choice.
    fn change(&mut self, event: &Event) {
        match *event {
            Event::Create { thread, server } => {
                let hold = if server { Hold::Idle } else { Hold::Ready };
                self.threads.insert(thread, Thread { server, hold, service: Service::None });
            }
            Event::Give { timeslice, thread, priority, quantum } => {
                self.timeslices.insert(timeslice, Timeslice { owner: thread, priority, quantum, left: quantum });
                self.turn_order.push(timeslice);
            }
            Event::Call { server } => {
                let caller = self.runs.unwrap().thread;
                let called = self.threads.get_mut(&server).unwrap();
                let idle = called.hold == Hold::Idle;
                if idle {
                    called.hold = Hold::Ready;
                    called.service = Service::Caller(caller);
                }
                self.threads.get_mut(&caller).unwrap().hold =
                    if idle { Hold::Calling(server) } else { Hold::Helping(server) };
            }
            Event::Reply => {
                let server = self.threads.get_mut(&self.runs.unwrap().thread).unwrap();
                let served = server.service;
                server.hold = Hold::Idle;
                server.service = Service::None;
                if let Service::Caller(caller) = served {
                    self.threads.get_mut(&caller).unwrap().hold = Hold::Ready;
                }
            }
            Event::Block => {
                self.threads.get_mut(&self.runs.unwrap().thread).unwrap().hold = Hold::Blocked;
            }
            Event::Wake { thread } => {
                self.threads.get_mut(&thread).unwrap().hold = Hold::Ready;
            }
            Event::Charge { amount } => {
                let current = self.runs.unwrap().timeslice;
                let t = self.timeslices.get_mut(&current).unwrap();
                t.left -= amount;
                if t.left == 0 {
                    self.turn_order.retain(|s| *s != current);
                    self.turn_order.push(current);
                }
            }
            Event::Abort { thread } => {
                let t = self.threads.get_mut(&thread).unwrap();
                let was = t.hold;
                t.hold = Hold::Ready;
                if let Hold::Calling(server) = was {
                    self.threads.get_mut(&server).unwrap().service = Service::Orphan;
                }
            }
            Event::Refill { timeslice } => {
                let t = self.timeslices.get_mut(&timeslice).unwrap();
                t.left = t.quantum;
            }
            Event::Remove { thread } => {
                let removed = self.threads.remove(&thread).unwrap();
                self.timeslices.retain(|_, t| t.owner != thread);
                self.turn_order.retain(|s| self.timeslices.contains_key(s));
                for t in self.threads.values_mut() {
                    if t.hold == Hold::Calling(thread) || t.hold == Hold::Helping(thread) {
                        t.hold = Hold::Ready;
                    }
                }
                if let Hold::Calling(server) = removed.hold {
                    self.threads.get_mut(&server).unwrap().service = Service::Orphan;
                }
            }
            Event::Rank { timeslice, priority } => {
                self.timeslices.get_mut(&timeslice).unwrap().priority = priority;
                self.turn_order.retain(|s| *s != timeslice);
                self.turn_order.push(timeslice);
            }
        }
    }

    /// One event; hands back its refusal number.
    pub fn step(&mut self, event: &Event) -> u8 {
        let refusal = self.refusal(event);
        if refusal == 0 {
            self.change(event);
            self.judge();
        }
        refusal
    }
}

fn answer(file: &[u8]) -> String {
    let events = match read(file) {
        Ok(events) => events,
        Err(number) => return format!("file {number}\n"),
    };
    let mut m = Plain::empty();
    let mut text = String::new();
    for (i, event) in events.iter().enumerate() {
        let refusal = m.step(event);
        let word = if refusal == 0 { "ok" } else { "no" };
        match m.runs {
            Some(r) => writeln!(text, "{} {} {} {} {} {}", i + 1, word, refusal, r.thread, r.timeslice, r.count),
            None => writeln!(text, "{} {} {} - - 0", i + 1, word, refusal),
        }
        .unwrap();
    }
    text
}

fn main() -> std::io::Result<()> {
    let arguments: Vec<String> = std::env::args().collect();
    if arguments.len() > 2 && arguments[1] == "-o" {
        for name in &arguments[3..] {
            let path = std::path::Path::new(name);
            let out = std::path::Path::new(&arguments[2]).join(path.file_name().unwrap());
            std::fs::write(out, answer(&std::fs::read(path)?))?;
        }
        return Ok(());
    }
    let mut file = Vec::new();
    std::io::stdin().read_to_end(&mut file)?;
    std::io::stdout().write_all(answer(&file).as_bytes())
}
