//! The key program of document 01 with requests [2], [3] and [4]: the dispatcher with places, changed in place.
//!
//! `key` reads an event file from standard input and prints its key.
//! `key -o FOLDER FILE...` writes the key of each file to FOLDER, under the file's own name.
//!
//! Built for speed, as the opponent in `bench.sh`: fixed arrays, timeslices stored in turn order so
//! that "topmost of a set" is one pass over neighbouring numbers, no allocation while events run,
//! one write at the end. `make.rs` and `count.rs` use the machine as a module.

use std::io::{Read, Write};

/// The longest event file, in bytes.
pub const LIMIT: usize = 65_536;
/// No thread, no timeslice, no caller; also the role of a free thread slot.
pub const NONE: u8 = 255;
/// Service: the caller has gone, its request is unfinished.
pub const ORPHAN: u8 = 254;
pub const CLIENT: u8 = 0;
pub const SERVER: u8 = 1;

/// The two links come last: `hold >= Calling` says "has a link".
#[derive(Clone, Copy, PartialEq, Eq, PartialOrd)]
#[repr(u8)]
pub enum Hold {
    Ready,
    Idle,
    Blocked,
    Calling,
    Helping,
}

#[derive(Clone, Copy)]
pub struct Thread {
    pub role: u8,
    pub hold: Hold,
    /// The server called or helped, where `hold` is a link.
    pub to: u8,
    /// The caller served, `ORPHAN` or `NONE`.
    pub service: u8,
}

const FREE: Thread = Thread { role: NONE, hold: Hold::Ready, to: NONE, service: NONE };

/// A place is the name of the set that a timeslice is in: `QUEUE`, `STALLED`, `SPENT`, `ON + thread`
/// or `BEHIND + timeslice`. Release is never asked for `SPENT`.
pub type Place = u16;
pub const QUEUE: Place = 0;
pub const STALLED: Place = 1;
pub const SPENT: Place = 2;
pub const ON: Place = 256;
pub const BEHIND: Place = 512;
const PLACES: usize = 768;

/// What is not needed to find the topmost of a set.
#[derive(Clone, Copy)]
struct Slice {
    number: u8,
    owner: u8,
    quantum: u16,
    left: u16,
}

#[derive(Clone, Copy)]
pub struct Answer {
    pub refusal: u8,
    pub links: u32,
}

const fn refuse(number: u8) -> Answer {
    Answer { refusal: number, links: 0 }
}

const fn accept(links: u32) -> Answer {
    Answer { refusal: 0, links }
}

pub struct Walk {
    pub end: usize,
    /// The thread whose link leads to the end; if the end is Idle, the last helper.
    last: usize,
    pub links: u32,
    count: u32,
}

#[derive(Clone)]
pub struct Machine {
    pub threads: [Thread; 128],
    /// L, the number of live threads.
    pub live: u32,
    /// T, the number of live timeslices. The next three arrays are in turn order, up to `slices`.
    pub slices: usize,
    place: [Place; 128],
    priority: [i16; 128],
    slice: [Slice; 128],
    /// How many timeslices are in each set, so that an empty set costs no pass.
    pub size: [u8; PLACES],
    pub slice_used: [bool; 128],
    pub owns: [bool; 128],
    /// Where the current timeslice stands in turn order; meaningless while nothing runs.
    at: usize,
    pub current: u8,
    pub running: u8,
    pub count: u32,
}

impl Machine {
    pub fn new() -> Machine {
        Machine {
            threads: [FREE; 128],
            live: 0,
            slices: 0,
            place: [QUEUE; 128],
            priority: [0; 128],
            slice: [Slice { number: NONE, owner: NONE, quantum: 0, left: 0 }; 128],
            size: [0; PLACES],
            slice_used: [false; 128],
            owns: [false; 128],
            at: 0,
            current: NONE,
            running: NONE,
            count: 0,
        }
    }

    /// What is left of the current timeslice, 0 while nothing runs.
    pub fn left(&self) -> u16 {
        if self.running == NONE { 0 } else { self.slice[self.at].left }
    }

    /// The numbers of the timeslices in one of the places.
    pub fn placed(&self, places: std::ops::Range<Place>) -> Vec<u8> {
        (0..self.slices).filter(|i| places.contains(&self.place[*i])).map(|i| self.slice[i].number).collect()
    }

    /// The thread's own timeslice: where it stands in turn order.
    fn own(&self, thread: u8) -> Option<usize> {
        self.slice[..self.slices].iter().position(|s| s.owner == thread)
    }

    /// The number and the place of the thread's own timeslice.
    pub fn owned(&self, thread: u8) -> Option<(u8, Place)> {
        self.own(thread).map(|at| (self.slice[at].number, self.place[at]))
    }

    /// Where the timeslice stands in turn order, if it is live.
    fn find(&self, number: u8) -> Option<usize> {
        self.slice[..self.slices].iter().position(|s| s.number == number)
    }

    /// The priority and the place of the timeslice, if it is live.
    pub fn rated(&self, number: u8) -> Option<(u8, Place)> {
        self.find(number).map(|at| (self.priority[at] as u8, self.place[at]))
    }

    /// "The walk": at most L links, and L links are a loop.
    #[inline]
    pub fn walk(&self, from: usize) -> Walk {
        let mut w = Walk { end: from, last: from, links: 0, count: 0 };
        loop {
            let t = self.threads[w.end & 127];
            if t.hold < Hold::Calling || w.links == self.live {
                return w;
            }
            w.links += 1;
            w.count = if t.hold == Hold::Calling { w.count + 1 } else { 0 };
            w.last = w.end;
            w.end = t.to as usize;
        }
    }

    /// The topmost of a set that is not empty, as a position in turn order: highest priority first,
    /// then earliest. Both fit in one number: 8 bits of priority above 7 bits of position.
    #[inline]
    fn topmost(&self, set: Place) -> usize {
        let n = self.slices.min(128);
        let mut best = -1i16;
        for i in 0..n {
            let rank = self.priority[i] << 7 | (127 - i as i16);
            let rank = if self.place[i] == set { rank } else { -1 };
            best = best.max(rank);
        }
        (127 - (best & 127)) as usize
    }

    #[inline]
    fn above(&self, a: usize, b: usize) -> bool {
        let (p, q) = (self.priority[a], self.priority[b]);
        p > q || (p == q && a < b)
    }

    /// "Release": the topmost of the set goes to Queue, the rest Behind it.
    #[inline]
    fn release(&mut self, set: Place) -> Option<usize> {
        let many = self.size[set as usize];
        if many == 0 {
            return None;
        }
        let top = self.topmost(set);
        self.place[top] = QUEUE;
        self.size[set as usize] = 0;
        self.size[QUEUE as usize] += 1;
        if many > 1 {
            let behind = BEHIND + self.slice[top].number as Place;
            for p in &mut self.place[..self.slices] {
                *p = if *p == set { behind } else { *p };
            }
            self.size[behind as usize] = many - 1;
        }
        Some(top)
    }

    /// Leaves Queue for another place; leaving Queue releases the followers.
    #[inline]
    fn leave(&mut self, at: usize, place: Place) {
        self.place[at] = place;
        self.size[QUEUE as usize] -= 1;
        self.size[place as usize] += 1;
        self.release(BEHIND + self.slice[at].number as Place);
    }

    /// Goes to the back of the turn order; hands back where that is. `self.at` may be wrong then: a choice follows.
    #[inline]
    fn back(&mut self, at: usize) -> usize {
        let n = self.slices;
        self.place[at..n].rotate_left(1);
        self.priority[at..n].rotate_left(1);
        self.slice[at..n].rotate_left(1);
        n - 1
    }

    /// "Choice"; hands back the links followed.
    fn choose(&mut self) -> u32 {
        let mut links = 0;
        while self.size[QUEUE as usize] > 0 {
            let at = self.topmost(QUEUE);
            let w = self.walk(self.slice[at].owner as usize);
            links += w.links;
            if w.links == self.live {
                self.leave(at, STALLED);
                continue;
            }
            match self.threads[w.end].hold {
                Hold::Ready => {
                    self.at = at;
                    self.current = self.slice[at].number;
                    self.running = w.end as u8;
                    self.count = w.count;
                    return links;
                }
                Hold::Idle if w.links > 0 => {
                    // The last helper's retry succeeds.
                    self.threads[w.last].hold = Hold::Calling;
                    self.threads[w.end].hold = Hold::Ready;
                    self.threads[w.end].service = w.last as u8;
                    self.release(ON + w.end as Place);
                }
                _ => self.leave(at, ON + w.end as Place),
            }
        }
        self.current = NONE;
        self.running = NONE;
        self.count = 0;
        links
    }

    pub fn create(&mut self, thread: u8, role: u8) -> Answer {
        if thread > 127 {
            return refuse(2);
        }
        let t = &mut self.threads[thread as usize];
        if t.role != NONE {
            return refuse(3);
        }
        t.role = role;
        t.hold = if role == SERVER { Hold::Idle } else { Hold::Ready };
        self.live += 1;
        accept(0)
    }

    pub fn give(&mut self, number: u8, thread: u8, priority: u8, quantum: u16) -> Answer {
        if number > 127 || thread > 127 {
            return refuse(2);
        }
        if self.slice_used[number as usize] {
            return refuse(3);
        }
        if self.threads[thread as usize].role == NONE {
            return refuse(4);
        }
        if self.owns[thread as usize] {
            return refuse(13);
        }
        if quantum == 0 {
            return refuse(12);
        }
        self.slice_used[number as usize] = true;
        self.owns[thread as usize] = true;
        let n = self.slices;
        self.slice[n] = Slice { number, owner: thread, quantum, left: quantum };
        self.priority[n] = priority as i16;
        self.place[n] = QUEUE;
        self.size[QUEUE as usize] += 1;
        self.slices = n + 1;
        if self.running == NONE || self.above(n, self.at) {
            accept(self.choose())
        } else {
            accept(0)
        }
    }

    pub fn call(&mut self, server: u8) -> Answer {
        let caller = self.running;
        if caller == NONE {
            return refuse(5);
        }
        if server > 127 {
            return refuse(2);
        }
        let (s, c) = (server as usize, caller as usize & 127);
        match self.threads[s].role {
            SERVER => {}
            NONE => return refuse(4),
            _ => return refuse(6),
        }
        if server == caller {
            return refuse(7);
        }
        self.threads[c].to = server;
        if self.threads[s].hold != Hold::Idle {
            self.threads[c].hold = Hold::Helping;
            return accept(self.choose());
        }
        self.threads[c].hold = Hold::Calling;
        self.threads[s].hold = Hold::Ready;
        self.threads[s].service = caller;
        self.running = server;
        self.count += 1;
        match self.release(ON + server as Place) {
            Some(top) if self.above(top, self.at) => accept(self.choose()),
            _ => accept(0),
        }
    }

    pub fn reply(&mut self) -> Answer {
        if self.running == NONE {
            return refuse(5);
        }
        let server = &mut self.threads[self.running as usize & 127];
        if server.role != SERVER {
            return refuse(8);
        }
        let caller = server.service;
        server.hold = Hold::Idle;
        server.service = NONE;
        if caller < 128 {
            self.threads[caller as usize].hold = Hold::Ready;
        }
        if self.count > 0 {
            // The last link was a donation, so there is a caller.
            self.running = caller;
            self.count -= 1;
            accept(0)
        } else {
            accept(self.choose())
        }
    }

    pub fn block(&mut self) -> Answer {
        if self.running == NONE {
            return refuse(5);
        }
        self.threads[self.running as usize & 127].hold = Hold::Blocked;
        accept(self.choose())
    }

    pub fn wake(&mut self, thread: u8) -> Answer {
        if thread > 127 {
            return refuse(2);
        }
        let t = &mut self.threads[thread as usize];
        if t.role == NONE {
            return refuse(4);
        }
        if t.hold != Hold::Blocked {
            return refuse(9);
        }
        t.hold = Hold::Ready;
        match self.release(ON + thread as Place) {
            Some(top) if self.running == NONE || self.above(top, self.at) => accept(self.choose()),
            _ => accept(0),
        }
    }

    pub fn charge(&mut self, amount: u16) -> Answer {
        if self.running == NONE {
            return refuse(5);
        }
        let at = self.at & 127;
        let s = &mut self.slice[at];
        if amount == 0 || amount > s.left {
            return refuse(11);
        }
        s.left -= amount;
        if s.left > 0 {
            return accept(0);
        }
        let last = self.back(at);
        self.leave(last, SPENT);
        accept(self.choose())
    }

    pub fn abort(&mut self, thread: u8) -> Answer {
        if thread > 127 {
            return refuse(2);
        }
        let n = thread as usize;
        let t = self.threads[n];
        if t.role == NONE {
            return refuse(4);
        }
        if t.hold < Hold::Calling {
            return refuse(10);
        }
        let w = self.walk(n);
        self.threads[n].hold = Hold::Ready;
        if t.hold == Hold::Calling {
            self.threads[t.to as usize & 127].service = ORPHAN;
        }
        if w.links == self.live {
            self.release(STALLED);
        } else if self.threads[w.end].hold == Hold::Blocked {
            self.release(ON + w.end as Place);
        }
        accept(w.links + self.choose())
    }

    pub fn refill(&mut self, number: u8) -> Answer {
        if number > 127 {
            return refuse(2);
        }
        if !self.slice_used[number as usize] {
            return refuse(4);
        }
        let at = self.find(number).unwrap();
        if self.place[at] != SPENT {
            return refuse(18);
        }
        self.slice[at].left = self.slice[at].quantum;
        self.place[at] = QUEUE;
        self.size[SPENT as usize] -= 1;
        self.size[QUEUE as usize] += 1;
        if self.running == NONE || self.above(at, self.at) {
            accept(self.choose())
        } else {
            accept(0)
        }
    }

    pub fn remove(&mut self, thread: u8) -> Answer {
        if thread > 127 {
            return refuse(2);
        }
        let n = thread as usize;
        let t = self.threads[n];
        if t.role == NONE {
            return refuse(4);
        }
        // What the walk met is asked before anything changes: the end may be the thread itself.
        let w = self.walk(n);
        let looped = w.links == self.live;
        let blocked = self.threads[w.end].hold == Hold::Blocked;
        if let Some(at) = self.own(thread) {
            self.strike(at);
        }
        for other in &mut self.threads {
            if other.hold >= Hold::Calling && other.to == thread {
                other.hold = Hold::Ready;
            }
        }
        if t.hold == Hold::Calling {
            self.threads[t.to as usize & 127].service = ORPHAN;
        }
        if looped {
            self.release(STALLED);
        } else if blocked {
            self.release(ON + w.end as Place);
        }
        self.threads[n] = FREE;
        self.owns[n] = false;
        self.live -= 1;
        accept(w.links + self.choose())
    }

    /// Strikes a timeslice out, whatever its place, and releases its followers. `self.at` may be wrong
    /// then: a choice follows.
    fn strike(&mut self, at: usize) {
        let (number, n) = (self.slice[at].number, self.slices);
        self.size[self.place[at] as usize] -= 1;
        self.place.copy_within(at + 1..n, at);
        self.priority.copy_within(at + 1..n, at);
        self.slice.copy_within(at + 1..n, at);
        self.slices = n - 1;
        self.slice_used[number as usize] = false;
        self.release(BEHIND + number as Place);
    }

    pub fn rank(&mut self, number: u8, priority: u8) -> Answer {
        if number > 127 {
            return refuse(2);
        }
        if !self.slice_used[number as usize] {
            return refuse(4);
        }
        let at = self.find(number).unwrap();
        match self.place[at] {
            QUEUE => {
                self.release(BEHIND + number as Place);
            }
            behind @ BEHIND.. => {
                self.place[at] = QUEUE;
                self.size[behind as usize] -= 1;
                self.size[QUEUE as usize] += 1;
            }
            _ => {}
        }
        self.priority[at] = priority as i16;
        self.back(at);
        accept(self.choose())
    }

    /// The first of the records, if there is one: its answer, and the records after it. The file has
    /// been checked: every record is whole and its length fits its kind.
    #[inline]
    pub fn next<'a>(&mut self, records: &'a [u8]) -> Option<(Answer, &'a [u8])> {
        Some(match records {
            [_, 1, thread, role, tail @ ..] => (self.create(*thread, *role), tail),
            [_, 2, number, thread, priority, high, low, tail @ ..] => {
                (self.give(*number, *thread, *priority, u16::from_be_bytes([*high, *low])), tail)
            }
            [_, 3, server, tail @ ..] => (self.call(*server), tail),
            [_, 4, tail @ ..] => (self.reply(), tail),
            [_, 5, tail @ ..] => (self.block(), tail),
            [_, 6, thread, tail @ ..] => (self.wake(*thread), tail),
            [_, 7, high, low, tail @ ..] => (self.charge(u16::from_be_bytes([*high, *low])), tail),
            [_, 8, thread, tail @ ..] => (self.abort(*thread), tail),
            [_, 9, number, tail @ ..] => (self.refill(*number), tail),
            [_, 10, thread, tail @ ..] => (self.remove(*thread), tail),
            [_, 11, number, priority, tail @ ..] => (self.rank(*number, *priority), tail),
            _ => return None,
        })
    }
}

/// The length byte of a record, by kind.
const LENGTH: [u8; 12] = [0, 3, 6, 2, 1, 1, 2, 3, 2, 2, 2, 3];

/// Checks a file whole and hands back its records; 14, 15 or 16 where it is refused.
pub fn check(file: &[u8]) -> Result<&[u8], u8> {
    if file.len() < 4 || file.len() > LIMIT {
        return Err(14);
    }
    let length = u32::from_be_bytes([file[0], file[1], file[2], file[3]]) as usize;
    if length == 0 || length != file.len() - 4 {
        return Err(14);
    }
    if file[4] != 1 {
        return Err(15);
    }
    let records = &file[5..];
    let mut rest = records;
    while let [length, tail @ ..] = rest {
        match tail {
            [kind @ 1..=11, ..] if LENGTH[*kind as usize] == *length && *length as usize <= tail.len() => {
                if *kind == 1 && tail[2] > 1 {
                    return Err(16);
                }
                rest = &tail[*length as usize..];
            }
            _ => return Err(16),
        }
    }
    Ok(records)
}

/// Numbers up to 255 with a space before them: four bytes and how many of them count.
const fn small_numbers() -> [([u8; 4], u8); 256] {
    let mut table = [([b' '; 4], 0); 256];
    let mut n = 0;
    while n < 256 {
        let (h, t, o) = ((n / 100) as u8 + 48, (n / 10 % 10) as u8 + 48, (n % 10) as u8 + 48);
        table[n] = if n > 99 {
            ([b' ', h, t, o], 4)
        } else if n > 9 {
            ([b' ', t, o, 0], 3)
        } else {
            ([b' ', o, 0, 0], 2)
        };
        n += 1;
    }
    table[NONE as usize] = ([b' ', b'-', 0, 0], 2);
    table
}

/// `NONE` prints as `-`: no other number in a key that uses the table reaches 255.
static SMALL: [([u8; 4], u8); 256] = small_numbers();

/// Room for a line: 5 digits of event number, 7 of links, and the rest.
const LINE: usize = 40;

/// The key's text, with room for all lines from the start.
pub struct Text {
    bytes: Vec<u8>,
    used: usize,
    /// The event number in decimal, its last digit at the end.
    number: [u8; 8],
    digits: usize,
}

impl Text {
    pub fn new(events: usize) -> Text {
        Text { bytes: vec![0; (events + 1) * LINE], used: 0, number: [b'0'; 8], digits: 1 }
    }

    fn small(line: &mut [u8; LINE], at: usize, n: usize) -> usize {
        let (text, length) = SMALL[n & 255];
        line[at..at + 4].copy_from_slice(&text);
        at + length as usize
    }

    #[inline]
    fn line(&mut self, m: &Machine, a: Answer) {
        // The next event number, by carrying.
        let mut i = 7;
        while self.number[i] == b'9' {
            self.number[i] = b'0';
            i -= 1;
        }
        self.number[i] += 1;
        self.digits = self.digits.max(8 - i);

        let line: &mut [u8; LINE] = (&mut self.bytes[self.used..self.used + LINE]).try_into().unwrap();
        let shifted = u64::from_be_bytes(self.number) << (8 * (8 - self.digits));
        line[..8].copy_from_slice(&shifted.to_be_bytes());
        let mut at = self.digits & 7;
        line[at..at + 3].copy_from_slice(if a.refusal == 0 { b" ok" } else { b" no" });
        at += 3;
        at = Text::small(line, at, a.refusal as usize);
        at = Text::small(line, at, m.running as usize);
        at = Text::small(line, at, m.current as usize);
        at = Text::small(line, at, m.count as usize);
        if a.links < NONE as u32 {
            at = Text::small(line, at, a.links as usize);
        } else {
            line[at] = b' ';
            let mut digits = 1;
            let mut n = a.links;
            while n > 9 {
                n /= 10;
                digits += 1;
            }
            n = a.links;
            for k in (1..=digits).rev() {
                line[at + k] = b'0' + (n % 10) as u8;
                n /= 10;
            }
            at += 1 + digits;
        }
        line[at] = b'\n';
        self.used += at + 1;
    }
}

/// The key of a file.
pub fn key(file: &[u8]) -> Vec<u8> {
    let mut rest = match check(file) {
        Ok(records) => records,
        Err(number) => return format!("file {number}\n").into_bytes(),
    };
    let mut text = Text::new(rest.len() / 2);
    let mut m = Machine::new();
    while let Some((answer, tail)) = m.next(rest) {
        text.line(&m, answer);
        rest = tail;
    }
    text.bytes.truncate(text.used);
    text.bytes
}

#[allow(dead_code)]
fn main() -> std::io::Result<()> {
    let arguments: Vec<String> = std::env::args().collect();
    if arguments.len() > 2 && arguments[1] == "-o" {
        for name in &arguments[3..] {
            let path = std::path::Path::new(name);
            let out = std::path::Path::new(&arguments[2]).join(path.file_name().unwrap());
            std::fs::write(out, key(&std::fs::read(path)?))?;
        }
        return Ok(());
    }
    // One byte more than a file may have: enough to tell that it is too long.
    let mut buffer = [0u8; LIMIT + 1];
    let mut filled = 0;
    let mut input = std::io::stdin().lock();
    while filled < buffer.len() {
        match input.read(&mut buffer[filled..])? {
            0 => break,
            n => filled += n,
        }
    }
    std::io::stdout().lock().write_all(&key(&buffer[..filled]))
}
