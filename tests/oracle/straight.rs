//! A second opponent for `bench.sh`: document 01's machine, with requests [2], [3] and [4], in its own layout, tables of thread and
//! timeslice records by number and the turn order beside them, changed in place. The turn order is scanned once for a
//! choice and once for each release; nothing is kept to save a scan. `key.rs` is tuned further.

use std::io::{Read, Write};

#[allow(dead_code)]
#[path = "key.rs"]
mod tuned;

#[derive(Clone, Copy, PartialEq, Eq)]
enum Hold {
    Ready,
    Idle,
    Blocked,
    Calling(u8),
    Helping(u8),
}

#[derive(Clone, Copy, PartialEq, Eq)]
enum Service {
    Nobody,
    Serving(u8),
    Orphan,
}

#[derive(Clone, Copy, PartialEq, Eq)]
enum Place {
    Queue,
    Behind(u8),
    On(u8),
    Stalled,
    Spent,
}

#[derive(Clone, Copy)]
struct Thread {
    live: bool,
    server: bool,
    hold: Hold,
    service: Service,
}

#[derive(Clone, Copy)]
struct Timeslice {
    live: bool,
    owner: u8,
    priority: u8,
    quantum: u16,
    left: u16,
    place: Place,
}

const FREE_THREAD: Thread = Thread { live: false, server: false, hold: Hold::Ready, service: Service::Nobody };
const FREE_TIMESLICE: Timeslice = Timeslice { live: false, owner: 0, priority: 0, quantum: 0, left: 0, place: Place::Queue };

struct Running {
    thread: u8,
    timeslice: u8,
    count: u8,
}

struct Machine {
    threads: [Thread; 128],
    timeslices: [Timeslice; 128],
    order: [u8; 128],
    live: usize,
    slices: usize,
    running: Option<Running>,
}

struct Walk {
    looped: bool,
    end: u8,
    helper: u8,
    links: usize,
    count: u8,
}

impl Machine {
    fn new() -> Machine {
        let (threads, timeslices) = ([FREE_THREAD; 128], [FREE_TIMESLICE; 128]);
        Machine { threads, timeslices, order: [0; 128], live: 0, slices: 0, running: None }
    }

    fn walk(&self, from: u8) -> Walk {
        let mut w = Walk { looped: false, end: from, helper: 0, links: 0, count: 0 };
        loop {
            if w.links == self.live {
                w.looped = true;
                return w;
            }
            match self.threads[w.end as usize].hold {
                Hold::Calling(s) => {
                    w.count += 1;
                    w.end = s;
                }
                Hold::Helping(s) => {
                    w.count = 0;
                    w.helper = w.end;
                    w.end = s;
                }
                _ => return w,
            }
            w.links += 1;
        }
    }

    fn topmost(&self, set: Place) -> Option<u8> {
        let mut best: Option<u8> = None;
        for &t in &self.order[..self.slices] {
            let x = &self.timeslices[t as usize];
            if x.place == set && best.map_or(true, |b| self.timeslices[b as usize].priority < x.priority) {
                best = Some(t);
            }
        }
        best
    }

    fn above(&self, a: u8, b: u8) -> bool {
        let (p, q) = (self.timeslices[a as usize].priority, self.timeslices[b as usize].priority);
        if p != q {
            return p > q;
        }
        for &t in &self.order[..self.slices] {
            if t == b {
                return false;
            }
            if t == a {
                return true;
            }
        }
        false
    }

    fn release(&mut self, set: Place) -> Option<u8> {
        let top = self.topmost(set)?;
        for &t in &self.order[..self.slices] {
            let x = &mut self.timeslices[t as usize];
            if x.place == set {
                x.place = if t == top { Place::Queue } else { Place::Behind(top) };
            }
        }
        Some(top)
    }

    fn park(&mut self, t: u8, place: Place) {
        self.timeslices[t as usize].place = place;
        self.release(Place::Behind(t));
    }

    /// Goes to the back of the turn order.
    fn back(&mut self, t: u8) {
        let at = self.order[..self.slices].iter().position(|&u| u == t).unwrap();
        self.order[at..self.slices].rotate_left(1);
    }

    fn choose(&mut self) -> usize {
        let mut links = 0;
        while let Some(t) = self.topmost(Place::Queue) {
            let w = self.walk(self.timeslices[t as usize].owner);
            links += w.links;
            if w.looped {
                self.park(t, Place::Stalled);
                continue;
            }
            match self.threads[w.end as usize].hold {
                Hold::Ready => {
                    self.running = Some(Running { thread: w.end, timeslice: t, count: w.count });
                    return links;
                }
                Hold::Idle if w.links > 0 => {
                    self.donate(w.helper, w.end);
                    self.release(Place::On(w.end));
                }
                _ => self.park(t, Place::On(w.end)),
            }
        }
        self.running = None;
        links
    }

    fn donate(&mut self, caller: u8, server: u8) {
        self.threads[caller as usize].hold = Hold::Calling(server);
        self.threads[server as usize].hold = Hold::Ready;
        self.threads[server as usize].service = Service::Serving(caller);
    }

    /// Choice, if one joined Queue and nothing runs or it stands above the current.
    fn joined(&mut self, top: Option<u8>) -> Result<usize, u8> {
        let Some(q) = top else { return Ok(0) };
        match &self.running {
            Some(r) if !self.above(q, r.timeslice) => Ok(0),
            _ => Ok(self.choose()),
        }
    }

    fn create(&mut self, n: u8, role: u8) -> Result<usize, u8> {
        if n > 127 {
            return Err(2);
        }
        if self.threads[n as usize].live {
            return Err(3);
        }
        let server = role == 1;
        let hold = if server { Hold::Idle } else { Hold::Ready };
        self.threads[n as usize] = Thread { live: true, server, hold, service: Service::Nobody };
        self.live += 1;
        Ok(0)
    }

    /// Where the thread's own timeslice stands in turn order.
    fn own(&self, n: u8) -> Option<usize> {
        self.order[..self.slices].iter().position(|&t| self.timeslices[t as usize].owner == n)
    }

    fn give(&mut self, t: u8, n: u8, priority: u8, quantum: u16) -> Result<usize, u8> {
        if t > 127 || n > 127 {
            return Err(2);
        }
        if self.timeslices[t as usize].live {
            return Err(3);
        }
        if !self.threads[n as usize].live {
            return Err(4);
        }
        if self.own(n).is_some() {
            return Err(13);
        }
        if quantum == 0 {
            return Err(12);
        }
        self.timeslices[t as usize] = Timeslice { live: true, owner: n, priority, quantum, left: quantum, place: Place::Queue };
        self.order[self.slices] = t;
        self.slices += 1;
        self.joined(Some(t))
    }

    fn call(&mut self, server: u8) -> Result<usize, u8> {
        let Some(Running { thread: caller, timeslice, count }) = self.running else { return Err(5) };
        if server > 127 {
            return Err(2);
        }
        let s = self.threads[server as usize];
        if !s.live {
            return Err(4);
        }
        if !s.server {
            return Err(6);
        }
        if server == caller {
            return Err(7);
        }
        if s.hold == Hold::Idle {
            self.donate(caller, server);
            self.running = Some(Running { thread: server, timeslice, count: count + 1 });
            let top = self.release(Place::On(server));
            return self.joined(top);
        }
        self.threads[caller as usize].hold = Hold::Helping(server);
        Ok(self.choose())
    }

    fn reply(&mut self) -> Result<usize, u8> {
        let Some(Running { thread: server, timeslice, count }) = self.running else { return Err(5) };
        let s = self.threads[server as usize];
        if !s.server {
            return Err(8);
        }
        self.threads[server as usize].hold = Hold::Idle;
        self.threads[server as usize].service = Service::Nobody;
        if let Service::Serving(caller) = s.service {
            self.threads[caller as usize].hold = Hold::Ready;
            if count > 0 {
                self.running = Some(Running { thread: caller, timeslice, count: count - 1 });
                return Ok(0);
            }
        }
        Ok(self.choose())
    }

    fn block(&mut self) -> Result<usize, u8> {
        let Some(Running { thread, .. }) = self.running else { return Err(5) };
        self.threads[thread as usize].hold = Hold::Blocked;
        Ok(self.choose())
    }

    fn wake(&mut self, n: u8) -> Result<usize, u8> {
        if n > 127 {
            return Err(2);
        }
        if !self.threads[n as usize].live {
            return Err(4);
        }
        if self.threads[n as usize].hold != Hold::Blocked {
            return Err(9);
        }
        self.threads[n as usize].hold = Hold::Ready;
        let top = self.release(Place::On(n));
        self.joined(top)
    }

    fn charge(&mut self, units: u16) -> Result<usize, u8> {
        let Some(Running { timeslice: t, .. }) = self.running else { return Err(5) };
        let x = &mut self.timeslices[t as usize];
        if units == 0 || units > x.left {
            return Err(11);
        }
        x.left -= units;
        if x.left > 0 {
            return Ok(0);
        }
        self.back(t);
        self.park(t, Place::Spent);
        Ok(self.choose())
    }

    fn abort(&mut self, n: u8) -> Result<usize, u8> {
        if n > 127 {
            return Err(2);
        }
        let thread = self.threads[n as usize];
        if !thread.live {
            return Err(4);
        }
        if !matches!(thread.hold, Hold::Calling(_) | Hold::Helping(_)) {
            return Err(10);
        }
        let w = self.walk(n);
        self.threads[n as usize].hold = Hold::Ready;
        if let Hold::Calling(s) = thread.hold {
            self.threads[s as usize].service = Service::Orphan;
        }
        if w.looped {
            self.release(Place::Stalled);
        } else if self.threads[w.end as usize].hold == Hold::Blocked {
            self.release(Place::On(w.end));
        }
        Ok(w.links + self.choose())
    }

    fn refill(&mut self, t: u8) -> Result<usize, u8> {
        if t > 127 {
            return Err(2);
        }
        let x = &mut self.timeslices[t as usize];
        if !x.live {
            return Err(4);
        }
        if x.place != Place::Spent {
            return Err(18);
        }
        x.left = x.quantum;
        x.place = Place::Queue;
        self.joined(Some(t))
    }

    fn remove(&mut self, n: u8) -> Result<usize, u8> {
        if n > 127 {
            return Err(2);
        }
        let thread = self.threads[n as usize];
        if !thread.live {
            return Err(4);
        }
        let w = self.walk(n);
        let blocked = self.threads[w.end as usize].hold == Hold::Blocked;
        if let Some(at) = self.own(n) {
            let t = self.order[at];
            self.order.copy_within(at + 1..self.slices, at);
            self.slices -= 1;
            self.timeslices[t as usize] = FREE_TIMESLICE;
            self.release(Place::Behind(t));
        }
        for other in &mut self.threads {
            if other.hold == Hold::Calling(n) || other.hold == Hold::Helping(n) {
                other.hold = Hold::Ready;
            }
        }
        if let Hold::Calling(s) = thread.hold {
            self.threads[s as usize].service = Service::Orphan;
        }
        if w.looped {
            self.release(Place::Stalled);
        } else if blocked {
            self.release(Place::On(w.end));
        }
        self.threads[n as usize] = FREE_THREAD;
        self.live -= 1;
        Ok(w.links + self.choose())
    }

    fn rank(&mut self, t: u8, priority: u8) -> Result<usize, u8> {
        if t > 127 {
            return Err(2);
        }
        if !self.timeslices[t as usize].live {
            return Err(4);
        }
        match self.timeslices[t as usize].place {
            Place::Queue => {
                self.release(Place::Behind(t));
            }
            Place::Behind(_) => self.timeslices[t as usize].place = Place::Queue,
            _ => {}
        }
        self.timeslices[t as usize].priority = priority;
        self.back(t);
        Ok(self.choose())
    }
}

fn number(out: &mut Vec<u8>, n: usize) {
    if n >= 10 {
        number(out, n / 10);
    }
    out.push(b'0' + (n % 10) as u8);
}

fn key(file: &[u8]) -> Vec<u8> {
    let mut rest = match tuned::check(file) {
        Ok(records) => records,
        Err(n) => return format!("file {n}\n").into_bytes(),
    };
    let mut out = Vec::with_capacity(16 * file.len());
    let mut m = Machine::new();
    let mut event = 0;
    while let [length, kind, tail @ ..] = rest {
        let word = |i: usize| u16::from_be_bytes([tail[i], tail[i + 1]]);
        let answer = match kind {
            1 => m.create(tail[0], tail[1]),
            2 => m.give(tail[0], tail[1], tail[2], word(3)),
            3 => m.call(tail[0]),
            4 => m.reply(),
            5 => m.block(),
            6 => m.wake(tail[0]),
            7 => m.charge(word(0)),
            8 => m.abort(tail[0]),
            9 => m.refill(tail[0]),
            10 => m.remove(tail[0]),
            _ => m.rank(tail[0], tail[1]),
        };
        rest = &rest[1 + *length as usize..];
        event += 1;
        number(&mut out, event);
        let (word, refusal, links) = match answer {
            Ok(links) => (b" ok ", 0, links),
            Err(n) => (b" no ", n, 0),
        };
        out.extend_from_slice(word);
        number(&mut out, refusal as usize);
        match &m.running {
            None => out.extend_from_slice(b" - - 0 "),
            Some(r) => {
                for n in [r.thread, r.timeslice, r.count] {
                    out.push(b' ');
                    number(&mut out, n as usize);
                }
                out.push(b' ');
            }
        }
        number(&mut out, links);
        out.push(b'\n');
    }
    out
}

fn main() -> std::io::Result<()> {
    let mut file = Vec::new();
    std::io::stdin().lock().take(65_537).read_to_end(&mut file)?;
    std::io::stdout().lock().write_all(&key(&file))
}
