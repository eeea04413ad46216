//! Makes event files: `make SEED COUNT FOLDER KIND`. The same arguments give the same files.
//!
//! Kinds:
//! - `lively`: random lists that keep threads running, calling, helping, blocking, waking,
//!   aborting, charging, refilling, removing and ranking; 3 to 128 threads, many equal priorities, refusals 2 to 13 and 18;
//! - `chain`: long chains of donation and helping links, up to 127, and loops;
//! - `damaged`: files with a fault for the reader (14, 15, 16), and the borders beside them;
//! - `full`: 128 threads, each with a timeslice, a file of 65,536 bytes;
//! - `small`: 6 threads, a file of 65,536 bytes;
//! - `chain16`, `chain64`, `chain127` (any `chainN` up to 127): abort and choice on a chain of N
//!   links, over and over, a file of 65,536 bytes;
//! - `ranks`, `refills`: 128 clients, each with a timeslice, of which one after another goes to the back of the
//!   turn order: it is ranked, or it is depleted and refilled; a file of 65,536 bytes;
//! - `full-undepleted`, `small-undepleted`, `chainN-undepleted`: the same, but no charge reaches 0 and
//!   nothing is refilled, for a program from before request [2].
//!
//! From `full` on no kind but `ranks` has a remove or a rank: those files are also for a program from before requests [3] and [4].
//!
//! The machine of `key.rs` runs along, so that the next event can be chosen by what would happen.

#[path = "key.rs"]
mod key;

use key::{Hold, Machine, Place, BEHIND, CLIENT, LIMIT, NONE, ON, QUEUE, SERVER, SPENT, STALLED};

/// splitmix64
struct Random(u64);

impl Random {
    fn next(&mut self) -> u64 {
        self.0 = self.0.wrapping_add(0x9E37_79B9_7F4A_7C15);
        let mut z = self.0;
        z = (z ^ (z >> 30)).wrapping_mul(0xBF58_476D_1CE4_E5B9);
        z = (z ^ (z >> 27)).wrapping_mul(0x94D0_49BB_1331_11EB);
        z ^ (z >> 31)
    }

    /// 0 to n - 1
    fn below(&mut self, n: usize) -> usize {
        (self.next() >> 11) as usize % n
    }

    /// a to b
    fn range(&mut self, a: usize, b: usize) -> usize {
        a + self.below(b - a + 1)
    }

    fn percent(&mut self, p: usize) -> bool {
        self.below(100) < p
    }

    fn pick<T: Copy>(&mut self, from: &[T]) -> Option<T> {
        if from.is_empty() { None } else { Some(from[self.below(from.len())]) }
    }
}

#[derive(Clone, Copy)]
enum Event {
    Create(u8, u8),
    Give(u8, u8, u8, u16),
    Call(u8),
    Reply,
    Block,
    Wake(u8),
    Charge(u16),
    Abort(u8),
    Refill(u8),
    Remove(u8),
    Rank(u8, u8),
}
use Event::*;

fn record(e: Event) -> Vec<u8> {
    match e {
        Create(t, r) => vec![3, 1, t, r],
        Give(s, t, p, q) => vec![6, 2, s, t, p, (q >> 8) as u8, q as u8],
        Call(t) => vec![2, 3, t],
        Reply => vec![1, 4],
        Block => vec![1, 5],
        Wake(t) => vec![2, 6, t],
        Charge(c) => vec![3, 7, (c >> 8) as u8, c as u8],
        Abort(t) => vec![2, 8, t],
        Refill(s) => vec![2, 9, s],
        Remove(t) => vec![2, 10, t],
        Rank(s, p) => vec![3, 11, s, p],
    }
}

/// What a list should look like.
struct Profile {
    threads: usize,
    /// Servers among a hundred threads.
    servers: usize,
    slices: usize,
    /// Priorities are drawn from these alone, so that ties are common.
    priorities: Vec<u8>,
    quantum: usize,
    /// Whether charges may reach 0.
    depletes: bool,
    /// Refused events among a hundred.
    wrong: usize,
    /// Calls among a hundred that go to a server with a higher number than the caller's. Such calls
    /// alone make no loop.
    upward: usize,
    /// Weights of call, reply, block, wake, charge, abort, refill, remove, rank.
    weights: [usize; 9],
}

struct List {
    random: Random,
    machine: Machine,
    bytes: Vec<u8>,
    profile: Profile,
}

impl List {
    fn new(seed: u64, profile: Profile) -> List {
        List { random: Random(seed), machine: Machine::new(), bytes: vec![0, 0, 0, 0, 1], profile }
    }

    fn add(&mut self, e: Event) {
        let m = &mut self.machine;
        match e {
            Create(t, r) => m.create(t, r),
            Give(s, t, p, q) => m.give(s, t, p, q),
            Call(t) => m.call(t),
            Reply => m.reply(),
            Block => m.block(),
            Wake(t) => m.wake(t),
            Charge(c) => m.charge(c),
            Abort(t) => m.abort(t),
            Refill(s) => m.refill(s),
            Remove(t) => m.remove(t),
            Rank(s, p) => m.rank(s, p),
        };
        self.bytes.extend(record(e));
    }

    /// The file, its length field filled in.
    fn file(mut self) -> Vec<u8> {
        let length = (self.bytes.len() - 4) as u32;
        self.bytes[..4].copy_from_slice(&length.to_be_bytes());
        self.bytes
    }

    fn threads(&self, wanted: impl Fn(&key::Thread) -> bool) -> Vec<u8> {
        (0..128u8).filter(|n| self.machine.threads[*n as usize].role != NONE && wanted(&self.machine.threads[*n as usize])).collect()
    }

    fn free_thread(&mut self) -> Option<u8> {
        let free: Vec<u8> = (0..128u8).filter(|n| self.machine.threads[*n as usize].role == NONE).collect();
        // Mostly the lowest, so that short lists have readable numbers; sometimes any.
        if self.random.percent(80) { free.first().copied() } else { self.random.pick(&free) }
    }

    fn free_slice(&mut self) -> Option<u8> {
        let free: Vec<u8> = (0..128u8).filter(|n| !self.machine.slice_used[*n as usize]).collect();
        self.random.pick(&free)
    }

    fn role(&mut self) -> u8 {
        if self.random.percent(self.profile.servers) { SERVER } else { CLIENT }
    }

    fn give(&mut self) -> Option<Event> {
        let without: Vec<u8> = self.threads(|_| true).into_iter().filter(|n| !self.machine.owns[*n as usize]).collect();
        let thread = self.random.pick(&without)?;
        let slice = self.free_slice()?;
        let priority = self.random.pick(&self.profile.priorities)?;
        let quantum = self.random.range(1, self.profile.quantum) as u16;
        Some(Give(slice, thread, priority, quantum))
    }

    fn spent(&self) -> Vec<u8> {
        self.machine.placed(SPENT..SPENT + 1)
    }

    fn charge(&mut self) -> Option<Event> {
        let left = self.machine.left();
        if !self.profile.depletes {
            // A little, and never the last unit.
            let most = left.saturating_sub(1).min(3) as usize;
            return if most > 0 { Some(Charge(self.random.range(1, most) as u16)) } else { None };
        }
        Some(Charge(if self.random.percent(40) { left } else { self.random.range(1, left as usize) as u16 }))
    }

    fn refill(&mut self) -> Option<Event> {
        let spent = self.spent();
        self.random.pick(&spent).map(Refill)
    }

    /// A thread to remove: first what it is to the others is drawn, so that none of these is rare.
    fn remove(&mut self) -> Option<Event> {
        let what = self.random.below(9);
        let m = &self.machine;
        let wanted = |n: &u8| {
            let linked = m.threads[*n as usize].hold >= Hold::Calling;
            let called = m.threads.iter().any(|t| t.hold >= Hold::Calling && t.to == *n);
            let own = m.owned(*n);
            match what {
                0 => *n == m.running,
                1 => own.is_some_and(|(number, _)| number == m.current),
                2 => m.threads[*n as usize].hold == Hold::Blocked,
                3 => linked,
                4 => called,
                5 => linked && called,
                6 => own.is_some_and(|(_, place)| place == STALLED),
                7 => own.is_some_and(|(_, place)| place == SPENT),
                _ => true,
            }
        };
        let from: Vec<u8> = self.threads(|_| true).into_iter().filter(wanted).collect();
        self.random.pick(&from).map(Remove)
    }

    /// A timeslice in one of the places: first the place is drawn, so that none of them is rare.
    fn placed(&mut self, places: &[Place]) -> Option<u8> {
        let place = self.random.pick(places)?;
        // ON and BEHIND begin a place for each of 128 numbers.
        let many = if place < ON { 1 } else { 128 };
        let there = self.machine.placed(place..place + many);
        self.random.pick(&there)
    }

    /// A timeslice with followers.
    fn leader(&mut self) -> Option<u8> {
        let leaders: Vec<u8> = (0..128u8).filter(|n| self.machine.size[BEHIND as usize + *n as usize] > 0).collect();
        self.random.pick(&leaders)
    }

    /// The timeslices in Queue or Behind another for which a choice would make a retry; or those that it would put aside.
    fn unseen(&self, retry: bool) -> Vec<u8> {
        let m = &self.machine;
        let mut unseen = Vec::new();
        for thread in self.threads(|_| true) {
            let Some((number, QUEUE | BEHIND..)) = m.owned(thread) else { continue };
            let w = m.walk(thread as usize);
            let end = if w.links < m.live { Some(m.threads[w.end].hold) } else { None };
            let retries = w.links > 0 && end == Some(Hold::Idle);
            if end != Some(Hold::Ready) && retries == retry {
                unseen.push(number);
            }
        }
        unseen
    }

    /// A timeslice to rank: first how it stands is drawn, so that none of these is rare. The priority is one that others have too, so
    /// that it goes to the back among equals; or its own again; or the current one's, or the next above that; or any.
    fn rank(&mut self) -> Option<Event> {
        let current = self.machine.current;
        let number = match self.random.below(10) {
            0 if current != NONE => current,
            1 => self.leader()?,
            2..=3 => self.placed(&[BEHIND])?,
            4..=5 => self.random.pick(&self.unseen(true))?,
            6 => self.random.pick(&self.unseen(false))?,
            _ => self.placed(&[QUEUE, ON, STALLED, SPENT])?,
        };
        let priority = |number| self.machine.rated(number).map_or(0, |(priority, _)| priority);
        let (own, highest) = (priority(number), priority(current));
        let priority = match self.random.below(10) {
            0..=3 => self.random.pick(&self.profile.priorities)?,
            4..=5 => own,
            6 => highest,
            7..=8 => highest.saturating_add(1),
            _ => self.random.below(256) as u8,
        };
        Some(Rank(number, priority))
    }

    /// An event that is accepted now, if the dice find one.
    fn sensible(&mut self) -> Option<Event> {
        let m = &self.machine;
        let (removes, ranks) = (self.profile.weights[7], self.profile.weights[8]);
        // Where threads are removed others come, with the freed numbers: the machine stays full.
        let often = 4 + 2 * removes;
        if m.live < self.profile.threads as u32 && self.random.percent(often) {
            let t = self.free_thread()?;
            return Some(Create(t, self.role()));
        }
        if m.slices < self.profile.slices && self.random.percent(often) {
            return self.give();
        }
        let running = m.running;
        let blocked = self.threads(|t| t.hold == Hold::Blocked);
        let linked = self.threads(|t| t.hold >= Hold::Calling);
        let (spent, slices) = (self.spent().len(), m.slices.max(1));
        if running == NONE {
            // Nothing runs: only wake, abort, refill, remove, or give and perhaps create before it, can change that.
            // If all are Spent, a wake or an abort is of no use.
            if self.random.below(slices) < spent && self.random.percent(80) {
                return self.refill();
            }
            if removes > 0 && self.random.percent(3 * removes) {
                return self.remove();
            }
            if ranks > 0 && self.random.percent(ranks) {
                return self.rank();
            }
            return match self.random.below(10) {
                0..=5 if !blocked.is_empty() => self.random.pick(&blocked).map(Wake),
                0..=8 if !linked.is_empty() => self.random.pick(&linked).map(Abort),
                _ if !blocked.is_empty() => self.random.pick(&blocked).map(Wake),
                _ => self.give().or_else(|| self.free_thread().map(|t| Create(t, CLIENT))),
            };
        }
        let mut weights = self.profile.weights;
        // Many blocked threads: more wakes, so that the list does not die down.
        weights[3] += weights[3] * blocked.len() * 6 / self.machine.live as usize;
        // Many Spent timeslices: more refills.
        weights[6] += weights[6] * spent * 6 / slices;
        // A timeslice waits with a retry: more ranks, which may let it come first.
        if ranks > 0 && !self.unseen(true).is_empty() {
            weights[8] *= 4;
        }
        let mut dice = self.random.below(weights.iter().sum());
        let mut what = 0;
        while dice >= weights[what] {
            dice -= weights[what];
            what += 1;
        }
        match what {
            0 => {
                let idle = self.threads(|t| t.role == SERVER && t.hold == Hold::Idle);
                let any = self.threads(|t| t.role == SERVER);
                let from = if self.random.percent(50) { idle } else { any };
                let upward = self.random.percent(self.profile.upward);
                let from: Vec<u8> = from.into_iter().filter(|n| if upward { *n > running } else { *n != running }).collect();
                self.random.pick(&from).map(Call)
            }
            1 if self.machine.threads[running as usize].role == SERVER => Some(Reply),
            2 => Some(Block),
            3 => self.random.pick(&blocked).map(Wake),
            4 => self.charge(),
            5 => self.random.pick(&linked).map(Abort),
            6 => self.refill(),
            7 => self.remove(),
            8 => self.rank(),
            _ => None,
        }
    }

    /// An event that meets one refusal's condition, often several at once.
    fn wrong(&mut self) -> Option<Event> {
        let high = self.random.pick(&[128, 129, 200, 254, 255])?;
        let any = self.random.below(128) as u8;
        let some = self.random.pick(&self.threads(|_| true)).unwrap_or(any);
        let free = self.free_thread().unwrap_or(high);
        let runs = self.machine.running;
        let used: Vec<u8> = (0..128u8).filter(|n| self.machine.slice_used[*n as usize]).collect();
        let owners: Vec<u8> = (0..128u8).filter(|n| self.machine.owns[*n as usize]).collect();
        let priority = self.random.pick(&self.profile.priorities)?;
        Some(match self.random.below(20) {
            2 => match self.random.below(9) {
                0 => Create(high, self.role()),
                1 => Give(high, some, priority, 5),
                2 => Give(self.free_slice().unwrap_or(any), high, priority, self.random.below(2) as u16),
                3 => Call(high),
                4 => Wake(high),
                5 => Abort(high),
                6 => Refill(high),
                7 => Remove(high),
                _ => Rank(high, priority),
            },
            3 if self.random.percent(50) => Create(some, self.role()),
            3 => Give(self.random.pick(&used)?, self.random.pick(&[some, free, high])?, priority, self.random.below(2) as u16),
            4 => match self.random.below(7) {
                0 => Give(self.free_slice()?, free, priority, self.random.below(2) as u16),
                1 => Call(free),
                2 => Wake(free),
                3 => Abort(free),
                4 => Refill(self.free_slice()?),
                5 => Remove(free),
                _ => Rank(self.free_slice()?, priority),
            },
            5 if runs == NONE => match self.random.below(4) {
                0 => Call(self.random.pick(&[some, free, high])?),
                1 => Reply,
                2 => Block,
                _ => Charge(self.random.below(3) as u16),
            },
            6 => Call(self.random.pick(&self.threads(|t| t.role == CLIENT))?),
            7 if runs != NONE => Call(runs),
            8 => Reply,
            9 => Wake(some),
            10 => Abort(some),
            11 => Charge(if self.random.percent(50) { 0 } else { self.machine.left().saturating_add(self.random.range(1, 3) as u16) }),
            12 => Give(self.free_slice()?, some, priority, 0),
            13 => Give(self.free_slice()?, self.random.pick(&owners)?, priority, self.random.below(3) as u16),
            14 => Wake(any),
            15 => Abort(any),
            16 => Refill(any),
            17 => Remove(any),
            18 => Refill(self.placed(&[QUEUE, STALLED, ON, BEHIND])?),
            19 => Rank(any, priority),
            _ => Call(any),
        })
    }

    fn step(&mut self) {
        let wrong = self.random.percent(self.profile.wrong);
        for _ in 0..8 {
            let e = if wrong { self.wrong() } else { self.sensible() };
            if let Some(e) = e {
                return self.add(e);
            }
        }
        // The dice found nothing: a refusal is an event too.
        self.add(Charge(0));
    }

    /// Adds events until the file has exactly 65,536 bytes. A file one byte short cannot be mended,
    /// so the last bytes are filled by records of two and three bytes.
    fn fill(&mut self, mut step: impl FnMut(&mut List)) {
        while self.bytes.len() + 40 < LIMIT {
            step(self);
        }
        while self.bytes.len() < LIMIT {
            let room = LIMIT - self.bytes.len();
            let last = match (room % 2, self.random.below(2)) {
                (1, _) => Wake(self.random.below(6) as u8),
                (_, 0) => Block,
                _ => Reply,
            };
            self.add(last);
        }
    }
}

fn priorities(random: &mut Random) -> Vec<u8> {
    let many = random.range(1, 4);
    (0..many).map(|_| random.pick(&[0, 1, 10, 10, 20, 127, 128, 254, 255]).unwrap()).collect()
}

fn lively(seed: u64) -> List {
    let mut r = Random(seed ^ 0x6C69_7665);
    let threads = match r.below(10) {
        0..=5 => r.range(3, 8),
        6..=7 => r.range(9, 24),
        8 => r.range(25, 127),
        _ => 128,
    };
    let profile = Profile {
        threads,
        servers: r.range(30, 80),
        slices: r.range(1, threads),
        priorities: priorities(&mut r),
        quantum: r.pick(&[1, 2, 5, 100, 1000, 65_535]).unwrap(),
        depletes: true,
        wrong: r.pick(&[0, 5, 10, 30]).unwrap(),
        upward: r.pick(&[0, 50, 90, 100]).unwrap(),
        weights: [
            r.range(10, 40),
            r.range(5, 30),
            r.range(2, 20),
            r.range(2, 20),
            r.range(2, 20),
            r.range(1, 15),
            r.range(2, 20),
            r.pick(&[0, 1, 3, 6]).unwrap(),
            r.pick(&[0, 2, 6, 12]).unwrap(),
        ],
    };
    let steps = match r.below(4) {
        0 => r.range(10, 60),
        1..=2 => r.range(60, 300),
        _ => r.range(300, 700),
    };
    let first = r.range(2, threads);
    let mut list = List::new(seed, profile);
    for _ in 0..first {
        let role = list.role();
        if let Some(t) = list.free_thread() {
            list.add(Create(t, role));
        }
        if list.machine.slices < list.profile.slices && list.random.percent(60) {
            if let Some(e) = list.give() {
                list.add(e);
            }
        }
    }
    for _ in 0..steps {
        list.step();
    }
    list
}

/// Chains grow by calls from their end; then they are bent, cut, blocked, closed and unwound.
fn chain(seed: u64) -> List {
    let mut r = Random(seed ^ 0x6368_6169);
    let servers = match r.below(3) {
        0 => r.range(3, 12),
        1 => r.range(13, 60),
        _ => r.range(100, 127),
    };
    let clients = r.range(1, (128 - servers).min(5));
    let profile = Profile {
        threads: servers + clients,
        // Of those that come for removed ones; a client among them can begin a chain.
        servers: 80,
        slices: servers + clients,
        priorities: priorities(&mut r),
        quantum: 4,
        depletes: true,
        wrong: 3,
        upward: 90,
        weights: [60, 8, 3, 6, 6, 5, 5, 2, 3],
    };
    let mut list = List::new(seed, profile);
    for t in 0..clients {
        list.add(Create(t as u8, CLIENT));
    }
    for t in clients..clients + servers {
        list.add(Create(t as u8, SERVER));
    }
    for t in 0..clients {
        let p = list.random.pick(&list.profile.priorities).unwrap();
        let q = list.random.range(1, 4) as u16;
        list.add(Give(t as u8, t as u8, p, q));
    }
    let rounds = r.range(3, 10);
    for _ in 0..rounds {
        // Nobody can call while nothing runs.
        if list.machine.running == NONE {
            if let Some(e) = list.refill() {
                list.add(e)
            }
        }
        // Grow: whoever runs calls a server, mostly an idle one.
        let grow = r.range(1, servers);
        for _ in 0..grow {
            let idle = list.threads(|t| t.role == SERVER && t.hold == Hold::Idle);
            let any = list.threads(|t| t.role == SERVER);
            let server = if r.percent(96) { r.pick(&idle) } else { r.pick(&any) };
            match server {
                Some(s) if list.machine.running != NONE => list.add(Call(s)),
                _ => break,
            }
        }
        for _ in 0..r.range(1, 12) {
            let linked = list.threads(|t| t.hold >= Hold::Calling);
            let blocked = list.threads(|t| t.hold == Hold::Blocked);
            match r.below(12) {
                0 => list.add(Block),
                1..=2 => {
                    if let Some(t) = r.pick(&blocked) {
                        list.add(Wake(t))
                    }
                }
                3..=4 => {
                    if let Some(t) = r.pick(&linked) {
                        list.add(Abort(t))
                    }
                }
                5 => {
                    for _ in 0..r.range(1, 6) {
                        list.add(Reply)
                    }
                }
                6 if list.machine.running != NONE => {
                    if let Some(e) = list.charge() {
                        list.add(e)
                    }
                }
                7 => {
                    if let Some(e) = list.give() {
                        list.add(e)
                    }
                }
                8 => {
                    if let Some(e) = list.refill() {
                        list.add(e)
                    }
                }
                9 => {
                    if let Some(e) = list.remove() {
                        list.add(e)
                    }
                }
                10 => {
                    if let Some(e) = list.rank() {
                        list.add(e)
                    }
                }
                _ => list.step(),
            }
        }
    }
    list
}

/// Which fault is taken by turns, so that 30 files have them all.
fn damaged(seed: u64, index: usize) -> Vec<u8> {
    let mut r = Random(seed ^ 0x6461_6D61);
    let mut f = lively(seed).file();
    f.truncate(f.len().min(LIMIT - 8));
    let set_length = |f: &mut Vec<u8>| {
        let n = (f.len() as u32).wrapping_sub(4);
        f[..4].copy_from_slice(&n.to_be_bytes());
    };
    // Where the records begin.
    let mut starts = Vec::new();
    let mut at = 5;
    while at < f.len() {
        starts.push(at);
        at += 1 + f[at] as usize;
    }
    let start = r.pick(&starts).unwrap();
    match index % 30 {
        0 => f.clear(),
        1 => f.truncate(r.range(1, 3)),
        2 => f = vec![0, 0, 0, 0],
        3 => f = vec![0, 0, 0, 1],
        4 => f = vec![0, 0, 0, 1, 1],
        5 => f = vec![0, 0, 0, 1, r.pick(&[0, 2, 255]).unwrap()],
        6 => f = vec![0, 0, 0, 0, 1],
        7 => f = vec![0, 0, 0, 2, 1, r.range(0, 255) as u8],
        8 => {
            let n = r.range(4, f.len() - 1);
            f.truncate(n)
        }
        9 => {
            let n = r.range(5, f.len() - 1);
            f.truncate(n);
            set_length(&mut f)
        }
        10 => f.push(r.next() as u8),
        11 => {
            for _ in 0..r.range(1, 5) {
                f.push(r.next() as u8);
            }
            set_length(&mut f)
        }
        12 => f[r.below(4)] ^= 1 << r.below(8),
        13 => f[..4].copy_from_slice(&[255; 4]),
        14 => f[4] = r.pick(&[0, 2, 3, 128, 255]).unwrap(),
        15 => f[start + 1] = r.pick(&[0, 12, 13, 129, 255]).unwrap(),
        16 => f[start] = f[start].wrapping_add(r.pick(&[1, 255, 128]).unwrap()),
        17 => f[start] = 0,
        18 => {
            let creates: Vec<usize> = starts.iter().copied().filter(|s| f[*s + 1] == 1).collect();
            if let Some(s) = r.pick(&creates) {
                f[s + 3] = r.pick(&[2, 3, 128, 255]).unwrap()
            }
        }
        19 => {
            // Two faults: the version comes before the records, the length before both.
            f[4] = 0;
            f[start + 1] = 0;
            if r.percent(50) {
                f.push(0)
            }
        }
        // The kind of refill, remove or rank, by turns, with the operands of another: good where that has as many bytes.
        20 => f[start + 1] = [9, 10, 11][index / 30 % 3],
        21 => {
            // One of these put before a record, by turns with more or fewer operands than it has; the last is good.
            let (kind, operands) = [(11, 1), (11, 3), (10, 2), (9, 2), (11, 0), (11, 4), (11, 2)][index / 30 % 7];
            let mut whole = vec![operands + 1, kind];
            whole.extend((0..operands).map(|_| r.below(128) as u8));
            f.splice(start..start, whole);
            set_length(&mut f)
        }
        22 => {
            for _ in 0..r.range(1, 4) {
                let i = r.below(f.len());
                f[i] ^= 1 << r.below(8);
            }
        }
        23 => {
            // A good record begins, its kind by turns, but the file ends within its operands.
            let kinds = [Rank(1, 1), Give(1, 1, 1, 1), Create(1, 1), Charge(1), Remove(1), Refill(1), Call(1), Wake(1), Abort(1)];
            let whole = record(kinds[index / 30 % 9]);
            f.extend(&whole[..r.range(2, whole.len() - 1)]);
            set_length(&mut f)
        }
        24 | 25 | 26 => {
            // One byte too many, exactly as many as allowed, many too many; else without fault.
            let size = [LIMIT + 1, LIMIT, LIMIT + r.range(2, 9000)][index % 3];
            while f.len() < size {
                let room = size - f.len();
                f.extend(record(if room % 2 == 1 { Wake(r.next() as u8) } else { Reply }));
            }
            set_length(&mut f)
        }
        27 => {
            // An operand above 127 is no fault of the file.
            for s in &starts {
                if (f[*s] == 2 || f[*s + 1] == 11) && r.percent(20) {
                    f[*s + 2] |= 128;
                }
            }
        }
        28 => {
            // A record taken out or doubled: a good file again, another list.
            let n = 1 + f[start] as usize;
            if r.percent(50) {
                f.drain(start..start + n);
            } else {
                let again: Vec<u8> = f[start..start + n].to_vec();
                f.splice(start..start, again);
            }
            set_length(&mut f)
        }
        _ => {
            // Only random bytes after a good head.
            let n = r.range(0, 40);
            f.truncate(5);
            for _ in 0..n {
                f.push(r.below(12) as u8);
            }
            set_length(&mut f)
        }
    }
    f
}

/// Calls go upward alone: one loop would soon hold most threads, and the file would measure little
/// but its walks. `lively` has loops with as many threads.
fn full(seed: u64, depletes: bool) -> List {
    let profile = Profile {
        threads: 128,
        servers: 50,
        slices: 128,
        priorities: vec![5, 10, 10, 20, 200],
        quantum: if depletes { 50 } else { 65_535 },
        depletes,
        wrong: 0,
        upward: 100,
        weights: [30, 22, 4, 8, 12, 3, 6, 0, 0],
    };
    let mut list = List::new(seed, profile);
    for t in 0..128u8 {
        list.add(Create(t, if t % 2 == 0 { CLIENT } else { SERVER }));
    }
    for _ in 0..128 {
        let e = list.give().unwrap();
        list.add(e);
    }
    list.fill(List::step);
    list
}

fn small(seed: u64, depletes: bool) -> List {
    let profile = Profile {
        threads: 6,
        servers: 50,
        slices: 4,
        priorities: vec![10, 10, 20],
        quantum: if depletes { 50 } else { 65_535 },
        depletes,
        wrong: 0,
        upward: 99,
        weights: [30, 22, 4, 8, 12, 3, 6, 0, 0],
    };
    let mut list = List::new(seed, profile);
    for t in 0..6u8 {
        list.add(Create(t, if t < 3 { CLIENT } else { SERVER }));
    }
    for t in 0..4u8 {
        let p = list.random.pick(&list.profile.priorities).unwrap();
        list.add(Give(t, t, p, list.profile.quantum as u16));
    }
    list.fill(List::step);
    list
}

/// Client 0 calls 1, which calls 2, and so on to N. Then, over and over: 0 is aborted (a walk of N
/// links) and calls 1 again, now as a helper (a choice over N links); or the timeslice is depleted and
/// refilled (a choice over N links); or the last server blocks and wakes.
fn chain_of(seed: u64, links: u8, depletes: bool) -> List {
    let profile = Profile {
        threads: links as usize + 1,
        servers: 100,
        slices: 1,
        priorities: vec![10],
        quantum: if depletes { 100 } else { 65_535 },
        depletes,
        wrong: 0,
        upward: 0,
        weights: [0; 9],
    };
    let mut list = List::new(seed, profile);
    list.add(Create(0, CLIENT));
    for t in 1..=links {
        list.add(Create(t, SERVER));
    }
    list.add(Give(0, 0, 10, list.profile.quantum as u16));
    for t in 1..=links {
        list.add(Call(t));
    }
    list.fill(|list| match list.random.below(10) {
        0..=7 => {
            list.add(Abort(0));
            list.add(Call(1));
        }
        8 if depletes => {
            list.add(Charge(100));
            list.add(Refill(0));
        }
        8 => list.add(Charge(1)),
        _ => {
            list.add(Block);
            list.add(Wake(links));
        }
    });
    list
}

/// A full bridge of clients.
fn clients(seed: u64) -> List {
    let profile = Profile {
        threads: 128,
        servers: 0,
        slices: 128,
        priorities: (0..=255).collect(),
        quantum: 5,
        depletes: true,
        wrong: 0,
        upward: 0,
        weights: [0; 9],
    };
    let mut list = List::new(seed, profile);
    for t in 0..128u8 {
        list.add(Create(t, CLIENT));
    }
    for t in 0..128u8 {
        let p = list.random.pick(&list.profile.priorities).unwrap();
        list.add(Give(t, t, p, list.profile.quantum as u16));
    }
    list
}

fn ranks(seed: u64) -> List {
    let mut list = clients(seed);
    list.fill(|list| {
        let t = list.random.below(128) as u8;
        let p = list.random.below(256) as u8;
        list.add(Rank(t, p));
    });
    list
}

/// Up to eight timeslices are without time.
fn refills(seed: u64) -> List {
    let mut list = clients(seed);
    list.fill(|list| {
        let spent = list.spent();
        if spent.len() < 8 {
            list.add(Charge(5));
        } else {
            let t = list.random.pick(&spent).unwrap();
            list.add(Refill(t));
        }
    });
    list
}

fn measured(seed: u64, kind: &str) -> Option<List> {
    let (name, depletes) = match kind.strip_suffix("-undepleted") {
        Some(name) => (name, false),
        None => (kind, true),
    };
    match name {
        "full" => Some(full(seed, depletes)),
        "small" => Some(small(seed, depletes)),
        "ranks" => Some(ranks(seed)),
        "refills" => Some(refills(seed)),
        _ => match name.strip_prefix("chain")?.parse().ok()? {
            links @ 1..=127 => Some(chain_of(seed, links, depletes)),
            _ => None,
        },
    }
}

fn main() -> std::io::Result<()> {
    let a: Vec<String> = std::env::args().collect();
    if a.len() != 5 {
        eprintln!("make SEED COUNT FOLDER KIND");
        std::process::exit(2);
    }
    let seed: u64 = a[1].parse().expect("a seed");
    let count: usize = a[2].parse().expect("a count");
    let kind = a[4].as_str();
    std::fs::create_dir_all(&a[3])?;
    for i in 0..count {
        let own = Random(seed.wrapping_mul(0x1_0000_0001).wrapping_add(i as u64)).next();
        let file = match kind {
            "lively" => lively(own).file(),
            "chain" => chain(own).file(),
            "damaged" => damaged(own, i),
            _ => measured(own, kind).expect("a kind").file(),
        };
        std::fs::write(format!("{}/{kind}-{i:05}", a[3]), file)?;
    }
    Ok(())
}
