//! The program `ranking` of request [10]: the survey office's table, which turns a message interval into a priority. Slow and plain: for
//! each interval from 1 to 60,000 the rows that hold it are counted; for the answer no row is compared with another. The readings that were
//! given: a table with no row at all is a gap, 25 with interval 1; more than 64 rows are 23, whatever the rows are.
//!
//! An input is a number of rows in one byte, the rows (first and last in two bytes each, priority in one), and behind them intervals of two
//! bytes each, all big-endian. An answer has a line for each interval: refusal number, or 0, priority, interval handed back. An input that
//! is empty, larger than 65,536 bytes, cut short in its rows or ends with half an interval has the line `file 14` instead.
//! `ranking` reads an input from standard input and prints the answer.
//! `ranking -o FOLDER INPUT...` writes the answer for each input to FOLDER, under the input's own name.
//! `ranking -n SEED COUNT FOLDER` makes inputs. The same arguments give the same inputs.
//! `ranking -c INPUTS ANSWERS`: two folders. Says in how many inputs each case of `file_cases`, `table_cases` and `lookup_cases` occurs.
//! What never occurs gets a sentence; then the exit status is 1.

use std::fmt::Write as _;
use std::io::{Read, Write};
use std::path::Path;

/// "1 to 60,000 milliseconds"
const MOST: u16 = 60_000;

#[derive(Clone, Copy, PartialEq, Debug)]
struct Row {
    first: u16,
    last: u16,
    priority: u8,
}

impl Row {
    /// "First and last inclusive."
    fn holds(&self, interval: u16) -> bool {
        self.first <= interval && interval <= self.last
    }

    /// "A row outside the range or with first above last."
    fn bad(&self) -> bool {
        self.first < 1 || self.first > MOST || self.last < 1 || self.last > MOST || self.first > self.last
    }
}

fn two(bytes: &[u8]) -> u16 {
    bytes[0] as u16 * 256 + bytes[1] as u16
}

fn rows_of(bytes: &[u8]) -> Vec<Row> {
    bytes.chunks(5).map(|row| Row { first: two(&row[..2]), last: two(&row[2..4]), priority: row[4] }).collect()
}

/// The rows and the intervals; none where the input is refused with 14.
fn read(input: &[u8]) -> Option<(Vec<Row>, Vec<u16>)> {
    if input.len() > 65_536 {
        return None;
    }
    let (many, rest) = input.split_first()?;
    let rows = rest.get(..5 * *many as usize)?;
    let intervals = &rest[rows.len()..];
    if intervals.len() % 2 == 1 {
        return None;
    }
    Some((rows_of(rows), intervals.chunks(2).map(two).collect()))
}

/// How many rows hold each interval, from 1 to 60,000: each row is asked about each interval. (It is several times faster than asking about
/// each interval the rows.)
fn held(rows: &[Row]) -> Vec<(u16, u16)> {
    let mut held: Vec<(u16, u16)> = (1..MOST + 1).map(|interval| (interval, 0)).collect();
    for row in rows {
        for (interval, many) in held.iter_mut() {
            *many += row.holds(*interval) as u16;
        }
    }
    held
}

/// The number and the interval of a bad table. "23, a row outside the range or with first above last, or more than 64 rows; 24, overlap;
/// 25, gap; in that order." "The smallest interval missing"; "the smallest interval in two rows or more"; with 23 it is 0.
fn judge(rows: &[Row]) -> Option<(u8, u16)> {
    if rows.len() > 64 || rows.iter().any(Row::bad) {
        return Some((23, 0));
    }
    let held = held(rows);
    if let Some((interval, _)) = held.iter().find(|(_, many)| *many >= 2) {
        return Some((24, *interval));
    }
    if let Some((interval, _)) = held.iter().find(|(_, many)| *many == 0) {
        return Some((25, *interval));
    }
    None
}

/// "A lookup first refuses a bad table with that table's number, then an interval outside 1 to 60,000 with 23."
/// "A refused lookup hands back priority 0."
fn lookup(rows: &[Row], judged: Option<(u8, u16)>, interval: u16) -> (u8, u8, u16) {
    if let Some((number, smallest)) = judged {
        return (number, 0, smallest);
    }
    if interval < 1 || interval > MOST {
        return (23, 0, 0);
    }
    let holding: Vec<&Row> = rows.iter().filter(|row| row.holds(interval)).collect();
    assert_eq!(holding.len(), 1, "in a good table every interval is in exactly one row");
    (0, holding[0].priority, 0)
}

fn answer(input: &[u8]) -> String {
    let Some((rows, intervals)) = read(input) else { return "file 14\n".to_string() };
    let judged = judge(&rows);
    let mut text = String::new();
    for interval in intervals {
        let (refusal, priority, interval) = lookup(&rows, judged, interval);
        writeln!(text, "{refusal} {priority} {interval}").unwrap();
    }
    text
}

/// splitmix64
struct Random(u64);

impl Random {
    fn next(&mut self) -> u64 {
        self.0 = self.0.wrapping_add(0x9E37_79B9_7F4A_7C15);
        let mut z = self.0;
        z = (z ^ (z >> 30)).wrapping_mul(0xBF58_476D_1CE4_E5B9);
        z = (z ^ (z >> 27)).wrapping_mul(0x94D0_49BB_1331_11EB);
        z ^ (z >> 31)
    }

    /// 0 to n - 1
    fn below(&mut self, n: usize) -> usize {
        (self.next() >> 11) as usize % n
    }

    /// a to b
    fn range(&mut self, a: usize, b: usize) -> usize {
        a + self.below(b - a + 1)
    }

    fn percent(&mut self, p: usize) -> bool {
        self.below(100) < p
    }

    fn pick<T: Copy>(&mut self, from: &[T]) -> T {
        from[self.below(from.len())]
    }

    fn shuffle<T>(&mut self, all: &mut [T]) {
        for i in (1..all.len()).rev() {
            all.swap(i, self.below(i + 1));
        }
    }
}

fn row(first: usize, last: usize, priority: u8) -> Row {
    Row { first: first as u16, last: last as u16, priority }
}

/// A good table in rising order: 1 to 60,000 in so many rows, cut evenly, into rows of one or two intervals, or anywhere.
fn cut(r: &mut Random, many: usize) -> Vec<Row> {
    let how = r.below(8);
    cut_so(r, many, how)
}

fn cut_so(r: &mut Random, many: usize, how: usize) -> Vec<Row> {
    let last = MOST as usize;
    // Whether a row ends at each interval. (Plain lists, here and below: the compiler's time is a good part of the test's.)
    let mut ends = vec![false; last + 1];
    let mut missing = many - 1;
    for k in 1..many {
        match how {
            0 => ends[k * last / many] = true,
            1 => ends[k + last / 3] = true,
            2 => ends[k] = true,
            3 => ends[last - k] = true,
            // Rows of two.
            4 => ends[2 * k + last / 4] = true,
            _ => continue,
        }
        missing -= 1;
    }
    while missing > 0 {
        let end = r.range(1, last - 2);
        // In pairs, or not.
        for end in if how == 5 && missing > 1 { [end, end + 1] } else { [end, end] } {
            if !ends[end] {
                ends[end] = true;
                missing -= 1;
            }
        }
    }
    ends[last] = true;
    let mut rows: Vec<Row> = Vec::new();
    for end in (1..=last).filter(|end| ends[*end]) {
        rows.push(row(rows.last().map_or(0, |row| row.last as usize) + 1, end, 0));
    }
    paint(r, &mut rows);
    rows
}

/// Priorities. Neighbours mostly have different ones.
fn paint(r: &mut Random, rows: &mut [Row]) {
    let how = r.below(10);
    for (at, row) in rows.iter_mut().enumerate() {
        row.priority = match how {
            0 => 0,
            1 => 255,
            2 => r.pick(&[0, 255]),
            3 => at as u8 % 2 + 1,
            4 => r.pick(&[0, 1, 127, 128, 254, 255]),
            5 => at as u8,
            _ => r.below(256) as u8,
        };
    }
}

fn order(r: &mut Random, rows: &mut [Row]) {
    match r.below(8) {
        0 => (),
        1 => rows.reverse(),
        2 => rows.rotate_left(r.below(rows.len().max(1)).min(rows.len())),
        _ => r.shuffle(rows),
    }
}

/// A good table with the least rows, the most, or some number between, by turns.
fn good(r: &mut Random, turn: usize, least: usize, most: usize) -> Vec<Row> {
    let many = match turn % 4 {
        0 => most,
        1 => least,
        2 => r.range(least, most.min(least + 7)),
        _ => r.range(least, most),
    };
    cut(r, many)
}

/// A border of a table in rising order, by the row before it; both ends of the table are common.
fn border(r: &mut Random, rows: &[Row]) -> usize {
    let last = rows.len() - 2;
    match r.below(4) {
        0 => 0,
        1 => last,
        _ => r.below(last + 1),
    }
}

/// Two borders, with a whole row or more between them.
fn borders(r: &mut Random, rows: &[Row]) -> (usize, usize) {
    let low = r.below(rows.len() - 3);
    (low, r.range(low + 2, rows.len() - 2))
}

/// The two rows at a border overlap.
fn widen(r: &mut Random, rows: &mut [Row], at: usize, by: usize) {
    if r.percent(50) {
        rows[at].last = (rows[at].last as usize + by).min(MOST as usize) as u16;
    } else {
        rows[at + 1].first = (rows[at + 1].first as usize).saturating_sub(by).max(1) as u16;
    }
}

/// A gap at a border; where both rows are too short for it one of them goes.
fn narrow(r: &mut Random, rows: &mut Vec<Row>, at: usize, by: usize) {
    let long = |row: &Row| (row.last - row.first) as usize >= by;
    if long(&rows[at]) && (r.percent(50) || !long(&rows[at + 1])) {
        rows[at].last -= by as u16;
    } else if long(&rows[at + 1]) {
        rows[at + 1].first += by as u16;
    } else {
        rows.remove(at);
    }
}

/// A row is added at the front, at the end, or somewhere, by turns.
fn add(r: &mut Random, rows: &mut Vec<Row>, turn: usize, row: Row) {
    let at = match turn % 3 {
        0 => rows.len(),
        1 => 0,
        _ => r.below(rows.len() + 1),
    };
    rows.insert(at, row);
}

/// Rows outside the range, or with first above last, or both.
const BAD: [(usize, usize); 16] = [
    (2, 1), (0, 0), (60_000, 1), (1, 0), (60_001, 60_001), (60_001, 60_000), (0, 60_000), (1, 60_001), (60_000, 59_999),
    (60_000, 60_001), (65_535, 65_535), (0, 65_535), (65_535, 0), (60_001, 65_535), (1, 65_535), (0, 60_001),
];

fn bad_row(r: &mut Random) -> Row {
    if r.percent(50) {
        return turned_row(r);
    }
    let (first, last) = r.pick(&BAD);
    row(first, last, r.below(256) as u8)
}

/// Within the range, with first above last. It holds nothing.
fn turned_row(r: &mut Random) -> Row {
    let last = r.range(1, 59_999);
    let first = if r.percent(50) { last + 1 } else { r.range(last + 1, 60_000) };
    row(first, last, r.below(256) as u8)
}

/// Good tables, and good tables damaged in one way, or two.
const TABLES: [&str; 39] = [
    "good", "good few", "good 64", "good 63", "good 2", "good 1", "twins", "overlap by one", "overlap by more", "touch", "apart",
    "doubled", "nested", "spanning all", "in three", "overlap at 1", "overlap at 60,000", "two overlaps", "overlap and gap", "shifted",
    "gap of one", "gap of more", "gap at 1", "gap at 60,000", "one dropped", "two gaps", "no row", "first 0", "last above 60,000",
    "first above last", "bad row", "another bad row", "two bad rows", "bad and others", "65 good", "65, 64 of them good",
    "more than 65", "random rows", "random borders",
];

fn table(r: &mut Random, kind: &str, turn: usize) -> Vec<Row> {
    let last = MOST as usize;
    let priority = r.below(256) as u8;
    // Only for tables with a row to be added.
    let mut added: Vec<Row> = Vec::new();
    let mut rows = match kind {
        "good" => good(r, turn, 1, 64),
        // Every fourth time only the others are out of order.
        "good few" => {
            let mut rows = good(r, turn, 3, 9);
            if turn % 4 == 2 {
                rows[1..].reverse();
                return rows;
            }
            rows
        }
        // In each of the ways.
        "good 64" => cut_so(r, 64, turn % 8),
        // In rising order, in falling order, and others.
        "good 63" => {
            let mut rows = cut(r, 63);
            if turn % 4 == 1 {
                rows.reverse();
            }
            if turn % 4 < 2 {
                return rows;
            }
            rows
        }
        // Both of priority 0, of 255, and others.
        "good 2" => {
            let mut rows = cut(r, 2);
            for row in rows.iter_mut().filter(|_| turn % 4 < 2) {
                row.priority = [0, 255][turn % 4];
            }
            rows
        }
        "good 1" => vec![row(1, last, [0, 1, 127, 128, 254, 255, 10, 100][turn % 8])],
        "overlap by one" => {
            let mut rows = good(r, turn, 2, 64);
            let at = border(r, &rows);
            widen(r, &mut rows, at, 1);
            // Of 64 rows, the last two.
            if turn % 8 == 4 {
                rows.rotate_left((at + 2) % 64);
                return rows;
            }
            rows
        }
        "overlap by more" => {
            let mut rows = good(r, turn, 3, 64);
            if turn % 4 == 2 {
                // Into the next but one.
                rows[0].last = rows[2].first;
                return rows;
            }
            let (at, by) = (border(r, &rows), r.pick(&[2, 3, 256, 1_000, 59_999]));
            widen(r, &mut rows, at, by);
            rows
        }
        "touch" => {
            let at = [1, 2, 255, 256, 32_767, 32_768, 59_999, 60_000][turn % 8];
            vec![row(1, at, priority), row(at, last, 255 - priority)]
        }
        "apart" => {
            let missing = [2, 3, 255, 256, 32_767, 32_768, 59_998, 59_999][turn % 8];
            vec![row(1, missing - 1, priority), row(missing + 1, last, 255 - priority)]
        }
        "doubled" => {
            let rows = good(r, turn, 1, 63);
            let other = rows[r.below(rows.len())];
            added.push(Row { priority: if turn % 2 == 0 { priority } else { other.priority }, ..other });
            rows
        }
        "nested" => {
            let rows = good(r, turn, 1, 63);
            let (first, last) = rows.iter().map(|row| (row.first as usize, row.last as usize)).max_by_key(|row| row.1 - row.0).unwrap();
            let a = r.range(first + 1, last - 1);
            added.push(row(a, r.range(a, last - 1), priority));
            rows
        }
        "spanning all" => {
            let rows = good(r, turn, 1, 63);
            added.push(row(1, last, priority));
            rows
        }
        // The smallest overlap is in three rows; or only a larger one is.
        "in three" => {
            let mut rows = good(r, turn / 2, 4, 61);
            let (low, high) = borders(r, &rows);
            if turn % 2 == 1 {
                widen(r, &mut rows, low, 1);
            }
            let at = rows[high + 1];
            added.extend([Row { priority, ..at }, Row { last: at.first, ..at }]);
            rows
        }
        "overlap at 1" => {
            let rows = good(r, turn, 1, 63);
            added.push(row(1, if turn % 2 == 0 { 1 } else { r.range(1, last) }, priority));
            rows
        }
        // And nowhere else.
        "overlap at 60,000" => {
            let rows = good(r, turn, 1, 63);
            added.push(row(last, last, priority));
            rows
        }
        "two overlaps" => {
            let mut rows = good(r, turn, 4, 64);
            let (low, high) = borders(r, &rows);
            widen(r, &mut rows, low, 1);
            widen(r, &mut rows, high, 1);
            // The larger comes first.
            let mut front: Vec<Row> = rows.drain(high..high + 2).collect();
            order(r, &mut rows);
            front.extend(rows);
            return front;
        }
        "overlap and gap" => {
            let mut rows = good(r, turn / 2, 4, 64);
            let (low, high) = borders(r, &rows);
            let (overlap, gap) = if turn % 2 == 0 { (low, high) } else { (high, low) };
            widen(r, &mut rows, overlap, 1);
            narrow(r, &mut rows, gap, 1);
            rows
        }
        // The rows' lengths have the right sum.
        "shifted" => {
            let mut rows = good(r, turn / 2, 2, 64);
            let at = border(r, &rows);
            if turn % 2 == 0 {
                (rows[at].first, rows[at].last) = (rows[at].first + 1, rows[at].last + 1);
            } else {
                (rows[at + 1].first, rows[at + 1].last) = (rows[at + 1].first - 1, rows[at + 1].last - 1);
            }
            rows
        }
        "gap of one" => {
            let mut rows = good(r, turn, 2, 64);
            let at = border(r, &rows);
            narrow(r, &mut rows, at, 1);
            rows
        }
        "gap of more" => {
            let mut rows = good(r, turn, 2, 64);
            let (at, by) = (border(r, &rows), r.pick(&[2, 10, 100, 300, 500]));
            narrow(r, &mut rows, at, by);
            rows
        }
        "gap at 1" => {
            let mut rows = good(r, turn, 1, 64);
            let length = rows[0].last as usize;
            if length == 1 {
                rows.remove(0);
            } else {
                rows[0].first = if turn % 2 == 0 { 2 } else { r.range(2, length) as u16 };
            }
            rows
        }
        "gap at 60,000" => {
            let mut rows = good(r, turn, 1, 64);
            let end = if turn % 4 == 3 { MOST - 2 } else { MOST - 1 };
            rows.retain(|row| row.first <= end);
            rows.last_mut().unwrap().last = end;
            rows
        }
        // The first, the last, or one between.
        "one dropped" => {
            let mut rows = good(r, turn, 3, 64);
            rows.remove(match turn % 3 {
                0 => 0,
                1 => rows.len() - 1,
                _ => r.range(1, rows.len() - 2),
            });
            rows
        }
        // One of them larger than the other; the larger is the first in row order, or above.
        "two gaps" => {
            let mut rows = good(r, turn, 4, 64);
            if turn % 2 == 0 {
                // Long enough for it.
                let many = rows.len();
                rows = (0..many).map(|k| row(k * last / many + 1, (k + 1) * last / many, priority)).collect();
            }
            let (low, high) = borders(r, &rows);
            let sizes = [(1, 1), (1, 200), (200, 1)][turn % 3];
            narrow(r, &mut rows, high, sizes.1);
            narrow(r, &mut rows, low, sizes.0);
            rows
        }
        "no row" => vec![],
        "first 0" => {
            let mut rows = good(r, turn, 1, 64);
            rows[0].first = 0;
            rows
        }
        "last above 60,000" => {
            let mut rows = good(r, turn / 2, 1, 64);
            rows.last_mut().unwrap().last = [60_001, 65_535][turn % 2];
            rows
        }
        // The longest row is turned round.
        "first above last" => {
            let mut rows = good(r, turn, 1, 64);
            let row = rows.iter_mut().max_by_key(|row| row.last - row.first).unwrap();
            (row.first, row.last) = (row.last, row.first);
            rows
        }
        // The two kinds together have all of `BAD`.
        "bad row" | "another bad row" => {
            let rows = good(r, turn, 1, 63);
            let (first, last) = BAD[(2 * turn + (kind == "another bad row") as usize) % BAD.len()];
            added.push(row(first, last, priority));
            rows
        }
        // Every fourth time there are no others.
        "two bad rows" => {
            added.extend([bad_row(r), bad_row(r)]);
            match turn % 4 {
                2 => vec![bad_row(r)],
                _ => good(r, turn, 1, 62),
            }
        }
        // An overlap, a gap, or both.
        "bad and others" => {
            let mut rows = good(r, turn, 4, 63);
            let (low, high) = borders(r, &rows);
            if turn % 3 != 0 {
                narrow(r, &mut rows, high, 1);
            }
            if turn % 3 != 1 {
                widen(r, &mut rows, low, 1);
            }
            // It does not fill the gap.
            added.push(turned_row(r));
            rows
        }
        "65 good" => cut(r, 65),
        "65, 64 of them good" => {
            let mut rows = cut(r, 64);
            order(r, &mut rows);
            let other = rows[r.below(64)];
            rows.push(match turn % 3 {
                0 => other,
                1 => row(1, last, priority),
                _ => bad_row(r),
            });
            return rows;
        }
        "more than 65" => match turn % 4 {
            0 => cut(r, 255),
            1 => cut(r, [66, 128, 129, 254][turn / 4 % 4]),
            2 => {
                let many = r.range(66, 255);
                let mut rows = cut(r, many);
                let at = border(r, &rows);
                narrow(r, &mut rows, at, 1);
                rows
            }
            _ => (0..r.pick(&[65, 129, 255])).map(|_| any_row(r)).collect(),
        },
        // Of any bytes, or within the range.
        "random rows" if turn % 3 == 0 => (0..r.pick(&[1, 1, 2, 3, 64])).map(|_| any_row(r)).collect(),
        "random rows" => (0..r.range(1, 6))
            .map(|_| {
                let (a, b) = (r.range(1, last), r.range(1, last));
                row(a.min(b), a.max(b), r.below(256) as u8)
            })
            .collect(),
        // Each row's ends may be moved by one; what comes out may be of any sort.
        "random borders" => {
            let mut rows = good(r, turn, 1, 64);
            for row in rows.iter_mut() {
                for end in [&mut row.first, &mut row.last] {
                    if r.percent(5) {
                        *end = if r.percent(50) { *end + 1 } else { *end - 1 };
                    }
                }
            }
            rows
        }
        _ => panic!("there is no {kind}"),
    };
    order(r, &mut rows);
    for (at, row) in added.into_iter().enumerate() {
        add(r, &mut rows, turn + at, row);
    }
    rows
}

fn any_row(r: &mut Random) -> Row {
    row(r.below(65_536), r.below(65_536), r.below(256) as u8)
}

/// The same rows, in one order or two, for three inputs; their priorities differ.
fn twins(r: &mut Random, seed: u64, turn: usize) -> Vec<Row> {
    let mut common = Random(seed.wrapping_add(turn as u64 / 3));
    let many = common.range(3, 20);
    let mut rows = cut(&mut common, many);
    common.shuffle(&mut rows);
    for row in rows.iter_mut() {
        row.priority = r.below(256) as u8;
    }
    if turn % 3 == 2 {
        rows.rotate_left(1);
    }
    rows
}

/// Intervals to be asked, in any order: both ends of the range, each row's ends (or some rows') with their neighbours, others.
fn asked(r: &mut Random, rows: &[Row], of_rows: usize) -> Vec<u16> {
    let mut ends: Vec<u16> = Vec::new();
    for row in rows {
        for end in [row.first, row.last] {
            ends.extend([end.wrapping_sub(1), end, end.wrapping_add(1)]);
        }
    }
    r.shuffle(&mut ends);
    ends.truncate(of_rows);
    ends.extend([0, 1, 2, 59_999, 60_000, 60_001, 65_535]);
    ends.extend((0..8).map(|_| r.range(1, 60_000) as u16));
    ends.extend((0..2).map(|_| r.below(65_536) as u16));
    r.shuffle(&mut ends);
    ends
}

/// So many intervals: all from 0 up, all from 60,010 down, or any, by turns.
fn many_asked(r: &mut Random, turn: usize, many: usize) -> Vec<u16> {
    (0..many)
        .map(|k| match turn % 3 {
            0 => k as u16,
            1 => 60_010_usize.saturating_sub(k) as u16,
            _ => r.below(65_536) as u16,
        })
        .collect()
}

fn bytes_of(rows: &[Row], intervals: &[u16]) -> Vec<u8> {
    let mut bytes = vec![rows.len() as u8];
    for row in rows {
        bytes.extend(row.first.to_be_bytes());
        bytes.extend(row.last.to_be_bytes());
        bytes.push(row.priority);
    }
    for interval in intervals {
        bytes.extend(interval.to_be_bytes());
    }
    bytes
}

/// Inputs that are special as a whole, whatever the table is.
const WHOLES: [&str; 11] = [
    "number alone", "cut", "cut, more than 64", "half", "half alone", "65,536 bytes", "65,537 bytes", "larger", "no interval",
    "one interval", "most intervals",
];

/// A table that is good, or refused with 23, 24 or 25, by turns; with an odd number of rows, or an even one.
fn sort_of_table(r: &mut Random, turn: usize, odd: bool) -> Vec<Row> {
    loop {
        let (kind, any) = (["good", "bad row", "overlap by one", "gap of one"][turn % 4], r.below(100));
        let rows = table(r, kind, any);
        if (rows.len() % 2 == 1) == odd {
            return rows;
        }
    }
}

fn whole(r: &mut Random, kind: &str, turn: usize) -> Vec<u8> {
    // Bytes before the intervals are even in number where that of the rows is odd.
    let (odd, sort) = (r.percent(50), turn + r.below(2));
    match kind {
        // Or nothing at all. 0 alone is a table without rows, and no interval.
        "number alone" => [&[][..], &[1], &[255], &[64], &[65], &[0], &[63], &[128]][turn % 8].to_vec(),
        // At each byte of a row; in the last row, the first, or any.
        "cut" => {
            let mut rows = sort_of_table(r, sort, odd);
            while rows.len() < 3 {
                rows = sort_of_table(r, sort, odd);
            }
            let at = match turn / 5 % 3 {
                0 => rows.len() - 1,
                1 => 0,
                _ => r.below(rows.len()),
            };
            let mut bytes = bytes_of(&rows, &[]);
            bytes.truncate(1 + 5 * at + turn % 5);
            bytes
        }
        "cut, more than 64" => {
            let many = [65, 255, 200][turn % 3];
            let mut bytes = bytes_of(&cut(r, many), &[]);
            let left = r.range(1 + 5 * 64, bytes.len() - 1);
            bytes.truncate(left);
            bytes
        }
        "half" => {
            let rows = sort_of_table(r, turn, odd);
            let mut bytes = bytes_of(&rows, &asked(r, &rows, 5));
            bytes.pop();
            bytes
        }
        "half alone" => {
            let rows = if turn % 3 == 2 { vec![] } else { sort_of_table(r, turn, odd) };
            let mut bytes = bytes_of(&rows, &[]);
            bytes.push(r.below(256) as u8);
            bytes
        }
        // Every other one of 65,535, which is the most for an even number of rows.
        "65,536 bytes" => {
            let rows = sort_of_table(r, turn / 2, turn % 2 == 0);
            let most = (65_536 - 1 - 5 * rows.len()) / 2;
            let intervals = many_asked(r, turn / 2, most);
            bytes_of(&rows, &intervals)
        }
        // With half an interval at the end, every other one: without its last byte it would be taken.
        "65,537 bytes" => {
            let rows = sort_of_table(r, turn / 2, turn % 2 == 0);
            let whole = (65_537 - 1 - 5 * rows.len()) / 2;
            let mut bytes = bytes_of(&rows, &many_asked(r, turn / 2, whole));
            bytes.resize(65_537, 0);
            bytes
        }
        // The last ones by so much that the length, in two bytes, would be that of a good input, or 0.
        "larger" => {
            let rows = cut(r, [1, 3, 64][turn % 3]);
            let whole = [65_538, 70_000, 131_072, 65_536 + 11][turn % 4];
            let mut bytes = bytes_of(&rows, &many_asked(r, turn, 35_000));
            bytes.resize(whole, 0);
            bytes
        }
        "no interval" => match turn % 6 {
            0 => bytes_of(&[], &[]),
            1 => bytes_of(&cut(r, 255), &[]),
            _ => bytes_of(&sort_of_table(r, turn - 2, odd), &[]),
        },
        "one interval" => {
            let rows = sort_of_table(r, turn, odd);
            let intervals = asked(r, &rows, 5);
            // Or some, all refused, with a good table.
            bytes_of(&rows, if turn % 8 == 4 { &[0, 60_001, 65_535, 60_002] } else { &intervals[..1] })
        }
        // The most that there can be, without a row, and with one; then any number.
        _ => {
            let rows = cut(r, 1);
            let rows = if turn % 2 == 0 { &[][..] } else { &rows[..] };
            let most = (65_536 - 1 - 5 * rows.len()) / 2;
            let many = if turn < 2 { most } else { r.range(1, 2_000) };
            bytes_of(rows, &many_asked(r, turn / 2, many))
        }
    }
}

/// The input of that number: each kind in its turn.
fn input(seed: u64, i: usize) -> Vec<u8> {
    let mut r = Random(Random(seed.wrapping_mul(0x1_0000_0001).wrapping_add(i as u64)).next());
    let (at, turn) = (i % (TABLES.len() + WHOLES.len()), i / (TABLES.len() + WHOLES.len()));
    if at >= TABLES.len() {
        return whole(&mut r, WHOLES[at - TABLES.len()], turn);
    }
    let kind = TABLES[at];
    let rows = if kind == "twins" { twins(&mut r, seed, turn) } else { table(&mut r, kind, turn) };
    // All of a bad table's lines are alike.
    let of_rows = if at <= 6 { usize::MAX } else { 20 };
    let intervals = asked(&mut r, &rows, of_rows);
    bytes_of(&rows, &intervals)
}

/// Names of cases, and whether they occur.
#[derive(Default)]
struct Cases(Vec<(String, bool)>);

impl Cases {
    /// Not inlined: it is called some 200 times, and the compiler's time is a good part of the test's.
    #[inline(never)]
    fn add(&mut self, name: &str, occurs: bool) {
        self.0.push((name.to_string(), occurs));
    }
}

/// What an input and its answer are.
struct Case {
    size: usize,
    /// What the first byte says.
    many: usize,
    /// The rows, where they are all there, and the places of the bad ones.
    rows: Vec<Row>,
    bad: Vec<usize>,
    /// How many rows hold each interval.
    held: Vec<(u16, u16)>,
    /// The smallest interval in two rows or more, and the smallest in none.
    overlap: Option<u16>,
    gap: Option<u16>,
    intervals: Vec<u16>,
    /// `file 14`
    refused: bool,
    /// Refusal number, priority and interval.
    lines: Vec<Vec<usize>>,
}

impl Case {
    fn new(input: &[u8], answer: &str) -> Case {
        let many = input.first().map_or(0, |many| *many as usize);
        let rows = input.get(1..1 + 5 * many).map_or(vec![], rows_of);
        let held = held(&rows);
        let smallest = |holds: &dyn Fn(u16) -> bool| held.iter().find(|(_, many)| holds(*many)).map(|(interval, _)| *interval);
        let refused = answer == "file 14\n";
        let lines = answer.lines().filter(|_| !refused);
        Case {
            size: input.len(),
            many,
            bad: (0..rows.len()).filter(|at| rows[*at].bad()).collect(),
            overlap: smallest(&|many| many >= 2),
            gap: smallest(&|many| many == 0),
            intervals: if refused { vec![] } else { read(input).expect("no other is answered").1 },
            refused,
            lines: lines.map(|line| line.split(' ').map(|word| word.parse().expect("a number")).collect()).collect(),
            rows,
            held,
        }
    }

    /// There are lines, and all are this one.
    fn says(&self, number: usize, interval: usize) -> bool {
        !self.lines.is_empty() && self.lines.iter().all(|line| *line == [number, 0, interval])
    }

    /// In how many rows the interval is.
    fn held(&self, interval: u16) -> u16 {
        self.held[interval as usize - 1].1
    }

    /// The number that the table alone would have.
    fn sort(&self) -> usize {
        match (self.rows.len() > 64 || !self.bad.is_empty(), self.overlap, self.gap) {
            (true, _, _) => 23,
            (_, Some(_), _) => 24,
            (_, _, Some(_)) => 25,
            _ => 0,
        }
    }
}

/// What must occur of inputs that are refused as a whole, and of sizes.
fn file_cases(c: &Case) -> Cases {
    let mut cases = Cases::default();
    let mut case = |name: &str, occurs: bool| cases.add(name, occurs);
    let before = 1 + 5 * c.many;
    let cut = c.refused && c.size > 0 && c.size < before;
    case("an empty input gives 14", c.refused && c.size == 0);
    for many in [1, 64, 65, 255] {
        case(&format!("the number {many} and no row gives 14"), cut && c.size == 1 && c.many == many);
    }
    for left in 0..5 {
        case(&format!("an input is cut short where {left} bytes of a row have come"), cut && c.size > 1 && (c.size - 1) % 5 == left);
    }
    let whole_rows = c.size.saturating_sub(1) / 5;
    case("an input is cut short in its first row", cut && c.size > 1 && whole_rows == 0);
    case("an input is cut short in its last row of several", cut && whole_rows > 0 && whole_rows == c.many - 1);
    case("an input is cut short in a row between", cut && whole_rows > 0 && whole_rows + 1 < c.many);
    case("one byte of the rows is missing", cut && c.size + 1 == before);
    case("more than 64 rows, 64 of them whole, and cut short: 14", cut && c.many > 64 && whole_rows >= 64);
    let half = c.refused && c.size <= 65_536 && c.size > before && (c.size - before) % 2 == 1;
    for sort in [0, 23, 24, 25] {
        let table = if sort == 0 { "a good table".to_string() } else { format!("a table for {sort}") };
        case(&format!("half an interval behind others gives 14, with {table}"), half && c.size - before > 1 && c.sort() == sort);
        case(&format!("half an interval alone gives 14, with {table}"), half && c.size - before == 1 && c.sort() == sort);
        case(&format!("there is no interval, with {table}"), !c.refused && c.lines.is_empty() && c.sort() == sort);
        case(&format!("one interval is asked, with {table}"), c.lines.len() == 1 && c.sort() == sort);
        case(&format!("65,537 bytes give 14, with {table}"), c.refused && c.size == 65_537 && c.sort() == sort);
        case(&format!("65,536 bytes have an answer, with {table}"), !c.refused && c.size == 65_536 && c.sort() == sort);
    }
    case("half an interval alone gives 14, with no row", half && c.size == 2);
    case("there is no interval, and no row", !c.refused && c.size == 1);
    case("there is no interval, with 255 rows", !c.refused && c.lines.is_empty() && c.many == 255);
    for (odd, name) in [(0, "whole intervals"), (1, "half an interval")] {
        let good = c.refused && c.sort() == 0;
        case(&format!("65,537 bytes with {name} give 14"), good && c.size == 65_537 && (c.size - before) % 2 == odd);
    }
    case("more than 65,537 bytes give 14", c.refused && c.size > 65_537);
    case("131,072 bytes give 14", c.refused && c.size == 131_072);
    case("65,535 bytes have an answer", !c.refused && c.size == 65_535);
    case("32,767 intervals are asked, the most, with no row", c.lines.len() == 32_767);
    case("32,765 intervals are asked, the most with a row", c.lines.len() == 32_765 && c.many == 1);
    cases
}

/// Pairs of rows that overlap, as places, in the order of the one place, then of the other; with the smallest interval that is in both.
fn pairs(rows: &[Row], later_first: bool) -> Vec<(usize, usize, u16)> {
    let mut pairs = Vec::new();
    for a in 0..rows.len() {
        for b in 0..rows.len() {
            let (low, high) = if later_first { (b, a) } else { (a, b) };
            let first = rows[low].first.max(rows[high].first);
            if low < high && first <= rows[low].last.min(rows[high].last) {
                pairs.push((low, high, first));
            }
        }
    }
    pairs
}

/// What must occur of tables.
fn table_cases(c: &Case) -> Cases {
    let mut cases = Cases::default();
    let mut case = |name: &str, occurs: bool| cases.add(name, occurs);
    let (rows, many, last) = (&c.rows, c.rows.len(), c.rows.len().max(1) - 1);
    let is_good = c.sort() == 0 && c.lines.iter().any(|line| line[0] == 0);
    for n in [1, 2, 3, 63, 64] {
        case(&format!("a good table has {n} row(s)"), is_good && many == n);
    }
    let rising = rows.windows(2).all(|two| two[0].first < two[1].first);
    let falling = rows.windows(2).all(|two| two[0].first > two[1].first);
    case("a good table of several rows is in rising order", is_good && many > 2 && rising);
    case("a good table of several rows is in falling order", is_good && many > 2 && falling);
    case("a good table is in another order", is_good && !rising && !falling);
    case("a good table of several rows is in another order, and the first row holds 1", is_good && !rising && rows[0].first == 1);
    let singles = rows.iter().filter(|row| row.first == row.last).count();
    case("a good table has no row of a single interval", is_good && singles == 0);
    case("a good table has ten rows of a single interval or more", is_good && singles >= 10);
    case("a good table has all rows but one of a single interval", is_good && many > 2 && singles + 1 == many);
    case("a good table has a row of 1 alone", is_good && rows.iter().any(|row| row.last == 1));
    case("a good table has a row of 60,000 alone", is_good && rows.iter().any(|row| row.first == MOST));
    case("all rows of a good table have priority 0", is_good && many > 1 && rows.iter().all(|row| row.priority == 0));
    case("all rows of a good table have priority 255", is_good && many > 1 && rows.iter().all(|row| row.priority == 255));

    // 23
    let bad = |holds: &dyn Fn(usize, usize) -> bool| {
        let alone = c.bad.len() == 1 && many <= 64 && c.says(23, 0);
        alone && c.bad.iter().any(|at| holds(rows[*at].first as usize, rows[*at].last as usize))
    };
    case("a row with first 0 gives 23, and every interval is in exactly one row", bad(&|a, _| a == 0) && c.overlap.or(c.gap).is_none());
    let all_in_one = |end: usize| bad(&|_, b| b == end) && c.overlap.or(c.gap).is_none();
    case("a row with last 60,001 gives 23, and every interval is in exactly one row", all_in_one(60_001));
    case("a row with last 65,535 gives 23, and every interval is in exactly one row", all_in_one(65_535));
    case("a row with first above last, both within the range, gives 23", bad(&|a, b| 1 <= b && b < a && a <= 60_000));
    case("a row with first one above last gives 23, and without it the table is good", {
        bad(&|a, b| 1 <= b && b + 1 == a && a <= 60_000) && c.overlap.or(c.gap).is_none()
    });
    case("a row with first far above last gives 23, and without it the table is good", {
        bad(&|a, b| 1 <= b && b + 1000 < a && a <= 60_000) && c.overlap.or(c.gap).is_none()
    });
    case("a row with first 0 and last 0 gives 23", bad(&|a, b| a == 0 && b == 0));
    case("a row with first 1 and last 0 gives 23", bad(&|a, b| a == 1 && b == 0));
    case("a row above the range gives 23, and without it the table is good", {
        bad(&|a, b| 60_000 < a && a <= b) && c.overlap.or(c.gap).is_none()
    });
    case("a row with first 60,001 and last 60,000 gives 23", bad(&|a, b| a == 60_001 && b == 60_000));
    for n in [1, 2, 64] {
        case(&format!("a bad row alone of {n} gives 23"), bad(&|_, _| many == n));
    }
    case("a bad row in the first place of several gives 23", bad(&|_, _| many > 2 && c.bad[0] == 0));
    case("a bad row in the last place of several gives 23", bad(&|_, _| many > 2 && c.bad[0] == last));
    case("a bad row between others gives 23", bad(&|_, _| c.bad[0] > 0 && c.bad[0] < last));
    case("a bad row in place 64 gives 23", bad(&|_, _| c.bad[0] == 63));
    let by_row = c.says(23, 0) && !c.bad.is_empty() && many <= 64;
    case("two bad rows give 23", by_row && c.bad.len() == 2);
    case("all rows of several are bad: 23", by_row && many > 2 && c.bad.len() == many);
    case("23 for a row, over 24", by_row && c.overlap.is_some() && c.gap.is_none());
    case("23 for a row, over 25", by_row && c.overlap.is_none() && c.gap.is_some());
    case("23 for a row, over both", by_row && c.overlap.is_some() && c.gap.is_some());
    let by_number = c.says(23, 0) && many > 64;
    for n in [65, 66, 128, 255] {
        case(&format!("{n} rows give 23"), by_number && many == n);
    }
    let no_bad = by_number && c.bad.is_empty();
    case("65 rows give 23, and every interval is in exactly one row", no_bad && many == 65 && c.overlap.or(c.gap).is_none());
    case("255 rows give 23, and every interval is in exactly one row", no_bad && many == 255 && c.overlap.or(c.gap).is_none());
    case("65 rows give 23, and the first 64 are good", {
        by_number && many == 65 && !rows[..64].iter().any(Row::bad) && held(&rows[..64]).iter().all(|(_, many)| *many == 1)
    });
    case("23 for the number of rows, over 24", no_bad && c.overlap.is_some() && c.gap.is_none());
    case("23 for the number of rows, over 25", no_bad && c.overlap.is_none() && c.gap.is_some());
    case("23 for the number of rows and for a row", by_number && !c.bad.is_empty());

    // 24
    let overlap = if c.sort() == 24 { c.overlap } else { None };
    let given = overlap.is_some_and(|interval| c.says(24, interval as usize));
    let at = overlap.unwrap_or(1);
    let (mine, theirs) = if given { (pairs(rows, false), pairs(rows, true)) } else { (vec![], vec![]) };
    let twos = if given { c.held.iter().filter(|(_, many)| *many >= 2).count() } else { 0 };
    let pair = |holds: &dyn Fn(&Row, &Row) -> bool| mine.iter().any(|(a, b, _)| holds(&rows[*a], &rows[*b]) || holds(&rows[*b], &rows[*a]));
    for n in [2, 3, 63, 64] {
        case(&format!("24 with {n} rows"), given && many == n);
    }
    for interval in [1, 2, 59_999, 60_000] {
        case(&format!("24 with {interval}"), given && at == interval);
    }
    case("24 with an interval between", given && at > 2 && at < 59_999);
    case("one interval alone is in two rows", given && twos == 1 && c.held(at) == 2);
    case("one interval alone is in two rows, one of which is that interval alone", {
        given && twos == 1 && pair(&|a, _| a.first == a.last && a.first == at)
    });
    case("a thousand intervals or more are in two rows", twos >= 1000);
    case("all intervals are in two rows or more", twos == 60_000);
    case("the smallest overlap is in three rows", given && c.held(at) == 3);
    case("only a larger overlap is in three rows", given && c.held(at) == 2 && c.held.iter().any(|(_, many)| *many == 3));
    case("a row occurs twice, with another priority", pair(&|a, b| (a.first, a.last) == (b.first, b.last) && a.priority != b.priority));
    case("a row occurs twice, with the same priority", pair(&|a, b| a == b));
    case("a row lies within another, and has no end in common with it", pair(&|a, b| a.first < b.first && b.last < a.last));
    case("a row spans all", pair(&|a, _| a.first == 1 && a.last == MOST));
    case("two rows have their last and first in common", pair(&|a, b| a.last == b.first && a.first < a.last && b.first < b.last));
    case("the last of a row reaches into the next but one", {
        pair(&|a, b| rows.iter().any(|row| a.first < row.first && row.last < b.first && b.first <= a.last && a.last < b.last))
    });
    case("the first two rows that overlap, by the earlier one's place, do not hold the smallest", {
        mine.first().is_some_and(|pair| pair.2 != at)
    });
    case("the first two rows that overlap, by the later one's place, do not hold the smallest", {
        theirs.first().is_some_and(|pair| pair.2 != at)
    });
    case("the last two rows that overlap do not hold the smallest", mine.last().is_some_and(|pair| pair.2 != at));
    case("the smallest is the first of the row in an earlier place", pair_at(&mine, at, |a, _| rows[a].first == at && many > 2));
    case("the smallest is the first of the row in a later place only", {
        pair_at(&mine, at, |a, b| rows[b].first == at && rows[a].first < at)
    });
    case("rows 63 and 64 alone overlap", mine.len() == 1 && (mine[0].0, mine[0].1) == (62, 63));
    case("24 over 25, with an overlap above the gap", given && c.gap.is_some_and(|gap| at > gap));
    case("24 over 25, with an overlap below the gap", given && c.gap.is_some_and(|gap| at < gap));
    case("24 without a gap", given && c.gap.is_none());
    let sum: usize = if given { rows.iter().map(|row| (row.last - row.first) as usize + 1).sum() } else { 0 };
    case("24 over 25, and the rows' lengths add up to 60,000", given && c.gap.is_some() && sum == 60_000);

    // 25
    let gap = if c.sort() == 25 { c.gap } else { None };
    let given = gap.is_some_and(|interval| c.says(25, interval as usize));
    let at = gap.unwrap_or(1);
    let none: Vec<u16> = if given { c.held.iter().filter(|(_, many)| *many == 0).map(|(interval, _)| *interval).collect() } else { vec![] };
    // The gaps, by their first intervals and sizes.
    let mut gaps: Vec<(u16, usize)> = Vec::new();
    for interval in &none {
        match gaps.last_mut() {
            Some((first, size)) if *first as usize + *size == *interval as usize => *size += 1,
            _ => gaps.push((*interval, 1)),
        }
    }
    for n in [0, 1, 2, 63, 64] {
        case(&format!("25 with {n} row(s)"), given && many == n);
    }
    for interval in [1, 2, 59_999, 60_000] {
        case(&format!("25 with {interval}"), given && at == interval && many > 0);
    }
    case("25 with an interval between", given && at > 2 && at < 59_999);
    case("1 alone is in no row", none == [1]);
    case("a single interval between is in no row", none.len() == 1 && at > 1 && at < MOST);
    case("the only gap is larger, at the front", gaps.len() == 1 && none.len() > 1 && at == 1 && many > 0);
    case("the only gap is larger, between", gaps.len() == 1 && none.len() > 1 && at > 1 && *none.last().unwrap() < MOST);
    case("the only gap is larger, at the end", gaps.len() == 1 && none.len() > 1 && at > 1 && *none.last().unwrap() == MOST);
    case("two gaps, of equal size", gaps.len() == 2 && gaps[0].1 == gaps[1].1);
    case("two gaps, the smaller one first", gaps.len() == 2 && gaps[0].1 < gaps[1].1);
    case("two gaps, the larger one first", gaps.len() == 2 && gaps[0].1 > gaps[1].1);
    // Behind which row there is a gap, in row order.
    let behind = rows.iter().find(|row| gaps.iter().any(|(first, _)| row.last + 1 == *first));
    case("the first row with a gap behind it is not that of the smallest", gaps.len() > 1 && behind.is_some_and(|row| row.last + 1 != at));

    // Over a bad interval.
    for sort in [23, 24, 25] {
        for interval in [0, 60_001, 65_535] {
            let asked = c.intervals.contains(&interval) && !c.lines.is_empty() && c.lines.iter().all(|line| line[0] == sort);
            case(&format!("a table for {sort} gives it for interval {interval}"), asked && c.sort() == sort);
        }
        let held = c.intervals.iter().zip(&c.lines).any(|(interval, line)| {
            line[0] == sort && *interval >= 1 && *interval <= MOST && c.held(*interval) == 1 && many > 0
        });
        case(&format!("a table for {sort} gives it for an interval that is in exactly one row"), c.sort() == sort && held);
    }
    let smallest = |sort: usize, interval: Option<u16>| c.sort() == sort && interval.is_some_and(|i| c.intervals.contains(&i));
    case("the interval in two rows is asked for, with 24", smallest(24, c.overlap));
    case("the missing interval is asked for, with 25", smallest(25, c.gap));
    cases
}

/// Some two rows that overlap first at that interval, by their places.
fn pair_at(pairs: &[(usize, usize, u16)], at: u16, holds: impl Fn(usize, usize) -> bool) -> bool {
    pairs.iter().any(|(a, b, first)| *first == at && holds(*a, *b))
}

/// What must occur of lookups in a good table.
fn lookup_cases(c: &Case) -> Cases {
    let mut cases = Cases::default();
    let mut case = |name: &str, occurs: bool| cases.add(name, occurs);
    let lines = || c.intervals.iter().zip(&c.lines).filter(|_| c.sort() == 0);
    // The intervals with priorities, and the places of the rows that hold them.
    let accepted: Vec<(u16, usize, usize)> = lines()
        .filter(|(_, line)| line[0] == 0 && line[2] == 0)
        .map(|(interval, line)| (*interval, line[1], c.rows.iter().position(|row| row.holds(*interval)).expect("a row holds it")))
        .collect();
    let some = |holds: &dyn Fn(u16, &Row, usize) -> bool| {
        accepted.iter().any(|(interval, priority, at)| c.rows[*at].priority as usize == *priority && holds(*interval, &c.rows[*at], *at))
    };
    let several = c.rows.len() > 1;
    for interval in [1, 2, 59_999, 60_000] {
        case(&format!("{interval} is accepted, in a table of several rows"), several && some(&|i, _, _| i == interval));
    }
    case("1 and 60,000 are accepted, and in the same row", !several && some(&|i, _, _| i == 1) && some(&|i, _, _| i == MOST));
    for priority in [0, 1, 127, 128, 254, 255] {
        case(&format!("an interval is accepted with priority {priority}"), some(&|_, row, _| row.priority == priority));
    }
    case("an interval is the first of its row, and not 1", some(&|i, row, _| i == row.first && i < row.last && i > 1));
    case("an interval is the last of its row, and not 60,000", some(&|i, row, _| i == row.last && i > row.first && i < MOST));
    case("an interval is between the first and last of its row", some(&|i, row, _| row.first < i && i < row.last));
    case("an interval is a row alone", some(&|i, row, _| row.first == i && row.last == i && i > 1 && i < MOST));
    case("both intervals of a row of two are asked", {
        some(&|i, row, _| row.last == row.first + 1 && i == row.first && accepted.iter().any(|(j, _, _)| *j == row.last))
    });
    case("an interval is in a row that begins above 32,767", some(&|_, row, _| row.first > 32_767));
    case("an interval is in a row that begins below 256 and ends above it, of several", {
        several && some(&|_, row, _| row.first < 256 && row.last > 256)
    });
    for place in [1, 2, 32, 63, 64] {
        case(&format!("an interval is in the row in place {place}"), some(&|_, _, at| at + 1 == place && several));
    }
    case("an interval is in the row in the last place of several", some(&|_, _, at| several && at + 1 == c.rows.len()));
    case("all of 64 rows are asked for", c.rows.len() == 64 && (0..64).all(|place| some(&|_, _, at| at == place)));
    // The priorities of two rows where the last of the one and the first of the other are asked.
    let mut asked = vec![None; MOST as usize + 2];
    for (interval, _, at) in &accepted {
        asked[*interval as usize] = Some(*at);
    }
    let border = |holds: &dyn Fn(u8, u8) -> bool| {
        some(&|i, row, at| asked[i as usize + 1].is_some_and(|next: usize| next != at && holds(row.priority, c.rows[next].priority)))
    };
    case("both sides of a border are asked, with different priorities", border(&|a, b| a != b));
    case("both sides of a border are asked, with the same priority", border(&|a, b| a == b));
    case("an interval is in another row with its bytes swapped", {
        some(&|i, row, _| {
            let swapped = i.swap_bytes();
            c.rows.iter().any(|other| other.holds(swapped) && other.priority != row.priority)
        })
    });
    let refused = |holds: &dyn Fn(u16) -> bool| lines().any(|(interval, line)| *line == [23, 0, 0] && holds(*interval));
    for interval in [0, 60_001, 65_535] {
        case(&format!("a good table gives 23 for {interval}"), refused(&|i| i == interval));
    }
    case("a good table gives 23 for an interval between 60,001 and 65,535", refused(&|i| i > 60_001 && i < 65_535));
    let numbers: Vec<usize> = lines().map(|(_, line)| line[0]).collect();
    case("an accepted interval comes behind a refused one", numbers.windows(2).any(|two| two == [23, 0]));
    case("a refused interval comes behind an accepted one", numbers.windows(2).any(|two| two == [0, 23]));
    case("an interval is asked twice, and accepted", asked.iter().flatten().count() < accepted.len());
    case("all intervals asked are refused, in a good table", !numbers.is_empty() && numbers.iter().all(|number| *number == 23));
    cases
}

/// Fails where one of the cases never occurs.
fn count(inputs: &Path, answers: &Path) -> std::io::Result<bool> {
    let (mut times, mut all, mut answered, mut lines): (Vec<(String, usize)>, usize, usize, usize) = (Vec::new(), 0, 0, 0);
    // The good tables.
    let mut tables: Vec<Vec<Row>> = Vec::new();
    for entry in std::fs::read_dir(inputs)? {
        let name = entry?.file_name();
        let (input, answer) = (std::fs::read(inputs.join(&name))?, std::fs::read_to_string(answers.join(&name))?);
        let c = Case::new(&input, &answer);
        let cases = [file_cases(&c).0, table_cases(&c).0, lookup_cases(&c).0].concat();
        times.resize(cases.len(), Default::default());
        for (sum, (case, occurs)) in times.iter_mut().zip(cases) {
            *sum = (case, sum.1 + occurs as usize);
        }
        all += 1;
        answered += !c.refused as usize;
        lines += c.lines.len();
        if c.sort() == 0 && c.rows.len() > 2 && !c.lines.is_empty() {
            tables.push(c.rows);
        }
    }
    // How often two of them are alike.
    let alike = |holds: &dyn Fn(&[Row], &[Row]) -> bool| {
        tables.iter().enumerate().map(|(at, a)| tables[..at].iter().filter(|b| a.len() == b.len() && holds(a, b)).count()).sum()
    };
    let same = |a: &Row, b: &Row| (a.first, a.last) == (b.first, b.last);
    let in_order = |a: &[Row], b: &[Row]| a.iter().zip(b).all(|(a, b)| same(a, b));
    let in_any_order = |a: &[Row], b: &[Row]| a.iter().all(|a| b.iter().any(|b| same(a, b)));
    times.push(("a good table comes twice, with other priorities".to_string(), alike(&|a, b| in_order(a, b) && a != b)));
    times.push(("a good table comes twice, in another order".to_string(), alike(&|a, b| in_any_order(a, b) && !in_order(a, b))));
    for (case, times) in &times {
        println!("{times:5} {case}");
    }
    for (case, _) in times.iter().filter(|(_, times)| *times == 0) {
        println!("it never occurs: {case}");
    }
    let occur = times.iter().filter(|(_, times)| *times > 0).count();
    println!("{occur} of {} cases occur; {answered} of {} inputs are answered, with {lines} lines", times.len(), all);
    Ok(occur == times.len())
}

fn main() -> std::io::Result<()> {
    let arguments: Vec<String> = std::env::args().collect();
    let words: Vec<&str> = arguments[1..].iter().map(String::as_str).collect();
    match words[..] {
        ["-o", folder, ref inputs @ ..] => {
            for input in inputs.iter().map(Path::new) {
                std::fs::write(Path::new(folder).join(input.file_name().unwrap()), answer(&std::fs::read(input)?))?;
            }
        }
        ["-n", seed, count, folder] => {
            let (seed, count): (u64, usize) = (seed.parse().expect("a seed"), count.parse().expect("a count"));
            for i in 0..count {
                std::fs::write(Path::new(folder).join(format!("ranking-{i:05}")), input(seed, i))?;
            }
        }
        ["-c", inputs, answers] => {
            if !count(Path::new(inputs), Path::new(answers))? {
                std::process::exit(1);
            }
        }
        _ => {
            let mut input = Vec::new();
            std::io::stdin().read_to_end(&mut input)?;
            std::io::stdout().write_all(answer(&input).as_bytes())?;
        }
    }
    Ok(())
}
