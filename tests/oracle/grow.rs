//! `grow N`: an event file with N threads and N timeslices, to see how the cost of an event grows. Thread 0 has the highest
//! priority; it blocks and is woken, over and over: each time a timeslice is put aside or released, and a choice is made.

use std::io::Write;

fn main() -> std::io::Result<()> {
    let n: u8 = std::env::args().nth(1).and_then(|n| n.parse().ok()).filter(|n| (2..=128).contains(n)).expect("grow N, 2 to 128");
    let mut records = Vec::new();
    for thread in 0..n {
        records.extend([3, 1, thread, 0]);
    }
    for slice in 0..n {
        records.extend([6, 2, slice, slice, 200 - slice, 0, 100]);
    }
    while records.len() + 5 + 5 <= 65_536 {
        records.extend([1, 5, 2, 6, 0]);
    }
    let mut file = ((records.len() + 1) as u32).to_be_bytes().to_vec();
    file.push(1);
    file.extend(records);
    std::io::stdout().lock().write_all(&file)
}
