//! Turns a list of events in words, on standard input, into an event file on standard output.
//!
//! One event a line; `#` begins a comment; empty lines count for nothing:
//!
//! ```text
//! create THREAD client|server
//! give TIMESLICE THREAD PRIORITY QUANTUM
//! call SERVER
//! reply
//! block
//! wake THREAD
//! charge AMOUNT
//! abort THREAD
//! refill TIMESLICE
//! remove THREAD
//! rank TIMESLICE PRIORITY
//! ```

use std::io::{Read, Write};

/// The bytes of a record after its length byte; nothing where the words make no event.
fn event(words: &[&str]) -> Option<Vec<u8>> {
    let byte = |word: &str| word.parse::<u8>().ok();
    let two = |word: &str| word.parse::<u16>().ok().map(u16::to_be_bytes);
    Some(match words {
        ["create", thread, "client"] => vec![1, byte(thread)?, 0],
        ["create", thread, "server"] => vec![1, byte(thread)?, 1],
        ["give", timeslice, thread, priority, quantum] => {
            let [high, low] = two(quantum)?;
            vec![2, byte(timeslice)?, byte(thread)?, byte(priority)?, high, low]
        }
        ["call", server] => vec![3, byte(server)?],
        ["reply"] => vec![4],
        ["block"] => vec![5],
        ["wake", thread] => vec![6, byte(thread)?],
        ["charge", amount] => {
            let [high, low] = two(amount)?;
            vec![7, high, low]
        }
        ["abort", thread] => vec![8, byte(thread)?],
        ["refill", timeslice] => vec![9, byte(timeslice)?],
        ["remove", thread] => vec![10, byte(thread)?],
        ["rank", timeslice, priority] => vec![11, byte(timeslice)?, byte(priority)?],
        _ => return None,
    })
}

fn main() -> std::io::Result<()> {
    let mut text = String::new();
    std::io::stdin().read_to_string(&mut text)?;
    let mut file = vec![0, 0, 0, 0, 1];
    for (i, line) in text.lines().enumerate() {
        let words: Vec<&str> = line.split('#').next().unwrap().split_whitespace().collect();
        if words.is_empty() {
            continue;
        }
        let Some(record) = event(&words) else {
            eprintln!("line {}: no event: {line}", i + 1);
            std::process::exit(2);
        };
        file.push(record.len() as u8);
        file.extend(record);
    }
    let length = (file.len() - 4) as u32;
    file[..4].copy_from_slice(&length.to_be_bytes());
    std::io::stdout().write_all(&file)
}
