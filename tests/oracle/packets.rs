//! What a program says on standard error, write by write: `packets PROGRAM` runs it with a folder as standard input, which cannot be read,
//! and prints each write as a quoted string, one a line. A datagram keeps the borders of a write.

use std::fs::File;
use std::os::fd::OwnedFd;
use std::os::unix::net::UnixDatagram;
use std::process::{Command, Stdio};

fn main() -> std::io::Result<()> {
    let program = std::env::args().nth(1).expect("packets PROGRAM");
    let (ours, theirs) = UnixDatagram::pair()?;
    let status = Command::new(program)
        .stdin(File::open("/")?)
        .stdout(Stdio::null())
        .stderr(OwnedFd::from(theirs))
        .status()?;
    ours.set_nonblocking(true)?;
    let mut bytes = [0; 65536];
    while let Ok(n) = ours.recv(&mut bytes) {
        println!("{:?}", String::from_utf8_lossy(&bytes[..n]));
    }
    println!("{status}");
    Ok(())
}
