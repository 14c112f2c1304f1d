//! A bare loop that makes the writes and syncs by which a journal comes about, and tells how long they take.
//!
//!     bare_loop JOURNAL COPY records|events
//!
//! It goes round once a record and writes the record's payload at once, or once an event and writes each event by itself. The syncs are the
//! same. It prints how often it went round, the microseconds that passed, how many syncs it made, and the microseconds that these took.

use std::fs::{File, OpenOptions};
use std::os::unix::fs::FileExt;
use std::time::{Duration, Instant};
use std::{env, fs, io};

/// What stands before the events of a turn, and an event of a step that reads no clock, in bytes.
const FRONT: usize = 21;
const EVENT: usize = 5;

struct Bare {
    file: File,
    rounds: usize,
    syncs: usize,
    syncing: Duration,
}

impl Bare {
    /// A new file with the front of a journal and a closed gate.
    fn begin(path: &str) -> io::Result<Bare> {
        let file = OpenOptions::new().read(true).write(true).create_new(true).open(path)?;
        let mut bare = Bare { file, rounds: 0, syncs: 0, syncing: Duration::ZERO };
        bare.file.write_all_at(b"WFJ1", 0)?;
        bare.sync(None)?;
        bare.sync(Some(&File::open(".")?))?;
        bare.file.write_all_at(&[0], 4)?;
        bare.sync(None)?;
        Ok(bare)
    }

    /// Syncs the file, or another one.
    fn sync(&mut self, other: Option<&File>) -> io::Result<()> {
        let begun = Instant::now();
        other.unwrap_or(&self.file).sync_all()?;
        self.syncing += begun.elapsed();
        self.syncs += 1;
        Ok(())
    }

    /// A record behind its gate, in such pieces, and then the gate is opened.
    fn record<'a>(&mut self, gate: usize, length: usize, pieces: impl Iterator<Item = &'a [u8]>) -> io::Result<()> {
        self.file.write_all_at(&(length as u32).to_be_bytes(), gate as u64 + 1)?;
        let mut at = gate as u64 + 5;
        for piece in pieces {
            self.file.write_all_at(piece, at)?;
            at += piece.len() as u64;
            self.rounds += 1;
        }
        self.file.write_all_at(&[0], at)?;
        self.sync(None)?;
        self.file.write_all_at(&[1], gate as u64)?;
        self.sync(None)
    }
}

fn main() -> io::Result<()> {
    let words: Vec<String> = env::args().skip(1).collect();
    let [journal, copy, each] = &words[..] else { panic!("three words are wanted") };
    let journal = fs::read(journal)?;
    let begun = Instant::now();
    let mut bare = Bare::begin(copy)?;
    let mut gate = 4;
    while journal.get(gate) == Some(&1) {
        let length = u32::from_be_bytes(journal[gate + 1..gate + 5].try_into().unwrap()) as usize;
        let payload = &journal[gate + 5..gate + 5 + length];
        if each == "events" && payload[0] == 2 {
            let (front, events) = payload.split_at(FRONT);
            bare.record(gate, length, std::iter::once(front).chain(events.chunks_exact(EVENT)))?;
        } else {
            bare.record(gate, length, std::iter::once(payload))?;
        }
        gate += 5 + length;
    }
    println!("{} {} {} {}", bare.rounds, begun.elapsed().as_micros(), bare.syncs, bare.syncing.as_micros());
    Ok(())
}
