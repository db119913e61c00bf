//! A register of one's own, a sequence lock, that three threads use, recorded as JSON Lines on standard output.
//!
//!     record_seqlock OPERATIONS            the right one
//!     record_seqlock OPERATIONS torn       one whose readers don't look at the sequence: sooner or later a record is torn
//!     record_seqlock OPERATIONS live       the right one, lines and floors while the threads run, for `fsr watch`
//!     record_seqlock OPERATIONS torn live  the wrong one, likewise, with pauses; where the reader of the lines leaves they stop (status 4)
//!
//! The wrong one lingers now and then in the middle of a write, while others read, so that a short log shows it.

use nidzaru::log::{header, live, merge, pace, Live, Log, MergeError, Record};
use std::env;
use std::error::Error;
use std::io::{self, BufWriter};
use std::sync::atomic::{
    fence, AtomicBool, AtomicU64,
    Ordering::{Acquire, Relaxed, Release, SeqCst},
};
use std::time::Duration;
use std::{process, thread};

/// A record of eight words, the first of which is its number.
type Item = [u64; 8];

fn item(number: u64) -> Item {
    std::array::from_fn(|k| number * (k as u64 * k as u64 + 1))
}

/// H. Boehm, Can Seqlocks Get Along With Programming Language Memory Models?, 2012. One thread writes.
#[derive(Default)]
struct SeqLock {
    torn: bool,
    slow: bool,
    stopped: AtomicBool,
    sequence: AtomicU64,
    words: [AtomicU64; 8],
    reads: AtomicU64,
}

impl SeqLock {
    fn write(&self, item: &Item) {
        let now = self.sequence.load(Relaxed);
        self.sequence.store(now + 1, Relaxed);
        fence(Release);
        for (k, word) in item.iter().enumerate() {
            self.words[k].store(*word, Relaxed);
            if self.torn && k == 3 && item[0] % 64 == 0 {
                self.linger();
            }
        }
        self.sequence.store(now + 2, Release);
    }

    fn read(&self) -> Item {
        loop {
            let before = self.sequence.load(Acquire);
            let item = std::array::from_fn(|k| self.words[k].load(Relaxed));
            fence(Acquire);
            if self.torn || (before % 2 == 0 && self.sequence.load(Relaxed) == before) {
                return item;
            }
            thread::yield_now();
        }
    }

    /// Waits for some reads, not for ever: others may wait for this thread.
    fn linger(&self) {
        let seen = self.reads.load(SeqCst);
        for _ in 0..100 {
            if self.reads.load(SeqCst) >= seen + 4 {
                break;
            }
            thread::yield_now();
        }
    }
}

/// Whether a thread goes on, in a slow program after a pause.
fn goes_on(shared: &SeqLock, log: &Log) -> bool {
    if shared.slow {
        thread::sleep(Duration::from_micros(50));
    }
    !log.is_full() && !shared.stopped.load(Relaxed)
}

fn write_all(shared: &SeqLock, log: &mut Log) {
    for n in 1.. {
        if !goes_on(shared, log) {
            break;
        }
        let item = item(n);
        log.write(Record::of_words(&item), || shared.write(&item));
    }
    // (a paced thread waits for no other that has left)
    log.leave();
}

fn read_all(shared: &SeqLock, log: &mut Log) {
    while goes_on(shared, log) {
        log.read(|| shared.read(), |item| Record::of_words(item));
        shared.reads.fetch_add(1, SeqCst);
    }
    log.leave();
}

/// Writes lines and floors as long as the threads run.
fn drain_all<'a>(mut lines: Live, threads: &[thread::ScopedJoinHandle<'a, ()>]) -> Result<u64, MergeError> {
    let mut to = BufWriter::new(io::stdout().lock());
    header(&mut to, Record::of_words(&item(0)), None)?;
    while !threads.iter().all(|it| it.is_finished()) {
        lines.drain(&mut to)?;
        thread::sleep(Duration::from_millis(1));
    }
    lines.finish(&mut to)
}

fn main() -> Result<(), Box<dyn Error>> {
    let words: Vec<String> = env::args().skip(1).collect();
    let room = words.first().ok_or("usage: record_seqlock OPERATIONS [torn] [live]")?.parse::<usize>()? / 3;
    let (torn, is_live) = (words.iter().any(|word| word == "torn"), words.iter().any(|word| word == "live"));
    let shared = SeqLock { torn, slow: torn && is_live, ..SeqLock::default() };
    let mut logs = [Log::new(0, room)?, Log::new(1, room)?, Log::new(2, room)?];
    pace(&mut logs, 200);
    let lines = is_live.then(|| live(&mut logs));
    let told = thread::scope(|scope| {
        let [first, second, third] = &mut logs;
        let threads = [
            scope.spawn(|| write_all(&shared, first)),
            scope.spawn(|| read_all(&shared, second)),
            scope.spawn(|| read_all(&shared, third)),
        ];
        let told = lines.map(|lines| drain_all(lines, &threads));
        shared.stopped.store(told.as_ref().is_some_and(Result::is_err), Relaxed);
        told
    });
    match told {
        Some(Err(MergeError::Stream(_))) => process::exit(4),
        Some(told) => drop(told?),
        None => drop(merge(&mut BufWriter::new(io::stdout().lock()), &logs, Record::of_words(&item(0)), None)?),
    }
    Ok(())
}
