//! One word with release and acquire, stored behind stores to lines that readers have taken: these wait for the lines, and the word waits
//! behind them, long after the call has returned. Only the recorder's fence makes it lawful. The log goes to standard output.
//!
//!     behind OPERATIONS [unfenced]

use nidzaru::log::{merge, Log, Record};
use std::error::Error;
use std::io::{self, BufWriter};
use std::sync::atomic::{
    AtomicU64,
    Ordering::{Acquire, Relaxed, Release, SeqCst},
};
use std::{array, env, hint, thread};

#[derive(Default)]
#[repr(align(64))]
struct Line(AtomicU64);

struct Shared {
    word: Line,
    lines: [Line; 24],
    reads: Line,
    reading: Line,
}

impl Shared {
    fn write(&self, number: u64) {
        for line in &self.lines {
            line.0.store(number, Relaxed);
        }
        self.word.0.store(number, Release);
    }

    fn read(&self) -> u64 {
        let number = self.word.0.load(Acquire);
        for line in &self.lines {
            hint::black_box(line.0.load(Relaxed));
        }
        number
    }

    /// Waits for two reads, not for ever.
    fn await_reads(&self) {
        let seen = self.reads.0.load(SeqCst);
        for tries in 1..20_000 {
            if self.reading.0.load(SeqCst) == 0 || self.reads.0.load(SeqCst) >= seen + 2 {
                break;
            }
            if tries % 1000 == 0 {
                thread::yield_now();
            }
        }
    }
}

fn write_all(shared: &Shared, log: &mut Log) {
    for number in 1.. {
        if log.is_full() {
            break;
        }
        shared.await_reads();
        log.write(Record::of_words(&[number]), || shared.write(number));
    }
}

fn read_all(shared: &Shared, log: &mut Log) {
    while !log.is_full() {
        log.read(|| shared.read(), |number| Record::of_words(&[*number]));
        shared.reads.0.fetch_add(1, SeqCst);
    }
    shared.reading.0.fetch_sub(1, SeqCst);
}

fn main() -> Result<(), Box<dyn Error>> {
    let words: Vec<String> = env::args().skip(1).collect();
    let room = words.first().ok_or("usage: behind OPERATIONS [unfenced]")?.parse::<usize>()? / 3;
    let unfenced = words.get(1).is_some_and(|word| word == "unfenced");
    let open = |who| Log::new(who, room).map(|log| if unfenced { log.unfenced() } else { log });
    let shared =
        Shared { word: Line::default(), lines: array::from_fn(|_| Line::default()), reads: Line::default(), reading: Line(2.into()) };
    let mut logs = [open(0)?, open(1)?, open(2)?];
    thread::scope(|scope| {
        let [first, second, third] = &mut logs;
        scope.spawn(|| write_all(&shared, first));
        scope.spawn(|| read_all(&shared, second));
        scope.spawn(|| read_all(&shared, third));
    });
    merge(&mut BufWriter::new(io::stdout().lock()), &logs, Record::of_words(&[0]), None)?;
    Ok(())
}
