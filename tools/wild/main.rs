//! A register of Debian's Rust crates, recorded as JSON Lines on standard output: wild NAME OPERATIONS AHEAD, and a word more without the
//! recorder's fence. One task writes.

#[path = "../../rust/nidzaru/src/log.rs"]
#[allow(dead_code)]
mod log;

use crossbeam_channel::{bounded, Receiver, Sender};
use crossbeam_queue::ArrayQueue;
use log::{merge, pace, Log, Record};
use std::cell::UnsafeCell;
use std::error::Error;
use std::hint::black_box;
use std::io::{self, BufWriter};
use std::mem::size_of;
use std::sync::Barrier;
use std::{env, thread};

type Item = [u64; 3];

fn item(number: u64) -> Item {
    [number, 2 * number + 1, 3 * number + 2]
}

trait Register: Sync {
    fn write(&self, item: Item);
    /// What a reader has by now; it had `last`.
    fn read(&self, last: Item) -> Item;
}

/// A queue of one place, in which a new record takes the old one's. Each record goes to one reader.
struct Forced(ArrayQueue<Item>);

impl Register for Forced {
    fn write(&self, item: Item) {
        self.0.force_push(item);
    }

    fn read(&self, last: Item) -> Item {
        self.0.pop().unwrap_or(last)
    }
}

/// A channel of one place: what finds it full is dropped.
struct Channel(Sender<Item>, Receiver<Item>);

impl Register for Channel {
    fn write(&self, item: Item) {
        let _ = self.0.try_send(item);
    }

    fn read(&self, last: Item) -> Item {
        self.1.try_recv().unwrap_or(last)
    }
}

/// Three words by volatile accesses.
struct Volatile(UnsafeCell<Item>);

// (it isn't so: that is what is shown)
unsafe impl Sync for Volatile {}

impl Register for Volatile {
    fn write(&self, item: Item) {
        unsafe { self.0.get().write_volatile(item) }
    }

    fn read(&self, _: Item) -> Item {
        unsafe { self.0.get().read_volatile() }
    }
}

/// The register of this name, and how many tasks read it.
fn register(name: &str) -> Option<(Box<dyn Register>, usize)> {
    let (sender, receiver) = bounded(1);
    match name {
        "array_queue" => Some((Box::new(Forced(ArrayQueue::new(1))), 2)),
        "channel" => Some((Box::new(Channel(sender, receiver)), 1)),
        "rust_volatile" => Some((Box::new(Volatile(UnsafeCell::new(item(0)))), 1)),
        _ => None,
    }
}

// (the C library's, with which every program is linked: 0 is the thread that asks)
extern "C" {
    fn sched_getaffinity(task: i32, size: usize, set: *mut u64) -> i32;
    fn sched_setaffinity(task: i32, size: usize, set: *const u64) -> i32;
}

type Set = [u64; 16];

/// The processors on which this thread may run.
fn processors() -> Vec<usize> {
    let mut may: Set = [0; 16];
    unsafe { sched_getaffinity(0, size_of::<Set>(), may.as_mut_ptr()) };
    (0..1024).filter(|at| may[at / 64] >> (at % 64) & 1 == 1).collect()
}

/// What keeps the threads out of step, as in main.cpp.
struct Stagger<'a> {
    processors: &'a [usize],
    me: usize,
    operations: usize,
    seed: u64,
}

impl<'a> Stagger<'a> {
    fn new(processors: &'a [usize], me: usize) -> Self {
        Stagger { processors, me, operations: 0, seed: 88_172_645_463_325_252 + me as u64 }
    }

    fn move_to(&self, place: usize) {
        if let Some(at) = place.checked_rem(self.processors.len()).map(|at| self.processors[at]) {
            let mut one: Set = [0; 16];
            one[at / 64] = 1 << (at % 64);
            unsafe { sched_setaffinity(0, size_of::<Set>(), one.as_ptr()) };
        }
    }

    fn wait(&mut self) {
        if self.operations % 1000 == 0 {
            self.move_to(self.me + self.operations / 1000);
        }
        self.operations += 1;
        self.seed ^= self.seed << 13;
        self.seed ^= self.seed >> 7;
        self.seed ^= self.seed << 17;
        for left in 0..(self.seed >> 32) % (1 << (self.seed % 11)) {
            black_box(left);
        }
    }
}

fn write_all(register: &dyn Register, log: &mut Log, mut step: Stagger) {
    for number in 1.. {
        if log.is_full() {
            break;
        }
        step.wait();
        let item = item(number);
        log.write(Record::of_words(&item), || register.write(item));
    }
}

fn read_all(register: &dyn Register, log: &mut Log, mut step: Stagger) {
    let mut last = item(0);
    while !log.is_full() {
        step.wait();
        last = log.read(|| register.read(last), |item| Record::of_words(item));
    }
}

fn main() -> Result<(), Box<dyn Error>> {
    let words: Vec<String> = env::args().collect();
    let [_, name, operations, ahead, unfenced @ ..] = &words[..] else { return Err("usage: wild NAME OPERATIONS AHEAD [unfenced]".into()) };
    let (register, readers) = register(name).ok_or("there is no such register")?;
    let (register, tasks) = (&*register, 1 + readers);
    let room = operations.parse::<usize>()? / tasks;
    let opened = (0..tasks as u64).map(|who| Log::new(who, room).map(|log| if unfenced.is_empty() { log } else { log.unfenced() }));
    let mut logs = opened.collect::<Result<Vec<Log>, _>>()?;
    pace(&mut logs, ahead.parse()?);
    let (start, processors) = (Barrier::new(tasks), processors());
    thread::scope(|threads| {
        for (me, log) in logs.iter_mut().enumerate() {
            let (start, step) = (&start, Stagger::new(&processors, me));
            threads.spawn(move || {
                start.wait();
                if me == 0 {
                    write_all(register, log, step)
                } else {
                    read_all(register, log, step)
                }
            });
        }
    });
    merge(&mut BufWriter::new(io::stdout().lock()), &logs, Record::of_words(&item(0)), None)?;
    Ok(())
}
