//! Plain registers of one writer and one reader, written for comparison with the proved cells: H. Simpson's four slots, the
//! triple buffer, and the locks of Rust's library; and for several writers and readers a matrix of such registers, and a lock.
//! `plain list`, `plain run` and `plain count IMPL BYTES OP N`, as `cells_bench`.
use std::cell::UnsafeCell;
use std::hint::black_box;
use std::sync::atomic::{AtomicU64, Ordering::SeqCst};
use std::sync::{Arc, Mutex, RwLock};
use std::thread;
use std::time::Instant;

type Record<const N: usize> = [u64; N];

trait Register<const N: usize>: Send + Sync {
    /// What a side remembers.
    type Put: Send + Default;
    type Get: Send + Default;
    fn make() -> Self;
    fn write(&self, put: &mut Self::Put, item: &Record<N>);
    fn read(&self, get: &mut Self::Get) -> Record<N>;
}

struct Slots<const N: usize, const S: usize>([UnsafeCell<Record<N>>; S]);

// Each register below lets one side at a time into a slot.
unsafe impl<const N: usize, const S: usize> Sync for Slots<N, S> {}

impl<const N: usize, const S: usize> Slots<N, S> {
    fn new() -> Self {
        Slots(std::array::from_fn(|_| UnsafeCell::new([0; N])))
    }
    fn put(&self, slot: usize, item: &Record<N>) {
        unsafe { *self.0[slot].get() = *item }
    }
    fn get(&self, slot: usize) -> Record<N> {
        unsafe { *self.0[slot].get() }
    }
}

/// Words 0 to 3 are `latest`, `reading` and the bits of the pairs.
struct FourSlot<const N: usize> {
    words: [AtomicU64; 4],
    slots: Slots<N, 4>,
}

impl<const N: usize> Register<N> for FourSlot<N> {
    type Put = [u64; 2];
    type Get = ();
    fn make() -> Self {
        FourSlot { words: [const { AtomicU64::new(0) }; 4], slots: Slots::new() }
    }
    fn write(&self, bits: &mut [u64; 2], item: &Record<N>) {
        let pair = 1 - (self.words[1].load(SeqCst) & 1);
        let index = 1 - (bits[pair as usize] & 1);
        self.slots.put((2 * pair + index) as usize, item);
        self.words[2 + pair as usize].store(index, SeqCst);
        self.words[0].store(pair, SeqCst);
        bits[pair as usize] = index;
    }
    fn read(&self, _: &mut ()) -> Record<N> {
        let pair = self.words[0].load(SeqCst) & 1;
        self.words[1].store(pair, SeqCst);
        let index = self.words[2 + pair as usize].load(SeqCst) & 1;
        self.slots.get((2 * pair + index) as usize)
    }
}

/// The word is the middle slot, plus 4 where it has a record not read yet.
struct Triple<const N: usize> {
    word: AtomicU64,
    slots: Slots<N, 3>,
}

struct TriplePut(usize);
struct TripleGet(usize);

impl Default for TriplePut {
    fn default() -> Self {
        TriplePut(0)
    }
}

impl Default for TripleGet {
    fn default() -> Self {
        TripleGet(2)
    }
}

impl<const N: usize> Register<N> for Triple<N> {
    type Put = TriplePut;
    type Get = TripleGet;
    fn make() -> Self {
        Triple { word: AtomicU64::new(1), slots: Slots::new() }
    }
    fn write(&self, put: &mut TriplePut, item: &Record<N>) {
        self.slots.put(put.0, item);
        put.0 = (self.word.swap(put.0 as u64 + 4, SeqCst) % 4) as usize;
    }
    fn read(&self, get: &mut TripleGet) -> Record<N> {
        if self.word.load(SeqCst) >= 4 {
            get.0 = (self.word.swap(get.0 as u64, SeqCst) % 4) as usize;
        }
        self.slots.get(get.0)
    }
}

macro_rules! locked {
    ($lock:ident, $write:ident, $read:ident) => {
        impl<const N: usize> Register<N> for $lock<Record<N>> {
            type Put = ();
            type Get = ();
            fn make() -> Self {
                $lock::new([0; N])
            }
            fn write(&self, _: &mut (), item: &Record<N>) {
                *$lock::$write(self).unwrap() = *item
            }
            fn read(&self, _: &mut ()) -> Record<N> {
                *$lock::$read(self).unwrap()
            }
        }
    };
}

locked!(Mutex, lock, lock);
locked!(RwLock, write, read);

fn mark<const N: usize>(item: &mut Record<N>, number: u64) {
    item[0] = number;
    item[N - 1] = number;
}

fn batch<const N: usize, R: Register<N>>(cell: &R, put: &mut R::Put, get: &mut R::Get, op: &str, calls: u64) -> u64 {
    let (mut item, mut sum) = ([0; N], 0);
    for number in 0..calls {
        if op != "read" {
            mark(&mut item, number);
            cell.write(put, black_box(&item));
        }
        if op != "write" {
            let answer = black_box(cell.read(get));
            sum |= answer[0] ^ answer[N - 1];
        }
    }
    sum
}

fn say(name: &str, words: usize, mode: &str, metric: &str, value: f64) {
    println!("{name},{},{mode},{metric},{value:.3}", 8 * words)
}

fn per_call<const N: usize, R: Register<N>>(op: &str) -> f64 {
    let (cell, mut put, mut get) = (R::make(), R::Put::default(), R::Get::default());
    let mut size = 16;
    for _ in 0..16 {
        let start = Instant::now();
        batch(&cell, &mut put, &mut get, op, size);
        if start.elapsed().as_nanos() > 100_000 {
            break;
        }
        size *= 2;
    }
    let mut times: Vec<f64> = (0..61)
        .map(|_| {
            let start = Instant::now();
            batch(&cell, &mut put, &mut get, op, size);
            start.elapsed().as_nanos() as f64 / size as f64
        })
        .collect();
    times.sort_by(f64::total_cmp);
    times[30]
}

/// On cache lines of its own.
#[repr(align(128))]
struct Apart<T>(T);

type Beat = Apart<AtomicU64>;

/// One side of the paced run: a call at each beat, timed where the other side made one since the last.
fn side(start: Instant, step: u64, mine: &Beat, theirs: &Beat, mut call: impl FnMut(u64)) -> Vec<u64> {
    let now = || start.elapsed().as_nanos() as u64;
    let (mut times, mut next, mut seen) = (Vec::with_capacity(40_000), 0, 0);
    for number in 0..40_000 {
        next = now().max(next + step);
        while now() < next {}
        let before = now();
        call(number);
        let after = now();
        mine.0.fetch_add(1, SeqCst);
        let other = theirs.0.load(SeqCst);
        if other != seen {
            times.push(after - before);
        }
        seen = other;
    }
    times.sort();
    times
}

fn paced<const N: usize, R: Register<N>>(name: &str) {
    let (cell, start) = (Box::new(Apart(R::make())), Instant::now());
    let now = || start.elapsed().as_nanos() as u64;
    let cost = (0..20_000).map(|_| { let t = now(); now() - t }).min().unwrap();
    let (a, b) = (Apart(AtomicU64::new(0)), Apart(AtomicU64::new(0)));
    let (writes, reads) = thread::scope(|s| {
        let (cell, a, b) = (&cell.0, &a, &b);
        let writer = s.spawn(move || {
            let (mut put, mut item) = (R::Put::default(), [0; N]);
            side(start, 1_000, a, b, |number| {
                mark(&mut item, number);
                cell.write(&mut put, black_box(&item))
            })
        });
        let mut get = R::Get::default();
        let reads = side(start, 1_037, b, a, |_| { black_box(cell.read(&mut get)); });
        (writer.join().unwrap(), reads)
    });
    for (times, op) in [(writes, "write"), (reads, "read")] {
        for (share, metric) in [(500, "p50"), (990, "p99")] {
            let time = times.get(times.len() * share / 1000).copied().unwrap_or(0).saturating_sub(cost);
            say(name, N, "paced", &format!("{op}_{metric}_ns"), time as f64);
        }
    }
}

/// The nanoseconds of a run at full speed.
const BUDGET: u64 = 40_000_000;

/// Writer and reader at full speed. Gives the torn or older records, and the sorted times of the reads.
fn at_full_speed<const N: usize, R: Register<N>>() -> (u64, Vec<u64>) {
    let (cell, start) = (Box::new(Apart(R::make())), Instant::now());
    let now = move || start.elapsed().as_nanos() as u64;
    let (ready, over) = (Apart(AtomicU64::new(0)), Apart(AtomicU64::new(0)));
    thread::scope(|s| {
        let (cell, ready, over) = (&cell.0, &ready.0, &over.0);
        let writer = s.spawn(move || {
            let (mut put, mut item, mut number) = (R::Put::default(), [0; N], 0);
            ready.fetch_add(1, SeqCst);
            while ready.load(SeqCst) < 2 {}
            while over.load(SeqCst) == 0 {
                number += 1;
                mark(&mut item, number);
                cell.write(&mut put, black_box(&item));
            }
        });
        let (mut get, mut last, mut wrong) = (R::Get::default(), 0, 0);
        let mut times = Vec::with_capacity(600_000);
        ready.fetch_add(1, SeqCst);
        while ready.load(SeqCst) < 2 {}
        let begun = now();
        let mut before = begun;
        while before < begun + BUDGET {
            let answer = black_box(cell.read(&mut get));
            let (first, end) = (answer[0], answer[N - 1]);
            if times.len() < 600_000 {
                times.push(now() - before);
            }
            wrong += (first != end || first < last) as u64;
            last = first;
            before = now();
        }
        over.store(1, SeqCst);
        writer.join().unwrap();
        times.sort();
        (wrong, times)
    })
}

fn duo<const N: usize, R: Register<N>>(name: &str) {
    let start = Instant::now();
    let now = || start.elapsed().as_nanos() as u64;
    let cost = (0..20_000).map(|_| { let t = now(); now() - t }).min().unwrap();
    let (wrong, times) = at_full_speed::<N, R>();
    for (share, metric) in [(5_000, "p50"), (9_900, "p99"), (9_990, "p99.9"), (9_999, "p99.99")] {
        let time = times.get(times.len() * share / 10_000).copied().unwrap_or(BUDGET).saturating_sub(cost);
        say(name, N, "duo", &format!("read_{metric}_ns"), time as f64);
    }
    if wrong > 0 {
        say(name, N, "duo", "torn_or_backward", wrong as f64);
    }
}

fn one<const N: usize, R: Register<N>>(name: &str) {
    say(name, N, "solo", "write_ns", per_call::<N, R>("write"));
    say(name, N, "solo", "read_ns", per_call::<N, R>("read"));
    duo::<N, R>(name);
    paced::<N, R>(name);
}

fn count<const N: usize, R: Register<N>>(op: &str, calls: u64) {
    println!("# {}", batch(&R::make(), &mut R::Put::default(), &mut R::Get::default(), op, calls));
}

/// One process of a register of several writers and readers.
trait Process: Send {
    fn write(&mut self, item: &Record<3>);
    fn read(&mut self) -> Record<3>;
}

/// A process of a matrix of cells: it has the cells that it writes and those that it reads. What lies in them is a tag, a writer
/// and a record.
struct Member<R: Register<5>> {
    number: u64,
    own: Record<5>,
    row: Vec<(Arc<R>, R::Put)>,
    column: Vec<(Arc<R>, R::Get)>,
}

impl<R: Register<5>> Member<R> {
    fn seen(&mut self) -> Record<5> {
        let mut seen = self.own;
        for (cell, get) in &mut self.column {
            let answer = cell.read(get);
            if (answer[0], answer[1]) > (seen[0], seen[1]) {
                seen = answer;
            }
        }
        seen
    }
    fn hand_on(&mut self, item: Record<5>) {
        self.own = item;
        for (cell, put) in &mut self.row {
            cell.write(put, &item);
        }
    }
}

impl<R: Register<5>> Process for Member<R> {
    fn write(&mut self, item: &Record<3>) {
        let seen = self.seen();
        self.hand_on([seen[0] + 1, self.number, item[0], item[1], item[2]]);
    }
    fn read(&mut self) -> Record<3> {
        let seen = self.seen();
        self.hand_on(seen);
        [seen[2], seen[3], seen[4]]
    }
}

fn matrix<R: Register<5>>(n: usize) -> Vec<Member<R>> {
    let mut members: Vec<Member<R>> =
        (0..n).map(|i| Member { number: i as u64, own: [0; 5], row: vec![], column: vec![] }).collect();
    for writer in 0..n {
        for reader in (0..n).filter(|reader| *reader != writer) {
            let cell = Arc::new(R::make());
            members[writer].row.push((cell.clone(), R::Put::default()));
            members[reader].column.push((cell, R::Get::default()));
        }
    }
    members
}

macro_rules! locked_by_all {
    ($lock:ident, $write:ident, $read:ident) => {
        impl Process for Arc<$lock<Record<3>>> {
            fn write(&mut self, item: &Record<3>) {
                *$lock::$write(self).unwrap() = *item
            }
            fn read(&mut self) -> Record<3> {
                *$lock::$read(self).unwrap()
            }
        }
    };
}

locked_by_all!(Mutex, lock, lock);
locked_by_all!(RwLock, write, read);

fn mutex(n: usize) -> Vec<Arc<Mutex<Record<3>>>> {
    vec![Arc::new(Mutex::new([0; 3])); n]
}

fn rwlock(n: usize) -> Vec<Arc<RwLock<Record<3>>>> {
    vec![Arc::new(RwLock::new([0; 3])); n]
}

/// The processes call in turn.
fn in_turn<P: Process>(processes: &mut [P], op: &str, calls: u64) -> u64 {
    let (n, mut sum) = (processes.len() as u64, 0);
    for number in 0..calls {
        let process = &mut processes[(number % n) as usize];
        if op == "write" {
            process.write(black_box(&[number; 3]));
        } else if op == "round" {
            processes[0].write(black_box(&[number; 3]));
            processes[1..].iter_mut().for_each(|other| sum |= black_box(other.read())[0]);
        } else {
            sum |= black_box(process.read())[0];
        }
    }
    sum
}

fn per_turn<P: Process>(processes: &mut [P], op: &str) -> f64 {
    let time = |calls, processes: &mut [P]| {
        let start = Instant::now();
        black_box(in_turn(processes, op, calls));
        start.elapsed().as_nanos()
    };
    let mut size = 16;
    while size < 1 << 20 && time(size, processes) < 100_000 {
        size *= 2;
    }
    let mut times: Vec<f64> = (0..61).map(|_| time(size, processes) as f64 / size as f64).collect();
    times.sort_by(f64::total_cmp);
    times[30]
}

/// So many processes at once, each a write and a read in turn: millions of calls in a second, the torn records, and the sorted
/// times of each fourth read.
fn together<P: Process>(processes: Vec<P>) -> (f64, u64, Vec<u64>) {
    let (start, count) = (Instant::now(), processes.len() as u64);
    let now = move || start.elapsed().as_nanos() as u64;
    let (ready, over) = (Apart(AtomicU64::new(0)), Apart(AtomicU64::new(0)));
    let (mut speed, mut torn, mut all) = (0.0, 0, Vec::new());
    thread::scope(|s| {
        let (ready, over) = (&ready.0, &over.0);
        let task = |mut process: P| {
            s.spawn(move || {
                let (mut torn, mut number, mut times) = (0, 0u64, Vec::with_capacity(200_000));
                ready.fetch_add(1, SeqCst);
                while ready.load(SeqCst) < count {}
                let begun = now();
                while over.load(SeqCst) == 0 {
                    number += 1;
                    process.write(black_box(&[number; 3]));
                    let before = if number % 4 == 0 { now() } else { 0 };
                    let answer = black_box(process.read());
                    if number % 4 == 0 {
                        let after = now();
                        if times.len() < 200_000 {
                            times.push(after - before);
                        }
                        if after >= begun + BUDGET {
                            over.store(1, SeqCst);
                        }
                    }
                    torn += (answer[0] != answer[1] || answer[1] != answer[2]) as u64;
                }
                (2e3 * number as f64 / (now() - begun) as f64, torn, times)
            })
        };
        let tasks: Vec<_> = processes.into_iter().map(task).collect();
        for task in tasks {
            let (calls, wrong, times) = task.join().unwrap();
            speed += calls;
            torn += wrong;
            all.extend(times);
        }
    });
    all.sort();
    (speed, torn, all)
}

/// Eight processes, two in each of four threads, one of which calls at a beat, some microsecond apart; each makes a hundred reads to one write.
/// The sorted times of writes and of reads, and the torn records.
fn in_pairs<P: Process>(processes: Vec<P>) -> [Vec<u64>; 3] {
    let start = Instant::now();
    let now = move || start.elapsed().as_nanos() as u64;
    let ready = Apart(AtomicU64::new(0));
    let mut all = [vec![], vec![], vec![0]];
    thread::scope(|s| {
        let ready = &ready.0;
        let task = |number: u64, mut pair: Vec<P>| {
            s.spawn(move || {
                let (mut writes, mut reads, mut torn) = (Vec::with_capacity(1_000), Vec::with_capacity(40_000), 0);
                ready.fetch_add(1, SeqCst);
                while ready.load(SeqCst) < 4 {}
                let mut next = now();
                for turn in 37 * number..37 * number + 20_000 {
                    for process in &mut pair {
                        next = (next + 1_000 + 37 * number).max(now());
                        while now() < next {}
                        let before = now();
                        if turn % 101 == 0 {
                            process.write(black_box(&[turn; 3]));
                            writes.push(now() - before);
                        } else {
                            let answer = black_box(process.read());
                            reads.push(now() - before);
                            torn += (answer[0] != answer[1] || answer[1] != answer[2]) as u64;
                        }
                    }
                }
                [writes, reads, vec![torn]]
            })
        };
        let mut left = processes.into_iter();
        let tasks: Vec<_> = (0..4).map(|number| task(number, left.by_ref().take(2).collect())).collect();
        for task in tasks {
            let [writes, reads, torn] = task.join().unwrap();
            all[0].extend(writes);
            all[1].extend(reads);
            all[2][0] += torn[0];
        }
    });
    all.iter_mut().for_each(|times| times.sort());
    all
}

fn paced_several<P: Process>(name: &str, cost: u64, processes: Vec<P>) {
    let [writes, reads, torn] = in_pairs(processes);
    for (call, times) in [("read", reads), ("write", writes)] {
        let sum: u64 = times.iter().map(|time| time.saturating_sub(cost)).sum();
        say(name, 3, "n8_paced", &format!("{call}_mean_ns"), sum as f64 / times.len() as f64);
        for (share, metric) in [(5_000, "p50"), (9_900, "p99"), (9_990, "p99.9")] {
            let time = times[times.len() * share / 10_000].saturating_sub(cost);
            say(name, 3, "n8_paced", &format!("{call}_{metric}_ns"), time as f64);
        }
    }
    if torn[0] > 0 {
        say(name, 3, "n8_paced", "torn_or_backward", torn[0] as f64);
    }
}

fn several<P: Process>(name: &str, make: fn(usize) -> Vec<P>) {
    let start = Instant::now();
    let now = || start.elapsed().as_nanos() as u64;
    let cost = (0..20_000).map(|_| { let t = now(); now() - t }).min().unwrap();
    for n in [2, 4, 8, 16] {
        let mut processes = make(n);
        let mode = format!("n{n}_solo");
        say(name, 3, &mode, "write_ns", per_turn(&mut processes, "write"));
        say(name, 3, &mode, "read_ns", per_turn(&mut processes, "read"));
        say(name, 3, &mode, "round_ns", per_turn(&mut processes, "round"));
        for tasks in [2, 4].iter().copied().filter(|tasks| *tasks <= n) {
            let mode = format!("n{n}_t{tasks}");
            let (speed, torn, times) = together(make(n).into_iter().take(tasks).collect());
            say(name, 3, &mode, "total_mops", speed);
            for (share, metric) in [(5_000, "p50"), (9_900, "p99"), (9_990, "p99.9"), (9_999, "p99.99")] {
                let time = times.get(times.len() * share / 10_000).copied().unwrap_or(BUDGET).saturating_sub(cost);
                say(name, 3, &mode, &format!("read_{metric}_ns"), time as f64);
            }
            if torn > 0 {
                say(name, 3, &mode, "torn_or_backward", torn as f64);
            }
        }
    }
    paced_several(name, cost, make(8));
}

fn several_count(name: &str, n: usize, op: &str, calls: u64) {
    let sum = match name {
        "plain_board_four_slot" => in_turn(&mut matrix::<FourSlot<5>>(n), op, calls),
        "plain_board_triple" => in_turn(&mut matrix::<Triple<5>>(n), op, calls),
        "mutex_of_several" => in_turn(&mut mutex(n), op, calls),
        "rwlock_of_several" => in_turn(&mut rwlock(n), op, calls),
        _ => return eprintln!("no such register"),
    };
    println!("# {sum}");
}

macro_rules! each {
    ($word:expr, $bytes:expr, $do:ident $(, $more:expr)*) => {
        match ($word, $bytes) {
            ("plain_four_slot", 24) => $do::<3, FourSlot<3>>($($more),*),
            ("plain_four_slot", 256) => $do::<32, FourSlot<32>>($($more),*),
            ("plain_four_slot", 4096) => $do::<512, FourSlot<512>>($($more),*),
            ("plain_triple", 24) => $do::<3, Triple<3>>($($more),*),
            ("plain_triple", 256) => $do::<32, Triple<32>>($($more),*),
            ("plain_triple", 4096) => $do::<512, Triple<512>>($($more),*),
            ("std_mutex", 24) => $do::<3, Mutex<Record<3>>>($($more),*),
            ("std_mutex", 256) => $do::<32, Mutex<Record<32>>>($($more),*),
            ("std_mutex", 4096) => $do::<512, Mutex<Record<512>>>($($more),*),
            ("std_rwlock", 24) => $do::<3, RwLock<Record<3>>>($($more),*),
            ("std_rwlock", 256) => $do::<32, RwLock<Record<32>>>($($more),*),
            ("std_rwlock", 4096) => $do::<512, RwLock<Record<512>>>($($more),*),
            _ => eprintln!("no such register"),
        }
    };
}

fn list(names: [&str; 4], of_several: [&str; 4]) {
    for name in names {
        [24, 256, 4096].iter().for_each(|bytes| println!("{name},{bytes}"));
    }
    for name in of_several {
        [2, 4, 8, 16].iter().for_each(|n| println!("{name}:{n},24"));
    }
}

fn run(names: [&str; 4]) {
    for name in names {
        [24, 256, 4096].iter().for_each(|bytes| each!(name, *bytes, one, name));
    }
    several("plain_board_four_slot", matrix::<FourSlot<5>>);
    several("plain_board_triple", matrix::<Triple<5>>);
    several("mutex_of_several", mutex);
    several("rwlock_of_several", rwlock);
}

fn main() {
    let words: Vec<String> = std::env::args().collect();
    let words: Vec<&str> = words.iter().map(String::as_str).collect();
    let names = ["plain_four_slot", "plain_triple", "std_mutex", "std_rwlock"];
    match words[..] {
        [_, "list"] => list(names, ["plain_board_four_slot", "plain_board_triple", "mutex_of_several", "rwlock_of_several"]),
        [_, "run"] => run(names),
        [_, "count", name, bytes, op, calls] => match name.split_once(':') {
            Some((kind, n)) => several_count(kind, n.parse().unwrap_or(2), op, calls.parse().unwrap_or(0)),
            None => each!(name, bytes.parse::<u64>().unwrap_or(0), count, op, calls.parse().unwrap_or(0)),
        },
        _ => eprintln!("plain list | run | count IMPL BYTES OP N"),
    }
}
