//! A recorder: what threads do on one register, or on anything that is to be one, written as JSON Lines for `fsr order`.
//!
//! Each thread has a [`Log`] of its own, whose memory is taken, and touched, before the threads begin. It is told what a call is about
//! to write, or what it gave; [`merge`] writes the logs of all threads when they are joined.
//!
//! ```
//! use nidzaru::log::{merge, pace, Log, Record};
//! use std::sync::atomic::{AtomicU64, Ordering::{Acquire, Release}};
//!
//! let shared = AtomicU64::new(0);
//! let mut logs = [Log::new(0, 1000)?, Log::new(1, 1000)?];
//! pace(&mut logs, 200);
//! let [writes, reads] = &mut logs;
//! std::thread::scope(|scope| {
//!     scope.spawn(|| {
//!         for n in 1..=1000 {
//!             writes.write(Record::of_words(&[n]), || shared.store(n, Release));
//!         }
//!     });
//!     scope.spawn(|| {
//!         for _ in 0..1000 {
//!             reads.read(|| shared.load(Acquire), |n| Record::of_words(&[*n]));
//!         }
//!     });
//! });
//! let mut text = Vec::new();
//! assert_eq!(merge(&mut text, &logs, Record::of_words(&[0]), None)?, 2000);
//! # Ok::<(), Box<dyn std::error::Error>>(())
//! ```
//!
//! # Pace
//!
//! If one thread ends before another begins, a log shows nothing. So [`pace`] the logs before the threads begin: each thread waits, before it
//! begins an operation, while it is so many ahead of the slowest. It looks by relaxed loads alone, which order nothing between the calls.
//!
//! # While the threads run
//!
//! [`live`] logs are written while their threads run: [`Live::drain`] writes what they have ended by now, and a floor, below which nothing more
//! begins. `fsr watch` reads that as it comes, and tells at once where it is lost. No thread waits. The floor is the least begin of what is
//! under way. A thread that is between two calls holds it at its last end, until it [pauses](Log::pause); one that hasn't begun, has left or
//! whose log is full doesn't hold it. A call that hangs or panics holds it at its begin, until its thread is [given up](Live::give_up);
//! behind a read that panicked, also until the thread pauses, leaves or begins another. No paced thread waits for one that was given up.
//!
//! # Calls that panic
//!
//! A read that panics is left out, and its thread may go on. A write that panics may have taken effect: it is written without an end, and
//! is the last of its log, as operations of one thread don't overlap. If its thread begins another operation all the same, the logs aren't
//! merged, and drains have a fault: [`MergeError::Unpaired`]. So let it go on with a log of another number. The same holds where the
//! closure panics that says if a write took effect, or what a refused one saw.
//!
//! # Records
//!
//! A record is a number and a hash of all data. The number stands in the data; no two writes have the same, and none has the opening's. So
//! data of two writes that were mixed show as a record that nobody wrote (unless two hashes are equal by chance). The first [`WORDS`] words
//! of 8 bytes are kept too, and written as `"words"` beside the record: they tell of which writes a torn record is, which
//! `tools/convert/explain.py` says. No judge looks at them.
//!
//! # Stamps
//!
//! A begin is never taken late, nor an end early, so an interval may be longer than its call and is never shorter. On x86-64 stamps
//! are the processor's counter, which has to run together on all processors (`constant_tsc` and `nonstop_tsc` in `/proc/cpuinfo`);
//! on 64-bit ARM they are the generic counter, one for all processors, tried under emulation alone; elsewhere they are nanoseconds of
//! [`std::time::Instant`], which wasn't tried. A begin waits until the clock has left the thread's last end, so operations of one thread
//! never touch.
//!
//! # The fence
//!
//! When a call returns, what it stored may still wait in the store buffer of its processor. With an end stamped then, others read the
//! old record after that end, and a correct register of release stores and acquire loads is `crossed` or `stale`: by the clock it isn't
//! linearizable. So a full fence stands before the end's stamp, and the log is of the call and the fence together. [`Log::unfenced`]
//! leaves it out and asks the stronger question.

use std::fmt;
use std::io::{self, Write};
use std::num::NonZeroU64;
use std::sync::atomic::{
    AtomicBool, AtomicU64,
    Ordering::{Acquire, Relaxed, Release},
};
use std::sync::Arc;
use std::{hint, thread};

/// The stamps.
#[cfg(target_arch = "x86_64")]
#[allow(unsafe_code)]
mod clock {
    use std::arch::x86_64::{__rdtscp, _mm_lfence, _mm_mfence, _rdtsc};

    /// A moment; nothing that follows has been done by it.
    #[inline]
    pub fn begin() -> u64 {
        // SAFETY: each x86-64 processor has both instructions.
        unsafe {
            let now = _rdtsc();
            _mm_lfence();
            now
        }
    }

    /// A moment by which all that went before has been done, and, with the fence, can be seen by all.
    #[inline]
    pub fn end(fenced: bool) -> u64 {
        let mut processor = 0;
        std::sync::atomic::compiler_fence(std::sync::atomic::Ordering::SeqCst);
        // SAFETY: each x86-64 processor has `mfence`; one from before `rdtscp` (2008) would end the program here.
        unsafe {
            if fenced {
                _mm_mfence();
            }
            __rdtscp(&mut processor)
        }
    }
}

#[cfg(target_arch = "aarch64")]
#[allow(unsafe_code)]
mod clock {
    use std::arch::asm;

    /// A moment; nothing that follows has been done by it.
    #[inline]
    pub fn begin() -> u64 {
        let now;
        // SAFETY: Linux lets each program read this counter.
        unsafe { asm!("mrs {now}, cntvct_el0", "isb", now = out(reg) now, options(nostack, preserves_flags)) };
        now
    }

    /// A moment by which all that went before has been done, and, with the fence, can be seen by all. (A `dmb` orders accesses alone, and
    /// a look at the counter is none.)
    #[inline]
    pub fn end(fenced: bool) -> u64 {
        let now;
        // SAFETY: as above.
        unsafe {
            if fenced {
                asm!("dsb ish", options(nostack, preserves_flags));
            } else {
                asm!("dsb ishld", options(nostack, preserves_flags));
            }
            asm!("isb", "mrs {now}, cntvct_el0", now = out(reg) now, options(nostack, preserves_flags));
        }
        now
    }
}

#[cfg(not(any(target_arch = "x86_64", target_arch = "aarch64")))]
mod clock {
    use std::sync::atomic::{compiler_fence, fence, Ordering::SeqCst};
    use std::sync::OnceLock;
    use std::time::Instant;

    static START: OnceLock<Instant> = OnceLock::new();

    fn now() -> u64 {
        START.get_or_init(Instant::now).elapsed().as_nanos() as u64 + 1
    }

    pub fn begin() -> u64 {
        let now = now();
        fence(SeqCst);
        now
    }

    pub fn end(fenced: bool) -> u64 {
        if fenced {
            fence(SeqCst);
        }
        compiler_fence(SeqCst);
        now()
    }
}

/// How many words of a record are kept beside its hash.
pub const WORDS: usize = 8;

/// What was written or given: the number that stands in the data, a hash of all of them, and the first words.
#[derive(Clone, Copy, Debug, Default, PartialEq, Eq, Hash)]
pub struct Record {
    /// The writes of a log have different numbers.
    pub number: u64,
    /// Of two that differ in one word alone the hashes differ.
    pub hash: u64,
    kept: usize,
    words: [u64; WORDS],
}

impl Record {
    /// The record of data that are words, of which the first is their number.
    pub fn of_words(words: &[u64]) -> Record {
        Record::of(words.first().copied().unwrap_or(0), 8 * words.len(), words.iter().copied())
    }

    /// The record of data that are bytes. Of words in their order in memory it is the same as [`of_words`](Record::of_words) on x86-64 and ARM.
    pub fn of_bytes(number: u64, bytes: &[u8]) -> Record {
        let words = bytes.chunks(8).map(|chunk| {
            let mut word = [0; 8];
            word[..chunk.len()].copy_from_slice(chunk);
            u64::from_le_bytes(word)
        });
        Record::of(number, bytes.len(), words)
    }

    /// The first words of the data, at most [`WORDS`].
    pub fn words(&self) -> &[u64] {
        &self.words[..self.kept]
    }

    fn of(number: u64, size: usize, words: impl Iterator<Item = u64>) -> Record {
        let mut record = Record { number, hash: 0x9e37_79b9_7f4a_7c15 ^ size as u64, ..Record::default() };
        words.for_each(|word| record.take(word));
        record
    }

    fn take(&mut self, word: u64) {
        let mixed = (self.hash ^ word).wrapping_mul(0xff51_afd7_ed55_8ccd);
        self.hash = mixed ^ (mixed >> 32);
        if let Some(next) = self.words.get_mut(self.kept) {
            *next = word;
            self.kept += 1;
        }
    }

    /// Writes it under its key, and its words.
    fn put(&self, to: &mut impl Write, key: &str) -> io::Result<()> {
        write!(to, ",\"{key}\":[{},{}]", self.number, self.hash)?;
        for (at, word) in self.words().iter().enumerate() {
            write!(to, "{}{word}", if at == 0 { ",\"words\":[" } else { "," })?;
        }
        to.write_all(if self.kept == 0 { b"" } else { b"]" })
    }
}

/// Memory for a log was refused.
#[derive(Clone, Copy, Debug, PartialEq, Eq)]
pub struct NoRoom;

impl fmt::Display for NoRoom {
    fn fmt(&self, to: &mut fmt::Formatter<'_>) -> fmt::Result {
        to.write_str("memory for a log was refused")
    }
}

impl std::error::Error for NoRoom {}

/// Why logs weren't merged. Of the first three nothing is written.
#[derive(Debug)]
#[non_exhaustive]
pub enum MergeError {
    /// The log of this thread had no room for so many of its operations. A write that is missing would condemn whoever read it.
    Full {
        /// The thread's number.
        who: u64,
        /// How many operations it lost.
        lost: u64,
    },
    /// A write was refused, and no limit was told.
    NoLimit,
    /// A write of this thread panicked, and the thread began another operation. Nothing may follow that write, which has no end.
    Unpaired {
        /// The thread's number.
        who: u64,
    },
    /// This thread was given up, and began another operation, or a write that no drain had seen.
    CameBack {
        /// The thread's number.
        who: u64,
    },
    /// The lines weren't written.
    Stream(io::Error),
}

impl fmt::Display for MergeError {
    fn fmt(&self, to: &mut fmt::Formatter<'_>) -> fmt::Result {
        match self {
            MergeError::Full { who, lost } => write!(to, "the log of thread {who} had no room for {lost} operations"),
            MergeError::CameBack { who } => write!(to, "thread {who} was given up, and began another operation"),
            MergeError::Unpaired { who } => write!(to, "a write of thread {who} panicked, and the thread began another operation"),
            MergeError::NoLimit => to.write_str("a write was refused, and no limit was told"),
            MergeError::Stream(error) => write!(to, "the lines weren't written: {error}"),
        }
    }
}

impl std::error::Error for MergeError {}

impl From<io::Error> for MergeError {
    fn from(error: io::Error) -> MergeError {
        MergeError::Stream(error)
    }
}

#[derive(Clone, Copy, Debug, PartialEq, Eq)]
enum Kind {
    Write,
    Read,
    Refused,
}

impl fmt::Display for Kind {
    fn fmt(&self, to: &mut fmt::Formatter<'_>) -> fmt::Result {
        to.write_str(match self {
            Kind::Write => "write",
            Kind::Read => "read",
            Kind::Refused => "refused",
        })
    }
}

/// An operation that ended.
#[derive(Clone, Copy, Debug)]
struct Operation {
    kind: Kind,
    begin: u64,
    end: u64,
    record: Record,
}

/// A line of a merged log; one without an end is of a write that never returned.
struct Line {
    kind: Kind,
    begin: u64,
    end: Option<u64>,
    record: Record,
}

impl Line {
    /// Writes it, with times from this one on.
    fn put(&self, to: &mut impl Write, who: u64, zero: u64) -> io::Result<()> {
        write!(to, "{{\"who\":{who},\"kind\":\"{}\",\"begin\":{},\"end\":", self.kind, self.begin - zero)?;
        match self.end {
            Some(end) => write!(to, "{}", end - zero)?,
            None => write!(to, "null")?,
        }
        self.record.put(to, "record")?;
        writeln!(to, "}}")
    }
}

/// What one thread did.
#[derive(Debug)]
pub struct Log {
    who: u64,
    operations: Vec<Operation>,
    room: usize,
    lost: u64,
    last_end: u64,
    fenced: bool,
    /// A write that has begun, and when. One that panicked stays.
    under_way: Option<(u64, Record)>,
    /// Whether an operation began behind a write that panicked.
    unpaired: bool,
    turn: Arc<Turn>,
    pace: Option<Pace>,
    feed: Option<Arc<Feed>>,
}

/// How many operations of a thread ended, or [`LEFT`], and whether it was given up. Threads share no cache line that they store to.
#[derive(Debug, Default)]
#[repr(align(128))]
struct Turn(AtomicU64, AtomicBool);

const LEFT: u64 = u64::MAX;

/// The turns of all threads, and which is this one's.
#[derive(Clone, Debug)]
struct Pace {
    turns: Arc<[Arc<Turn>]>,
    me: usize,
    ahead: u64,
    /// The turn before which nobody has to be looked for.
    reach: u64,
}

impl Pace {
    fn turn(&self) -> &AtomicU64 {
        &self.turns[self.me].0
    }

    /// The least turn of this thread, which is told, and of all that aren't given up.
    fn slowest(&self, turn: u64) -> u64 {
        let others = self.turns.iter().filter(|it| !it.1.load(Relaxed));
        others.fold(turn, |least, it| least.min(it.0.load(Relaxed)))
    }

    /// Waits for the slowest, and then until it is behind by half as many, so that both run at once for a while.
    #[inline]
    fn keep(&mut self, wait: impl FnMut()) {
        let turn = self.turn().load(Relaxed);
        if turn >= self.reach && turn != LEFT {
            self.await_others(turn, wait);
        }
    }

    #[cold]
    #[inline(never)]
    fn await_others(&mut self, turn: u64, mut wait: impl FnMut()) {
        loop {
            self.reach = self.slowest(turn) + self.ahead;
            if self.reach > turn + self.ahead / 2 {
                return;
            }
            wait();
        }
    }
}

/// A thread holds up nobody once its call panicked, or what tells of that.
struct LeavesByPanic<'a>(Option<&'a Pace>);

impl Drop for LeavesByPanic<'_> {
    #[inline]
    fn drop(&mut self) {
        if let Some(pace) = self.0 {
            if thread::panicking() {
                pace.turn().store(LEFT, Relaxed);
            }
        }
    }
}

/// Paces the threads of these logs, none of which has begun: none begins an operation while another one is behind it by so many. A thread whose
/// log is full, whose call panics, or that was [given up](Live::give_up), holds up nobody; one that stops before [leaves](Log::leave). With 0
/// nobody waits.
pub fn pace(logs: &mut [Log], ahead: u64) {
    let turns: Arc<[Arc<Turn>]> = logs.iter().map(|log| Arc::clone(&log.turn)).collect();
    for (me, log) in logs.iter_mut().enumerate() {
        log.turn.0.store(if log.is_full() { LEFT } else { 0 }, Relaxed);
        log.pace = (ahead > 0).then(|| Pace { turns: Arc::clone(&turns), me, ahead, reach: ahead });
    }
}

impl Log {
    /// A log of the thread `who` with room for so many operations. Threads have different numbers.
    pub fn new(who: u64, room: usize) -> Result<Log, NoRoom> {
        let mut operations = Vec::new();
        operations.try_reserve_exact(room).map_err(|_| NoRoom)?;
        // (every page is there before the threads begin)
        operations.resize(room, Operation { kind: Kind::Read, begin: 1, end: 1, record: Record::default() });
        operations.clear();
        let turn = Arc::default();
        Ok(Log {
            who,
            operations,
            room,
            lost: 0,
            last_end: 0,
            fenced: true,
            under_way: None,
            unpaired: false,
            turn,
            pace: None,
            feed: None,
        })
    }

    /// The same without the fence before the stamp of an end.
    pub fn unfenced(self) -> Log {
        Log { fenced: false, ..self }
    }

    /// The thread records no more, and no paced one waits for it.
    pub fn leave(&self) {
        if let Some(pace) = &self.pace {
            pace.turn().store(LEFT, Relaxed);
        }
        self.pause();
    }

    /// The thread may begin nothing for long. Until it does it doesn't hold the floor of a [`Live`] log, unless its last write panicked.
    pub fn pause(&self) {
        if let (Some(feed), None) = (&self.feed, &self.under_way) {
            feed.idle.store(true, Release);
        }
    }

    /// Whether the next operation has no room.
    pub fn is_full(&self) -> bool {
        self.operations.len() == self.room
    }

    /// Records a call that writes. A call that never returns, or panics, is written without an end, and nothing may follow it in this log.
    #[inline]
    pub fn write<T>(&mut self, record: Record, call: impl FnOnce() -> T) -> T {
        let (given, (), done) = self.run_write(record, call, |_| ());
        self.put(done);
        given
    }

    /// Records a call that writes, or refuses to with an error; `saw` is the record that the refused write saw last.
    #[inline]
    pub fn try_write<T, E>(&mut self, record: Record, call: impl FnOnce() -> Result<T, E>, saw: impl FnOnce(&E) -> Record) -> Result<T, E> {
        let (given, saw, done) = self.run_write(record, call, |given| given.as_ref().err().map(saw));
        self.put(saw.map_or(done, |record| Operation { kind: Kind::Refused, record, ..done }));
        given
    }

    /// Records a call that writes, or does nothing, such as a push onto a full queue or a compare-and-set that failed: then it is left out.
    #[inline]
    pub fn write_if<T>(&mut self, record: Record, call: impl FnOnce() -> T, took_effect: impl FnOnce(&T) -> bool) -> T {
        let (given, took_effect, done) = self.run_write(record, call, took_effect);
        if took_effect {
            self.put(done);
        } else {
            self.rest();
        }
        given
    }

    /// Records a call that reads; `record` is that of what it gave, and is computed after the stamp of the end. A call that panics is left
    /// out, and another may follow it.
    #[inline]
    pub fn read<T>(&mut self, call: impl FnOnce() -> T, record: impl FnOnce(&T) -> Record) -> T {
        let begin = self.begin();
        let leaves = LeavesByPanic(self.pace.as_ref());
        let given = call();
        let end = clock::end(self.fenced);
        let record = record(&given);
        drop(leaves);
        self.put(Operation { kind: Kind::Read, begin, end, record });
        given
    }

    /// Runs a call that writes, and what tells of it. Answers what they gave, and the write.
    fn run_write<T, U>(&mut self, record: Record, call: impl FnOnce() -> T, tell: impl FnOnce(&T) -> U) -> (T, U, Operation) {
        let begin = self.begin();
        self.under_way = Some((begin, record));
        if let Some(feed) = &self.feed {
            feed.begin_write(begin, record);
        }
        let leaves = LeavesByPanic(self.pace.as_ref());
        let given = call();
        let end = clock::end(self.fenced);
        let told = tell(&given);
        drop(leaves);
        (given, told, Operation { kind: Kind::Write, begin, end, record })
    }

    #[inline]
    fn begin(&mut self) -> u64 {
        if let Some(pace) = &mut self.pace {
            pace.keep(wait_a_little());
        }
        if let Some(feed) = &self.feed {
            if feed.idle.load(Relaxed) {
                self.last_end = feed.wake();
            }
        }
        if self.under_way.is_some() {
            self.follow_panic();
        }
        let begin = moment_after(self.last_end, clock::begin);
        if let Some(feed) = &self.feed {
            feed.begin.store(begin, Release);
        }
        begin
    }

    /// Whoever sees the begin that follows sees this.
    #[cold]
    #[inline(never)]
    fn follow_panic(&mut self) {
        self.unpaired = true;
        if let Some(feed) = &self.feed {
            feed.unpaired.store(true, Relaxed);
        }
    }

    fn put(&mut self, operation: Operation) {
        self.last_end = operation.end;
        if self.is_full() {
            self.lost += 1;
        } else {
            self.operations.push(operation);
        }
        if let Some(feed) = &self.feed {
            feed.put(operation);
        }
        self.rest();
    }

    /// Nothing is under way any more.
    fn rest(&mut self) {
        self.under_way = None;
        if let Some(feed) = &self.feed {
            feed.writing.store(0, Release);
            if self.is_full() {
                self.pause();
            }
        }
        self.take_turn();
    }

    fn take_turn(&self) {
        if let Some(pace) = &self.pace {
            let turn = pace.turn().load(Relaxed);
            pace.turn().store(if turn == LEFT || self.is_full() { LEFT } else { turn + 1 }, Relaxed);
        }
    }

    /// The line at a place: the operations that ended, and behind them a write that is under way.
    fn line(&self, at: usize) -> Option<Line> {
        match self.operations.get(at) {
            Some(&Operation { kind, begin, end, record }) => Some(Line { kind, begin, end: Some(end), record }),
            None if at == self.operations.len() => {
                self.under_way.map(|(begin, record)| Line { kind: Kind::Write, begin, end: None, record })
            }
            None => None,
        }
    }

    fn fault(&self, limit: Option<NonZeroU64>) -> Option<MergeError> {
        if self.unpaired {
            return Some(MergeError::Unpaired { who: self.who });
        } else if self.lost > 0 {
            return Some(MergeError::Full { who: self.who, lost: self.lost });
        }
        let refused = limit.is_none() && self.operations.iter().any(|it| it.kind == Kind::Refused);
        refused.then_some(MergeError::NoLimit)
    }
}

/// Words of an operation that one thread stores and another loads.
#[derive(Debug, Default)]
struct Slot([AtomicU64; 6 + WORDS]);

impl Slot {
    #[inline]
    fn store(&self, it: &Operation) {
        let Record { number, hash, kept, words } = &it.record;
        let all = [it.kind as u64, it.begin, it.end, *number, *hash, *kept as u64];
        self.0.iter().zip(all.iter().chain(words)).for_each(|(to, word)| to.store(*word, Relaxed));
    }

    fn load(&self) -> Operation {
        let all: [u64; 6 + WORDS] = std::array::from_fn(|at| self.0[at].load(Relaxed));
        let kind = [Kind::Write, Kind::Read, Kind::Refused][all[0] as usize];
        let words = std::array::from_fn(|at| all[6 + at]);
        Operation { kind, begin: all[1], end: all[2], record: Record { number: all[3], hash: all[4], kept: all[5] as usize, words } }
    }
}

/// What one thread did, for one that drains. The operations are stored before their count, and the count before the next begin.
#[derive(Debug, Default)]
#[repr(align(128))]
struct Feed {
    who: u64,
    turn: Arc<Turn>,
    slots: Box<[Slot]>,
    count: AtomicU64,
    begin: AtomicU64,
    /// The place behind that of a write that is under way, or 0.
    writing: AtomicU64,
    under_way: Slot,
    /// Whether the thread holds no floor: its next begin shows first that it does.
    idle: AtomicBool,
    lost: AtomicU64,
    refused: AtomicBool,
    unpaired: AtomicBool,
}

impl Feed {
    fn new(log: &Log) -> Feed {
        let slots = (0..log.room).map(|_| Slot::default()).collect();
        Feed { who: log.who, turn: Arc::clone(&log.turn), slots, idle: AtomicBool::new(true), ..Feed::default() }
    }

    /// The thread begins again, after this moment. Whoever still sees it idle has looked at the clock before.
    #[cold]
    #[inline(never)]
    fn wake(&self) -> u64 {
        self.idle.store(false, Relaxed);
        clock::end(true)
    }

    fn begin_write(&self, begin: u64, record: Record) {
        self.under_way.store(&Operation { kind: Kind::Write, begin, end: begin, record });
        self.writing.store(self.count.load(Relaxed) + 1, Release);
    }

    fn put(&self, operation: Operation) {
        let count = self.count.load(Relaxed);
        let Some(slot) = self.slots.get(count as usize) else {
            self.lost.store(self.lost.load(Relaxed) + 1, Release);
            return;
        };
        slot.store(&operation);
        if operation.kind == Kind::Refused {
            self.refused.store(true, Relaxed);
        }
        self.count.store(count + 1, Release);
    }
}

/// What was seen of a thread's feed.
#[derive(Clone, Copy, Debug, Default)]
struct Seen {
    merged: u64,
    counted: u64,
    written: u64,
    /// Below this moment nothing begins that isn't counted.
    floor: u64,
    /// What the thread had begun last when it was given up, whether no drain came since, and whether its write is written without an end.
    given_up: Option<u64>,
    is_new: bool,
    is_open: bool,
    under_way: bool,
}

impl Seen {
    /// Looks what a thread has ended, and below which moment it begins nothing more. Idle, it begins after now; under way, at that begin; else
    /// after its last end. The count is looked at last: what isn't counted hadn't begun before the begin that was seen, or is that.
    fn look(&mut self, feed: &Feed, now: u64) {
        let idle = feed.idle.load(Acquire);
        let begin = feed.begin.load(Acquire);
        let writing = feed.writing.load(Acquire);
        self.counted = feed.count.load(Acquire);
        self.under_way = self.given_up.is_some() && !self.is_open && writing == self.counted + 1;
        let behind = self.counted.checked_sub(1).map_or(0, |last| feed.slots[last as usize].load().end + 1);
        let floor = if idle || self.given_up.is_some() { now } else { begin.max(behind) };
        self.floor = self.floor.max(floor);
    }

    /// The next line, if there is one: behind the operations that ended a write that is given up. If that ends after all it is left out.
    fn next(&mut self, feed: &Feed) -> Option<Line> {
        while self.merged < self.counted {
            let Operation { kind, begin, end, record } = feed.slots[self.merged as usize].load();
            if self.is_new || self.given_up != Some(begin) {
                return Some(Line { kind, begin, end: Some(end), record });
            }
            self.merged += 1;
        }
        let Operation { kind, begin, record, .. } = feed.under_way.load();
        self.under_way.then_some(Line { kind, begin, end: None, record })
    }

    /// The next line is written.
    fn pass(&mut self) {
        self.written += 1;
        if self.merged < self.counted {
            self.merged += 1;
        } else {
            (self.under_way, self.is_open) = (false, true);
        }
    }

    /// Whether a thread that was given up began another operation, or a write that the drain behind that didn't see, as the thread stood
    /// between the two stores of its begin.
    fn came_back(&self, feed: &Feed) -> bool {
        let Some(last) = self.given_up else { return false };
        let wrote = || self.merged < self.counted && feed.slots[self.merged as usize].load().kind != Kind::Read;
        last != feed.begin.load(Acquire) || (!self.is_new && !self.is_open && (self.under_way || wrote()))
    }

    fn fault(&self, feed: &Feed) -> Option<MergeError> {
        let (who, lost) = (feed.who, feed.lost.load(Acquire));
        if self.came_back(feed) {
            return Some(MergeError::CameBack { who });
        } else if feed.unpaired.load(Relaxed) {
            return Some(MergeError::Unpaired { who });
        } else if lost > 0 {
            return Some(MergeError::Full { who, lost });
        }
        feed.refused.load(Acquire).then_some(MergeError::NoLimit)
    }
}

/// Logs that are written while their threads run.
#[derive(Debug)]
pub struct Live {
    feeds: Vec<Arc<Feed>>,
    seen: Vec<Seen>,
    floor: u64,
}

/// Logs that are written while their threads, none of which has begun, run; they take their memory again. The [`header`] is written first.
pub fn live(logs: &mut [Log]) -> Live {
    let feeds: Vec<_> = logs.iter().map(|log| Arc::new(Feed::new(log))).collect();
    for (log, feed) in logs.iter_mut().zip(&feeds) {
        log.feed = Some(Arc::clone(feed));
    }
    Live { seen: vec![Seen::default(); feeds.len()], feeds, floor: 0 }
}

impl Live {
    /// Writes what all threads have ended since the last time, and floors: one at most every 16 lines. Times are the clock's own. After a
    /// fault the last line is of kind `fault`, which every judge refuses.
    pub fn drain(&mut self, to: &mut impl Write) -> Result<(), MergeError> {
        let now = clock::begin();
        self.seen.iter_mut().zip(&self.feeds).for_each(|(seen, feed)| seen.look(feed, now));
        if let Some(fault) = self.seen.iter().zip(&self.feeds).find_map(|(seen, feed)| seen.fault(feed)) {
            writeln!(to, "{{\"kind\":\"fault\"}}")?;
            to.flush()?;
            return Err(fault);
        }
        self.put_counted(to)?;
        Ok(to.flush()?)
    }

    /// Writes what is left, the writes that are under way without an end, and the number of all lines, which is the answer. The threads have
    /// ended, or stand still for good.
    pub fn finish(mut self, to: &mut impl Write) -> Result<u64, MergeError> {
        (0..self.feeds.len()).for_each(|at| self.give_up_at(at));
        self.drain(to)?;
        let count = self.seen.iter().map(|seen| seen.written).sum();
        put_end(to, count)?;
        Ok(count)
    }

    /// The thread that holds the floor, and the floor, as the last drain found them.
    pub fn holder(&self) -> Option<(u64, u64)> {
        let least = self.seen.iter().zip(&self.feeds).min_by_key(|(seen, _)| seen.floor)?;
        Some((least.1.who, least.0.floor))
    }

    /// A thread that never comes back holds the floor no more, and no paced one waits for it. The next drain writes its write without an end.
    /// If it begins another operation, drains have a fault.
    pub fn give_up(&mut self, who: u64) {
        if let Some(at) = self.feeds.iter().position(|feed| feed.who == who) {
            self.give_up_at(at);
        }
    }

    fn give_up_at(&mut self, at: usize) {
        let seen = &mut self.seen[at];
        if seen.given_up.is_none() {
            (seen.given_up, seen.is_new) = (Some(self.feeds[at].begin.load(Acquire)), true);
            self.feeds[at].turn.1.store(true, Relaxed);
        }
    }

    /// Of the next lines the one that began first, with the place of its thread.
    fn first(&mut self) -> Option<(usize, Line)> {
        let next = self.seen.iter_mut().zip(&self.feeds).enumerate();
        next.filter_map(|(at, (seen, feed))| Some((at, seen.next(feed)?))).min_by_key(|(_, line)| line.begin)
    }

    fn put_counted(&mut self, to: &mut impl Write) -> io::Result<()> {
        let Some((who, last)) = self.holder() else { return Ok(()) };
        let mut lines = 0;
        while let Some((at, line)) = self.first() {
            lines += 1;
            if lines % 16 == 0 && line.begin < last {
                self.put_floor(to, line.begin, self.feeds[at].who)?;
            }
            line.put(to, self.feeds[at].who, 0)?;
            self.seen[at].pass();
        }
        self.seen.iter_mut().for_each(|seen| seen.is_new = false);
        self.put_floor(to, last, who)
    }

    fn put_floor(&mut self, to: &mut impl Write, floor: u64, who: u64) -> io::Result<()> {
        if floor <= self.floor {
            return Ok(());
        }
        self.floor = floor;
        writeln!(to, "{{\"kind\":\"floor\",\"begin\":{floor},\"who\":{who}}}")
    }
}

/// A way to wait. A thread that gave its processor away each time would seldom run while another one does.
fn wait_a_little() -> impl FnMut() {
    let mut tries = 0;
    move || {
        tries += 1;
        if tries % 2000 == 0 {
            thread::yield_now();
        } else {
            hint::spin_loop();
        }
    }
}

/// A moment of the clock after the last end.
#[inline]
fn moment_after(last_end: u64, mut clock: impl FnMut() -> u64) -> u64 {
    loop {
        let now = clock();
        if now > last_end {
            return now;
        }
    }
}

/// Writes the header of a log. `limit` is the number of writes before the first that may be refused.
pub fn header(to: &mut impl Write, opening: Record, limit: Option<NonZeroU64>) -> io::Result<()> {
    write!(to, "{{\"kind\":\"lines\"")?;
    opening.put(to, "opening")?;
    match limit {
        Some(limit) => writeln!(to, ",\"limit\":{limit}}}"),
        None => writeln!(to, "}}"),
    }
}

/// Writes the lines of all logs alone, by beginning and with the clock's own times, and answers how many there are. So `cat` joins a header and
/// the lines of several processes of a machine, whose threads all have different numbers. (Elsewhere than on x86-64 and 64-bit ARM each process has a clock
/// of its own.)
pub fn lines(to: &mut impl Write, logs: &[Log]) -> Result<u64, MergeError> {
    if let Some(error) = logs.iter().find_map(|log| log.fault(Some(NonZeroU64::MIN))) {
        return Err(error);
    }
    let count = put_all(to, logs, 0)?;
    to.flush()?;
    Ok(count)
}

/// Writes all logs as JSON Lines by beginning, the first of which is moment 0, and behind them their number, which is the answer.
/// `limit` is that of the [`header`].
pub fn merge(to: &mut impl Write, logs: &[Log], opening: Record, limit: Option<NonZeroU64>) -> Result<u64, MergeError> {
    if let Some(error) = logs.iter().find_map(|log| log.fault(limit)) {
        return Err(error);
    }
    header(to, opening, limit)?;
    let first = first_of(logs, &vec![0; logs.len()]);
    let count = put_all(to, logs, first.map_or(0, |(_, line)| line.begin))?;
    put_end(to, count)?;
    Ok(count)
}

fn put_end(to: &mut impl Write, count: u64) -> io::Result<()> {
    writeln!(to, "{{\"kind\":\"done\",\"ops\":{count}}}")?;
    to.flush()
}

/// Writes the operations of all logs by beginning, with times from this one on, and answers how many there are.
fn put_all(to: &mut impl Write, logs: &[Log], zero: u64) -> io::Result<u64> {
    let (mut places, mut count) = (vec![0; logs.len()], 0);
    while let Some((at, line)) = first_of(logs, &places) {
        line.put(to, logs[at].who, zero)?;
        places[at] += 1;
        count += 1;
    }
    Ok(count)
}

/// Of the next lines of all logs the one that began first, with the place of its log.
fn first_of(logs: &[Log], places: &[usize]) -> Option<(usize, Line)> {
    let next = logs.iter().zip(places).enumerate();
    next.filter_map(|(at, (log, place))| Some((at, log.line(*place)?))).min_by_key(|(_, line)| line.begin)
}

#[cfg(test)]
mod tests {
    use super::*;

    const OPENING: Record = bare(0, 9);
    const FIRST: Record = bare(1, 9);
    const SECOND: Record = bare(2, 9);

    /// A record without words.
    const fn bare(number: u64, hash: u64) -> Record {
        Record { number, hash, kept: 0, words: [0; WORDS] }
    }

    fn text(logs: &[Log], limit: Option<NonZeroU64>) -> Result<String, MergeError> {
        let mut written = Vec::new();
        merge(&mut written, logs, OPENING, limit).map_err(|error| {
            assert!(written.is_empty(), "something was written");
            error
        })?;
        Ok(String::from_utf8(written).unwrap())
    }

    /// Sets the times of an operation, so that the text is known.
    fn set_times(log: &mut Log, at: usize, begin: u64, end: u64) {
        log.operations[at] = Operation { begin, end, ..log.operations[at] };
    }

    #[test]
    fn lines_stand_by_beginning() {
        let (mut one, mut two) = (Log::new(3, 4).unwrap(), Log::new(5, 4).unwrap());
        one.write(FIRST, || ());
        two.read(|| OPENING, |it| *it);
        assert_eq!(two.try_write(SECOND, || Err::<(), _>(FIRST), |it| *it), Err(FIRST));
        set_times(&mut one, 0, 102, 109);
        set_times(&mut two, 0, 100, 103);
        set_times(&mut two, 1, 105, 106);
        one.under_way = Some((120, SECOND));
        let logs = [one, two];
        assert!(matches!(text(&logs, None), Err(MergeError::NoLimit)));
        let wanted = "{\"kind\":\"lines\",\"opening\":[0,9],\"limit\":4}\n\
            {\"who\":5,\"kind\":\"read\",\"begin\":0,\"end\":3,\"record\":[0,9]}\n\
            {\"who\":3,\"kind\":\"write\",\"begin\":2,\"end\":9,\"record\":[1,9]}\n\
            {\"who\":5,\"kind\":\"refused\",\"begin\":5,\"end\":6,\"record\":[1,9]}\n\
            {\"who\":3,\"kind\":\"write\",\"begin\":20,\"end\":null,\"record\":[2,9]}\n\
            {\"kind\":\"done\",\"ops\":4}\n";
        assert_eq!(text(&logs, NonZeroU64::new(4)).unwrap(), wanted);
        let mut alone = Vec::new();
        assert_eq!(lines(&mut alone, &logs).unwrap(), 4);
        let wanted = "{\"who\":5,\"kind\":\"read\",\"begin\":100,\"end\":103,\"record\":[0,9]}\n\
            {\"who\":3,\"kind\":\"write\",\"begin\":102,\"end\":109,\"record\":[1,9]}\n\
            {\"who\":5,\"kind\":\"refused\",\"begin\":105,\"end\":106,\"record\":[1,9]}\n\
            {\"who\":3,\"kind\":\"write\",\"begin\":120,\"end\":null,\"record\":[2,9]}\n";
        assert_eq!(String::from_utf8(alone).unwrap(), wanted);
    }

    /// Hashes are left out, as another test has them.
    #[test]
    fn words_stand_beside_their_records() {
        let mut log = Log::new(3, 2).unwrap();
        log.write(Record { hash: 9, ..Record::of_words(&[1, 20, 30]) }, || ());
        log.read(|| (), |()| Record { hash: 9, ..Record::of_bytes(1, b"abc") });
        set_times(&mut log, 0, 5, 6);
        set_times(&mut log, 1, 7, 8);
        log.under_way = Some((9, Record { hash: 9, ..Record::of_words(&[2]) }));
        let mut written = Vec::new();
        merge(&mut written, &[log], Record { hash: 9, ..Record::of_words(&[0, 10]) }, NonZeroU64::new(4)).unwrap();
        let wanted = "{\"kind\":\"lines\",\"opening\":[0,9],\"words\":[0,10],\"limit\":4}\n\
            {\"who\":3,\"kind\":\"write\",\"begin\":0,\"end\":1,\"record\":[1,9],\"words\":[1,20,30]}\n\
            {\"who\":3,\"kind\":\"read\",\"begin\":2,\"end\":3,\"record\":[1,9],\"words\":[6513249]}\n\
            {\"who\":3,\"kind\":\"write\",\"begin\":4,\"end\":null,\"record\":[2,9],\"words\":[2]}\n\
            {\"kind\":\"done\",\"ops\":3}\n";
        assert_eq!(String::from_utf8(written).unwrap(), wanted);
    }

    #[test]
    fn the_first_words_are_kept() {
        let words: [u64; WORDS + 2] = std::array::from_fn(|at| 10 + at as u64);
        let bytes: Vec<u8> = words.iter().flat_map(|word| word.to_le_bytes()).collect();
        for count in 0..words.len() {
            let wanted = &words[..count.min(WORDS)];
            assert_eq!(Record::of_words(&words[..count]).words(), wanted);
            assert_eq!(Record::of_bytes(10, &bytes[..8 * count]).words(), wanted);
        }
    }

    #[test]
    fn no_logs() {
        assert_eq!(text(&[], None).unwrap(), "{\"kind\":\"lines\",\"opening\":[0,9]}\n{\"kind\":\"done\",\"ops\":0}\n");
    }

    #[test]
    fn a_write_without_an_effect_is_left_out() {
        let [mut log, _] = paced(1, 20, 20);
        for _ in 0..3 {
            assert_eq!(log.write_if(SECOND, || Err::<(), _>("full"), Result::is_ok), Err("full"));
        }
        assert!(!log.is_full() && log.under_way.is_none());
        assert_eq!(log.pace.as_ref().unwrap().turn().load(Relaxed), 3);
        assert_eq!(log.write_if(FIRST, || Ok::<_, ()>(7), Result::is_ok), Ok(7));
        assert_eq!(log.pace.as_ref().unwrap().turn().load(Relaxed), LEFT);
        log.write_if(SECOND, || false, |it| *it);
        assert_eq!(log.pace.as_ref().unwrap().turn().load(Relaxed), LEFT);
        assert!(text(&[log], None).unwrap().ends_with(",\"record\":[1,9]}\n{\"kind\":\"done\",\"ops\":1}\n"));
    }

    #[test]
    fn a_full_log_is_told() {
        let mut log = Log::new(7, 1).unwrap();
        assert!(!log.is_full());
        log.write(FIRST, || ());
        assert!(log.is_full());
        log.read(|| FIRST, |it| *it);
        log.read(|| FIRST, |it| *it);
        let logs = [Log::new(6, 0).unwrap(), log];
        let mut nothing = Vec::new();
        assert!(matches!(lines(&mut nothing, &logs), Err(MergeError::Full { who: 7, lost: 2 })) && nothing.is_empty());
        let error = text(&logs, None).unwrap_err();
        assert_eq!(error.to_string(), "the log of thread 7 had no room for 2 operations");
        assert_eq!(Log::new(0, usize::MAX).unwrap_err(), NoRoom);
    }

    fn panics(call: impl FnOnce()) {
        assert!(std::panic::catch_unwind(std::panic::AssertUnwindSafe(call)).is_err());
    }

    #[test]
    fn a_call_that_panics() {
        let writes: [fn(&mut Log); 3] = [
            |log| log.write(FIRST, || panic!("planned")),
            |log| log.write_if(FIRST, || (), |()| panic!("planned")),
            |log| _ = log.try_write(FIRST, || Err::<(), _>(()), |()| panic!("planned")),
        ];
        for write in writes {
            let mut log = Log::new(0, 2).unwrap();
            panics(|| log.read(|| panic!("planned"), |_: &()| FIRST));
            panics(|| log.read(|| (), |()| panic!("planned")));
            assert_eq!(log.under_way, None);
            panics(|| write(&mut log));
            let lines = text(&[log], None).unwrap();
            assert!(lines.ends_with(&(row(0, "write", 0, "null", 1) + "{\"kind\":\"done\",\"ops\":1}\n")));
        }
    }

    /// What may come behind a write that panicked.
    const FOLLOW: [fn(&mut Log); 4] = [
        |log| log.write(SECOND, || ()),
        |log| _ = log.read(|| OPENING, |it| *it),
        |log| log.write_if(SECOND, || (), |()| false),
        |log| panics(|| log.read(|| panic!("planned"), |()| OPENING)),
    ];

    #[test]
    fn nothing_may_follow_a_write_that_panicked() {
        for follow in FOLLOW {
            let mut log = Log::new(7, 4).unwrap();
            log.read(|| OPENING, |it| *it);
            panics(|| log.write(FIRST, || panic!("planned")));
            follow(&mut log);
            let logs = [Log::new(6, 0).unwrap(), log];
            let mut nothing = Vec::new();
            assert!(matches!(lines(&mut nothing, &logs), Err(MergeError::Unpaired { who: 7 })) && nothing.is_empty());
            let error = text(&logs, None).unwrap_err();
            assert_eq!(error.to_string(), "a write of thread 7 panicked, and the thread began another operation");
        }
    }

    #[test]
    fn nothing_may_follow_a_write_that_panicked_in_a_live_log() {
        for follow in FOLLOW {
            let ([mut one, _two], mut live) = fed();
            panics(|| one.write(SECOND, || panic!("planned")));
            assert_eq!(drained(&mut live), first_rows() + &floor(104, 5));
            follow(&mut one);
            let mut text = Vec::new();
            assert!(matches!(live.drain(&mut text), Err(MergeError::Unpaired { who: 3 })));
            assert!(matches!(live.finish(&mut text), Err(MergeError::Unpaired { who: 3 })));
            assert_eq!(String::from_utf8(text).unwrap(), "{\"kind\":\"fault\"}\n".repeat(2));
        }
    }

    /// It holds the floor until its thread is given up, although the thread leaves. A read that panicked holds it no more then.
    #[test]
    fn a_write_that_panicked_is_the_last() {
        let ([mut one, mut two], mut live) = fed();
        panics(|| one.write(SECOND, || panic!("planned")));
        panics(|| two.read(|| panic!("planned"), |()| OPENING));
        begin_at(&one, 120);
        one.leave();
        two.leave();
        assert_eq!(drained(&mut live), first_rows() + &floor(120, 3));
        let mut text = Vec::new();
        assert_eq!(live.finish(&mut text).unwrap(), 3);
        assert!(String::from_utf8(text).unwrap().starts_with(&row(3, "write", 120, "null", 2)));
        let ([_one, mut two], mut live) = fed();
        panics(|| two.read(|| panic!("planned"), |()| OPENING));
        two.read(|| OPENING, |it| *it);
        set_fed(&two, 1, 150, 160);
        assert_eq!(drained(&mut live), first_rows() + &row(5, "read", 150, "160", 0) + &floor(110, 3));
    }

    #[test]
    fn operations_of_a_thread_never_touch() {
        for fenced in [true, false] {
            let mut log = Log::new(0, 1000).unwrap();
            log = if fenced { log } else { log.unfenced() };
            for _ in 0..1000 {
                log.read(|| (), |_| FIRST);
            }
            assert!(log.operations.iter().all(|it| it.begin <= it.end));
            assert!(log.operations.windows(2).all(|it| it[0].end < it[1].begin));
            log.last_end = clock::end(fenced) + 100_000;
            assert!(log.begin() > log.last_end);
        }
        let mut moments = [4, 5, 5, 6, 7].into_iter();
        assert_eq!(moment_after(5, || moments.next().unwrap()), 6);
    }

    /// A call's own moment lies between its stamps, and each end is kept for the next begin.
    #[test]
    fn stamps_stand_around_the_call() {
        let mut log = Log::new(0, 3).unwrap();
        let mut called = Vec::new();
        log.read(|| called.push(clock::end(true)), |()| FIRST);
        log.write(FIRST, || called.push(clock::end(true)));
        let refused = log.try_write(SECOND, || Err::<(), _>(called.push(clock::end(true))), |()| FIRST);
        assert_eq!(refused, Err(()));
        for (it, moment) in log.operations.iter().zip(&called) {
            assert!(it.begin < *moment && *moment < it.end);
        }
        assert_eq!((log.operations.len(), called.len(), log.last_end), (3, 3, log.operations[2].end));
    }

    /// How often the first thread waits before each of some reads; whenever it does, the second ends an operation.
    fn waits<const N: usize>(log: &mut Log) -> [u32; N] {
        std::array::from_fn(|_| {
            let mut waited = 0;
            if let Some(pace) = &mut log.pace {
                let turns = Arc::clone(&pace.turns);
                pace.keep(|| {
                    assert!(waited < 100, "a thread waits for ever");
                    waited += 1;
                    turns[1].0.fetch_add(1, Relaxed);
                });
            }
            log.read(|| (), |()| FIRST);
            waited
        })
    }

    fn paced(room: usize, other: usize, ahead: u64) -> [Log; 2] {
        let mut logs = [Log::new(0, room).unwrap(), Log::new(1, other).unwrap()];
        pace(&mut logs, ahead);
        logs
    }

    /// Four ahead: the fifth read waits until the other thread is one behind, the eighth and the eleventh alike.
    #[test]
    fn threads_keep_pace() {
        let [mut one, two] = paced(20, 20, 4);
        assert_eq!(waits(&mut one), [0, 0, 0, 0, 3, 0, 0, 3, 0, 0, 3]);
        two.leave();
        assert_eq!(waits(&mut one), [0; 8]);
        assert_eq!(waits(&mut paced(20, 20, 1)[0]), [0, 1, 1, 1, 1]);
        assert_eq!(waits(&mut paced(20, 20, 0)[0]), [0; 10]);
        assert_eq!(waits(&mut paced(3, 20, 2)[0]), [0, 0, 2, 0, 0, 0, 0, 0]);
        let [mut one, mut two] = paced(20, 1, 2);
        two.write(FIRST, || ());
        assert_eq!(waits(&mut one), [0; 8]);
        assert_eq!(waits(&mut paced(20, 0, 2)[0]), [0; 8]);
    }

    #[test]
    fn nobody_waits_for_a_thread_that_panicked() {
        let calls: [fn(&mut Log); 5] = [
            |log| log.write(FIRST, || panic!("planned")),
            |log| log.write_if(FIRST, || (), |()| panic!("planned")),
            |log| _ = log.try_write(FIRST, || Err::<(), _>(()), |()| panic!("planned")),
            |log| log.read(|| panic!("planned"), |_: &()| FIRST),
            |log| log.read(|| (), |()| panic!("planned")),
        ];
        for call in calls {
            let [mut one, mut two] = paced(20, 20, 2);
            panics(|| call(&mut two));
            assert_eq!(waits(&mut one), [0; 8]);
        }
    }

    /// Also if it ends after all. One that was given up itself waits until all are.
    #[test]
    fn nobody_waits_for_a_thread_that_was_given_up() {
        for paced_first in [true, false] {
            let mut logs = [Log::new(0, 30).unwrap(), Log::new(1, 30).unwrap()];
            if paced_first {
                pace(&mut logs, 4);
            }
            let mut live = live(&mut logs);
            if !paced_first {
                pace(&mut logs, 4);
            }
            let [one, two] = &mut logs;
            live.give_up(0);
            assert_eq!(waits(one), [0, 0, 0, 0, 3, 0, 0, 3]);
            two.begin();
            live.give_up(1);
            assert_eq!(waits(one), [0; 8]);
            two.put(Operation { kind: Kind::Read, begin: 1, end: 2, record: FIRST });
            assert_eq!(waits(one), [0; 8]);
        }
    }

    #[test]
    fn paced_threads_are_together() {
        let mut logs = [Log::new(0, 500).unwrap(), Log::new(1, 500).unwrap(), Log::new(2, 500).unwrap()];
        pace(&mut logs, 5);
        let turns = Arc::clone(&logs[0].pace.as_ref().unwrap().turns);
        thread::scope(|scope| {
            for (me, log) in logs.iter_mut().enumerate() {
                let turns = &turns;
                scope.spawn(move || {
                    while !log.is_full() {
                        let slowest = log.read(|| turns.iter().map(|turn| turn.0.load(Relaxed)).min().unwrap(), |_| FIRST);
                        let turn = turns[me].0.load(Relaxed);
                        assert!(turn == LEFT || turn <= slowest + 5);
                    }
                });
            }
        });
    }

    /// What the next drain writes.
    fn drained(live: &mut Live) -> String {
        let mut written = Vec::new();
        live.drain(&mut written).unwrap();
        String::from_utf8(written).unwrap()
    }

    /// Sees that the next drain writes these lines, and behind them one floor: the present, which thread 3 is said to hold.
    fn present(live: &mut Live, lines: &str) -> u64 {
        let (before, text) = (clock::begin(), drained(live));
        let floor = text.strip_prefix(lines).and_then(|it| it.strip_prefix("{\"kind\":\"floor\",\"begin\":"));
        let floor = floor.and_then(|it| it.strip_suffix(",\"who\":3}\n")).expect(&text).parse().expect(&text);
        assert!(before <= floor && floor <= clock::end(true), "{text}");
        floor
    }

    fn floor(begin: u64, who: u64) -> String {
        format!("{{\"kind\":\"floor\",\"begin\":{begin},\"who\":{who}}}\n")
    }

    fn row(who: u64, kind: &str, begin: u64, end: &str, number: u64) -> String {
        format!("{{\"who\":{who},\"kind\":\"{kind}\",\"begin\":{begin},\"end\":{end},\"record\":[{number},9]}}\n")
    }

    /// Sets the times of an operation in the feed, and of the last begin.
    fn set_fed(log: &Log, at: usize, begin: u64, end: u64) {
        let feed = log.feed.as_ref().unwrap();
        feed.slots[at].store(&Operation { begin, end, ..feed.slots[at].load() });
        feed.begin.store(begin, Relaxed);
    }

    /// A write that begins at this moment, and doesn't end.
    fn begin_write(log: &mut Log, moment: u64) {
        let begin = log.begin();
        log.feed.as_ref().unwrap().begin_write(begin, SECOND);
        begin_at(log, moment);
    }

    fn begin_at(log: &Log, moment: u64) {
        let feed = log.feed.as_ref().unwrap();
        let place = feed.writing.load(Relaxed);
        feed.begin_write(moment, SECOND);
        feed.writing.store(place, Relaxed);
        feed.begin.store(moment, Relaxed);
    }

    /// Two threads that have ended an operation each, at 109 and 103.
    fn fed() -> ([Log; 2], Live) {
        let mut logs = [Log::new(3, 4).unwrap(), Log::new(5, 4).unwrap()];
        let live = live(&mut logs);
        logs[0].write(FIRST, || ());
        logs[1].read(|| OPENING, |it| *it);
        set_fed(&logs[0], 0, 102, 109);
        set_fed(&logs[1], 0, 100, 103);
        (logs, live)
    }

    fn first_rows() -> String {
        row(5, "read", 100, "103", 0) + &row(3, "write", 102, "109", 1)
    }

    #[test]
    fn a_floor_is_below_what_is_under_way() {
        let ([mut one, mut two], mut live) = fed();
        assert_eq!(drained(&mut live), first_rows() + &floor(104, 5));
        assert_eq!(live.holder(), Some((5, 104)));
        assert_eq!(drained(&mut live), "");
        begin_write(&mut one, 120);
        two.read(|| OPENING, |it| *it);
        set_fed(&two, 1, 150, 160);
        assert_eq!(drained(&mut live), row(5, "read", 150, "160", 0) + &floor(120, 3));
        assert_eq!((drained(&mut live), live.holder()), (String::new(), Some((3, 120))));
        live.give_up(3);
        assert_eq!(drained(&mut live), row(3, "write", 120, "null", 2) + &floor(161, 5));
        two.pause();
        let present = present(&mut live, "");
        let begin = two.begin();
        assert!(begin > present);
        assert_eq!(drained(&mut live), floor(begin, 5));
        let mut text = Vec::new();
        assert_eq!(live.finish(&mut text).unwrap(), 4);
        assert!(String::from_utf8(text).unwrap().ends_with("{\"kind\":\"done\",\"ops\":4}\n"));
    }

    #[test]
    fn a_thread_that_is_idle_holds_no_floor() {
        let mut logs = [Log::new(3, 1).unwrap(), Log::new(5, 1).unwrap()];
        let mut live = live(&mut logs);
        let floor_before = present(&mut live, "");
        let shown = logs[0].begin();
        assert!(shown > logs[0].last_end && logs[0].last_end > floor_before);
        logs[0].write(FIRST, || ());
        set_fed(&logs[0], 0, 102, 109);
        present(&mut live, &row(3, "write", 102, "109", 1));
        logs[0].write_if(SECOND, || false, |it| *it);
        present(&mut live, "");
        let ([_one, two], mut live) = fed();
        two.leave();
        assert_eq!(drained(&mut live), first_rows() + &floor(110, 3));
        two.feed.as_ref().unwrap().wake();
        assert_eq!(drained(&mut live), "");
        assert!(live.seen[1].floor > 110);
    }

    #[test]
    fn what_is_given_up_is_written_once() {
        let ([mut one, mut two], mut live) = fed();
        begin_write(&mut one, 120);
        begin_at(&two, 130);
        live.give_up(3);
        live.give_up(5);
        present(&mut live, &(first_rows() + &row(3, "write", 120, "null", 2)));
        one.put(Operation { kind: Kind::Write, begin: 120, end: 140, record: SECOND });
        two.put(Operation { kind: Kind::Read, begin: 130, end: 140, record: FIRST });
        live.give_up(3);
        present(&mut live, "");
        two.read(|| OPENING, |it| *it);
        let mut text = Vec::new();
        let told = live.finish(&mut text).unwrap_err();
        assert_eq!(told.to_string(), "thread 5 was given up, and began another operation");
        assert_eq!(text, b"{\"kind\":\"fault\"}\n");
        let ([mut one, _two], mut live) = fed();
        begin_write(&mut one, 120);
        live.give_up(3);
        one.put(Operation { kind: Kind::Write, begin: 120, end: 125, record: SECOND });
        one.feed.as_ref().unwrap().writing.store(2, Relaxed);
        assert_eq!(drained(&mut live), first_rows() + &row(3, "write", 120, "125", 2) + &floor(104, 5));
        let ([mut one, _two], live) = fed();
        begin_write(&mut one, 120);
        let mut text = Vec::new();
        assert_eq!(live.finish(&mut text).unwrap(), 3);
        assert!(String::from_utf8(text).unwrap().contains(&row(3, "write", 120, "null", 2)));
    }

    /// It stood between the two stores of its begin. Its write isn't lost: it hangs or ends, and the thread is said to have come back. A read
    /// is left out.
    #[test]
    fn a_thread_that_is_given_up_as_it_begins() {
        for ends in [true, false] {
            let ([mut one, _two], mut live) = fed();
            let begin = one.begin();
            live.give_up(3);
            assert_eq!(drained(&mut live), first_rows() + &floor(104, 5));
            one.feed.as_ref().unwrap().begin_write(begin, SECOND);
            if ends {
                one.put(Operation { kind: Kind::Write, begin, end: begin + 1, record: SECOND });
            }
            let mut text = Vec::new();
            assert!(matches!(live.drain(&mut text), Err(MergeError::CameBack { who: 3 })));
            assert!(matches!(live.finish(&mut text), Err(MergeError::CameBack { who: 3 })));
            assert_eq!(String::from_utf8(text).unwrap(), "{\"kind\":\"fault\"}\n".repeat(2));
        }
        let ([mut one, _two], mut live) = fed();
        let begin = one.begin();
        live.give_up(3);
        drained(&mut live);
        one.put(Operation { kind: Kind::Read, begin, end: begin + 1, record: FIRST });
        assert_eq!(live.finish(&mut Vec::new()).unwrap(), 2);
    }

    #[test]
    fn nothing_but_a_fault_is_drained() {
        let mut logs = [Log::new(3, 1).unwrap(), Log::new(5, 1).unwrap()];
        let mut some = live(&mut logs);
        logs[1].read(|| OPENING, |it| *it);
        logs[1].read(|| OPENING, |it| *it);
        let mut text = Vec::new();
        assert!(matches!(some.drain(&mut text), Err(MergeError::Full { who: 5, lost: 1 })));
        let mut some = live(&mut logs[..1]);
        let refused = logs[0].try_write(SECOND, || Err::<(), _>(FIRST), |it| *it);
        assert!(refused.is_err() && matches!(some.drain(&mut text), Err(MergeError::NoLimit)));
        assert_eq!(String::from_utf8(text).unwrap(), "{\"kind\":\"fault\"}\n".repeat(2));
        let ([_one, _two], mut some) = fed();
        assert!(matches!(some.drain(&mut Late), Err(MergeError::Stream(_))));
        assert!(matches!(live(&mut []).finish(&mut Late), Err(MergeError::Stream(_))));
        assert_eq!(live(&mut []).finish(&mut Vec::new()).unwrap(), 0);
    }

    #[test]
    fn many_lines_have_floors_between_them() {
        let mut logs = [Log::new(3, 40).unwrap()];
        let mut live = live(&mut logs);
        (0..40).for_each(|_| logs[0].read(|| (), |()| FIRST));
        let mut wanted = String::new();
        for (at, it) in logs[0].operations.iter().enumerate() {
            if at == 15 || at == 31 {
                wanted += &floor(it.begin, 3);
            }
            wanted += &row(3, "read", it.begin, &it.end.to_string(), 1);
        }
        present(&mut live, &wanted);
        let ([mut one, mut two], mut live) = fed();
        begin_write(&mut one, 120);
        assert_eq!(drained(&mut live), first_rows() + &floor(104, 5));
        two.read(|| OPENING, |it| *it);
        two.read(|| OPENING, |it| *it);
        set_fed(&two, 1, 121, 129);
        set_fed(&two, 2, 131, 135);
        assert_eq!(drained(&mut live), row(5, "read", 121, "129", 0) + &row(5, "read", 131, "135", 0) + &floor(120, 3));
    }

    /// Also words are fed.
    #[test]
    fn a_slot_keeps_an_operation() {
        let slot = Slot::default();
        for kind in [Kind::Write, Kind::Read, Kind::Refused] {
            let it = Operation { kind, begin: 5, end: 6, record: Record::of_words(&[1, 2, 3]) };
            slot.store(&it);
            assert_eq!(format!("{:?}", slot.load()), format!("{it:?}"));
        }
    }

    /// Each line is above the floors before it, whatever the threads do meanwhile.
    #[test]
    fn lines_obey_the_floors_while_threads_run() {
        let mut logs = [Log::new(0, 3000).unwrap(), Log::new(1, 3000).unwrap(), Log::new(2, 3000).unwrap()];
        let (mut live, mut text) = (live(&mut logs), Vec::new());
        pace(&mut logs, 50);
        thread::scope(|scope| {
            for log in &mut logs {
                scope.spawn(|| {
                    while !log.is_full() {
                        log.read(|| (), |()| FIRST);
                        if log.operations.len() % 7 == 0 {
                            log.pause();
                        }
                    }
                });
            }
            while live.seen.iter().any(|it| it.written < 3000) {
                live.drain(&mut text).unwrap();
                thread::yield_now();
            }
        });
        assert_eq!(live.finish(&mut text).unwrap(), 9000);
        let (mut floor, mut operations) = (0, 0);
        for line in String::from_utf8(text).unwrap().lines().filter(|it| !it.contains("done")) {
            let (_, rest) = line.split_once("\"begin\":").unwrap();
            let begin: u64 = rest.split(',').next().unwrap().parse().unwrap();
            assert!(begin >= floor, "{line} is below {floor}");
            if line.contains("floor") {
                floor = begin;
            } else {
                operations += 1;
            }
        }
        assert_eq!(operations, 9000);
    }

    #[test]
    fn a_log_is_fenced_unless_it_is_said() {
        assert!(Log::new(0, 1).unwrap().fenced);
        assert!(!Log::new(0, 1).unwrap().unfenced().fenced);
    }

    /// The hashes were computed by hand, and are those of `nidzaru_log.h`.
    #[test]
    fn each_byte_is_in_the_hash() {
        let told = |it: Record| (it.number, it.hash);
        assert_eq!(told(Record::of_words(&[5])), (5, 0x2c67_c3ed_3a1d_bcd5));
        assert_eq!(told(Record::of_words(&[5, 6, 7])), (5, 0xb422_ed38_0a36_caaf));
        assert_eq!(told(Record::of_bytes(8, &5u64.to_le_bytes())), (8, 0x2c67_c3ed_3a1d_bcd5));
        assert_eq!(told(Record::of_bytes(8, b"abc")), (8, 0x4251_23e1_db48_5aaa));
        const SIZE: usize = 1100;
        let zeros = Record::of_bytes(0, &[0; SIZE]).hash;
        for at in 0..SIZE {
            let mut other = [0; SIZE];
            other[at] = 1;
            assert_ne!(Record::of_bytes(0, &other).hash, zeros);
            assert_ne!(Record::of_bytes(0, &other[..at]).hash, zeros);
        }
    }

    #[test]
    fn each_word_is_in_the_hash() {
        const SIZE: usize = 137;
        let zeros = Record::of_words(&[0; SIZE]).hash;
        for at in 0..SIZE {
            let mut other = [0; SIZE];
            other[at] = 1;
            assert_ne!(Record::of_words(&other).hash, zeros);
            assert_ne!(Record::of_words(&other[..at]).hash, zeros);
        }
    }

    /// A stream that takes all and fails when it is flushed.
    struct Late;

    impl Write for Late {
        fn write(&mut self, bytes: &[u8]) -> io::Result<usize> {
            Ok(bytes.len())
        }

        fn flush(&mut self) -> io::Result<()> {
            Err(io::Error::other("planned"))
        }
    }

    #[test]
    fn a_stream_that_fails() {
        let mut short = [0u8; 10];
        let told = merge(&mut short.as_mut_slice(), &[], OPENING, None);
        assert!(matches!(told, Err(MergeError::Stream(_))));
        for told in [merge(&mut Late, &[], OPENING, None), lines(&mut Late, &[])] {
            assert!(matches!(told, Err(MergeError::Stream(_))));
        }
    }
}
