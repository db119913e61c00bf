"""Wrong recorders, which their tests must refuse: each is one edit of nidzaru_log.h or of the module `log` for Rust.

    planted_log.py [WORD..]     with words those edits alone whose names have one of them

An edit's old text stands once in its file; blanks match any others. The test that is named has to pass over the files as they are, and to
fail by one of its checks over the edited ones; that it can't be built doesn't count. The last line is the sums.
"""

import os
import re
import signal
import subprocess
import sys
import tempfile

TOP = os.path.dirname(os.path.dirname(os.path.dirname(os.path.realpath(__file__))))
H, RUST = "c/nidzaru_log.h", "rust/nidzaru/src/log.rs"
# What stands before a command, and so many seconds it may take.
BEFORE, LONGEST = [], 120
C11 = ["gcc", "-std=c11", "-D_POSIX_C_SOURCE=200809L", "-O0", "-w", "-pthread"]
# Tests in C: the source, the words of the compiler, and those of the program.
PROGRAMS = {
    "recorder": ("recorder.c", [], []),
    "stamped": ("stamped.c", [], []),
    "unfenced": ("stamped.c", ["-DNIDZARU_LOG_FENCE=0"], []),
    "by the clock": ("stamped.c", ["-DNIDZARU_LOG_TSC=0"], []),
    "drained": ("drained.c", [], []),
    "steps": ("killed.c", [], ["steps", "left.log"]),
}
# Calls whose instructions are looked at: what stands between a recorded call's stamps, and where these are.
CALLS = """#[path = "log.rs"]
pub mod log;
use log::{Log, Record};
extern "C" {
    fn the_call() -> u64;
}
#[no_mangle]
pub fn one_read(log: &mut Log) -> u64 {
    log.read(|| unsafe { the_call() }, |n| Record::of_words(&[*n]))
}
#[no_mangle]
pub fn one_write(log: &mut Log, record: Record) -> u64 {
    log.write(record, || unsafe { the_call() })
}
#[no_mangle]
pub fn one_try_write(log: &mut Log, record: Record) -> Result<u64, u64> {
    log.try_write(record, || Err(unsafe { the_call() }), |n| Record::of_words(&[*n]))
}
"""
NAMES = ("one_read", "one_write", "one_try_write")
ORDER = ["rdtsc", "lfence", "the_call", "mfence", "rdtscp"]
# The same for 64-bit ARM, of C: with the fence and without it.
CALLS_IN_C = """#include "nidzaru_log.h"
uint64_t the_call(void);
void one_read(nidzaru_log *log) {
    nidzaru_log_begin_read(log);
    uint64_t found = the_call();
    nidzaru_log_end_read(log, found, &found, sizeof found);
}
void one_write(nidzaru_log *log, uint64_t n) {
    nidzaru_log_begin_write(log, n, &n, sizeof n);
    the_call();
    nidzaru_log_end_write(log);
}
"""
ARM_ORDERS = {"arm": ["mrs", "isb", "the_call", "dsb ish", "isb", "mrs"], "arm, unfenced": ["mrs", "isb", "the_call", "dsb ishld", "isb", "mrs"]}
ARM_C = ["aarch64-linux-gnu-gcc", "-std=c11", "-D_POSIX_C_SOURCE=200809L", "-O2", "-S"]

# How an operation is kept and counted.
KEPT = "next->kind = kind; next->begin = it->under_way.begin; next->end = end; next->record = *record; "
COUNTED = KEPT + "__atomic_store_n(&it->count, it->count + 1, __ATOMIC_RELEASE);"

# How an operation begins.
BEGUN = "__atomic_store_n(&it->under_way.begin, nidzaru_log_stamp_begin(log->last_end), __ATOMIC_RELEASE);"
BEGINS = ("if (it->idle) nidzaru_log_wake(log); nidzaru_log_tally(&it->unpaired, it->under_way.kind != NIDZARU_LOG_NOTHING); "
          "it->place = it->count; " + BEGUN)
# What stands before the stamp of an end on ARM.
ARM_END = '#elif NIDZARU_LOG_FENCE && NIDZARU_LOG_ARM __asm__ volatile("dsb ish" : : : "memory");'
# What holds of the floor of one thread.
FLOOR = "if (idle || log->given_up) floor = now; if (floor > log->floor) log->floor = floor;"
# In what order a drain looks at a thread.
IDLE = "uint64_t idle = __atomic_load_n(&log->state->idle, __ATOMIC_ACQUIRE);"
BEGIN = "uint64_t floor = __atomic_load_n(&log->state->under_way.begin, __ATOMIC_ACQUIRE);"
UNDER_WAY = "int writes = __atomic_load_n(&log->state->under_way.kind, __ATOMIC_ACQUIRE) == NIDZARU_LOG_WRITE;"
COUNT = "log->counted = __atomic_load_n(&log->state->count, __ATOMIC_ACQUIRE);"

# The name of an edit, its file, the old text, the new one, and the test that refuses it.
PLANTED = [
    ("a begin that is its end's stamp", H, "next->begin = it->under_way.begin;", "next->begin = end;", "stamped"),
    ("a begin that is kept from before", H, BEGUN, "it->under_way.begin = log->last_end + 1;", "stamped"),
    ("a begin before its record", H, "log->state->under_way.record = nidzaru_log_record_of(number, data, size); nidzaru_log_begin(log, NIDZARU_LOG_WRITE);",
     "nidzaru_log_begin(log, NIDZARU_LOG_WRITE); log->state->under_way.record = nidzaru_log_record_of(number, data, size);", "stamped"),
    ("an end behind its record", H, "uint64_t end = nidzaru_log_stamp_end(); nidzaru_log_record got = nidzaru_log_record_of(number, data, size);",
     "nidzaru_log_record got = nidzaru_log_record_of(number, data, size); uint64_t end = nidzaru_log_stamp_end();", "stamped"),
    ("no lfence", H, "_mm_lfence();", "", "stamped"),
    ("no mfence", H, "#if NIDZARU_LOG_FENCE && defined(__x86_64__) _mm_mfence();", "\n#if NIDZARU_LOG_FENCE && defined(__x86_64__)\n", "stamped"),
    ("a fence that is never left out", H, "#if NIDZARU_LOG_FENCE && defined(__x86_64__)", "#if defined(__x86_64__)", "unfenced"),
    ("rdtsc at the end", H, "now = __rdtscp(&processor);", "now = __rdtsc(), processor = 0, (void)processor;", "stamped"),
    ("nothing that holds the compiler before the begin", H, "uint64_t now; NIDZARU_LOG_ORDER(signal_fence); do {", "uint64_t now; do {", "stamped"),
    ("nothing that holds the compiler behind the begin", H,
     "NIDZARU_LOG_ORDER(thread_fence); #endif NIDZARU_LOG_ORDER(signal_fence); return now;",
     "NIDZARU_LOG_ORDER(thread_fence);\n#endif\nreturn now;", "stamped"),
    ("nothing that holds the compiler before the end", H, "NIDZARU_LOG_ORDER(signal_fence); #if NIDZARU_LOG_FENCE",
     "\n#if NIDZARU_LOG_FENCE", "stamped"),
    ("nothing that holds the compiler behind the end", H, "now = nidzaru_log_clock(); #endif NIDZARU_LOG_ORDER(signal_fence); return now;",
     "now = nidzaru_log_clock();\n#endif\nreturn now;", "stamped"),
    ("a begin on ARM that holds nothing back", H, '__asm__ volatile("isb" : : : "memory");', "", "arm"),
    ("an end on ARM that waits for no store", H, ARM_END, "\n" + ARM_END.split(" __asm__")[0] + "\n", "arm"),
    ("an end on ARM that orders accesses alone", H, ARM_END, "\n" + ARM_END.replace(" __asm__", "\n__asm__").replace("dsb", "dmb"), "arm"),
    ("an end on ARM that may be stamped early", H, '"isb\\n\\tmrs %0, cntvct_el0"', '"mrs %0, cntvct_el0"', "arm"),
    ("an unfenced end on ARM that waits for no load", H, '__asm__ volatile("dsb ishld" : : : "memory");', "", "arm, unfenced"),
    ("the fence on ARM that is never left out", H, "#elif NIDZARU_LOG_FENCE && NIDZARU_LOG_ARM", "#elif NIDZARU_LOG_ARM", "arm, unfenced"),
    ("operations that touch", H, "while (now <= last_end);", "while (now < last_end);", "stamped"),
    ("a last end that isn't kept", H, "log->last_end = end;", "", "stamped"),
    ("a clock of microseconds", H, "NIDZARU_LOG_CAST(uint64_t, now.tv_nsec)", "NIDZARU_LOG_CAST(uint64_t, now.tv_nsec) / 1000u * 1000u", "by the clock"),
    ("a clock without seconds", H, "NIDZARU_LOG_CAST(uint64_t, now.tv_sec) * 1000000000u +", "", "by the clock"),
    ("a clock that is set", H, "#define NIDZARU_LOG_CLOCK CLOCK_MONOTONIC", "#define NIDZARU_LOG_CLOCK CLOCK_REALTIME", "by the clock"),
    ("no fence by the clock", H, "#if NIDZARU_LOG_FENCE && defined(__x86_64__) _mm_mfence();",
     "\n#if NIDZARU_LOG_FENCE && defined(__x86_64__)\nif (NIDZARU_LOG_TSC) _mm_mfence();", "by the clock"),
    ("a room that overflows", H, "room > (SIZE_MAX - sizeof(nidzaru_log_state)) / size ? 0 :", "", "stamped"),
    ("pages that nobody touched", H, "memset(block, 1, size);", "(void)size;", "stamped"),
    ("a close that frees nothing", H, "if (!log->mapped) free(log->state);", "", "stamped"),
    ("a close that clears nothing", H, "if (!log->mapped) free(log->state); memset(log, 0, sizeof *log);", "if (!log->mapped) free(log->state);", "recorder"),
    ("a hash of 128 bytes", H, "size - at < 8 ? size - at : 8); record.hash", "size - at < 8 ? size - at : 8); if (at >= 128) break; record.hash", "recorder"),
    ("a hash of bytes behind the record", H, "size - at < 8 ? size - at : 8", "size + at < 8 ? size - at : 8", "recorder"),
    ("a log that isn't cleared where there is no file", H, "memset(log, 0, sizeof *log); if (file >= 0) close(file); if (!block && made",
     "if (file >= 0) close(file); if (!block && made", "recorder"),
    ("a pace of the first log alone", H, "at < count; at++) { logs[at]->beside = logs;", "at < count; at--) { logs[at]->beside = logs;", "recorder"),
    ("a hash of whole words", H, "at < size; at += 8", "at + 8 <= size; at += 8", "recorder"),
    ("a hash without the size", H, "0x9e3779b97f4a7c15u ^ size", "0x9e3779b97f4a7c15u", "recorder"),
    ("a hash that forgets where", H, "(record.hash ^ word) * 0xff51afd7ed558ccdu", "record.hash ^ word * 0xff51afd7ed558ccdu", "recorder"),
    ("a hash without its upper half", H, "record.hash ^= record.hash >> 32;", "", "recorder"),
    ("a loss that isn't counted", H, "nidzaru_log_tally(&it->lost, 1);", "", "recorder"),
    ("a begin within another", H, "nidzaru_log_tally(&it->unpaired, it->under_way.kind != NIDZARU_LOG_NOTHING);", "", "recorder"),
    ("an end of another", H, "nidzaru_log_tally(&it->unpaired, it->under_way.kind != began_as);", "", "recorder"),
    ("no limit", H, "if (__atomic_load_n(&it->refused, __ATOMIC_RELAXED) && !limit) return NIDZARU_LOG_NO_LIMIT;", "", "recorder"),
    ("a full stream", H, "->begin : 0)); return fflush(to) || ferror(to) ? NIDZARU_LOG_STREAM : 0;", "->begin : 0)); return 0;", "recorder"),
    ("a full stream of lines", H, "nidzaru_log_put_all(to, logs, count, 0); return fflush(to) || ferror(to) ? NIDZARU_LOG_STREAM : 0;",
     "nidzaru_log_put_all(to, logs, count, 0); return 0;", "recorder"),
    ("an unfinished write that isn't written", H, "it->place == it->count ? &it->under_way : NULL", "0 ? &it->under_way : NULL", "recorder"),
    ("an unfinished read that is written", H, "it->under_way.kind == NIDZARU_LOG_WRITE && it->place", "it->under_way.kind != NIDZARU_LOG_NOTHING && it->place", "recorder"),
    ("a merge by ends", H, "next->begin < nidzaru_log_next(first)->begin", "next->end < nidzaru_log_next(first)->end", "recorder"),
    ("a pace that nobody keeps", H, "nidzaru_log_keep_pace(log); if (it->idle)", "if (it->idle)", "stamped"),
    ("a pace that is kept behind the begin", H, "nidzaru_log_keep_pace(log); " + BEGINS, BEGINS + " nidzaru_log_keep_pace(log);", "stamped"),
    ("a pace of one more", H, "turn < log->reach ||", "turn <= log->reach ||", "stamped"),
    ("a pace of a half", H, "<= turn + log->ahead / 2; tries++)", "<= turn; tries++)", "stamped"),
    ("a pace by its own log", H, "__atomic_load_n(&log->beside[at]->state->turn", "__atomic_load_n(&log->state->turn", "stamped"),
    ("a leave that is ignored", H, "nidzaru_log_set_turn(log, NIDZARU_LOG_LEFT); nidzaru_log_pause(log);", "nidzaru_log_pause(log);", "stamped"),
    ("a full log that is waited for", H, "nidzaru_log_is_full(log) ? NIDZARU_LOG_LEFT : log->state->turn + 1", "log->state->turn + 1", "stamped"),
    ("a full log that waits", H, "|| turn == NIDZARU_LOG_LEFT) return;", ") return;", "stamped"),
    ("a log without room that is waited for", H, "log->state->turn = room ? 0 : NIDZARU_LOG_LEFT;", "", "stamped"),
    ("a thread that is given up and waited for", H, "if (turn < slowest && !__atomic_load_n(&log->beside[at]->given_up, __ATOMIC_RELAXED)) slowest",
     "if (turn < slowest) slowest", "stamped"),
    ("a thread that is given up and waits for ever", H, "uint64_t slowest = log->state->turn;", "uint64_t slowest = NIDZARU_LOG_LEFT;", "stamped"),
    ("a pace of 0 that waits", H, "if (!log->ahead || turn", "if (turn", "stamped"),
    ("a pace that nobody keeps in Rust", RUST, "pace.keep(wait_a_little());", "let _ = pace;", "log.rs"),
    ("a pace of one more in Rust", RUST, "if turn >= self.reach &&", "if turn > self.reach &&", "log.rs"),
    ("a leave that is ignored in Rust", RUST, "pub fn leave(&self) { if let Some(pace) = &self.pace {", "pub fn leave(&self) { if let (Some(pace), true) = (&self.pace, false) {", "log.rs"),
    ("a panic that is waited for", RUST, "if thread::panicking() {", "if false {", "log.rs"),
    ("a panic that is waited for, of what tells of a write", RUST, "let told = tell(&given); drop(leaves);", "drop(leaves); let told = tell(&given);",
     "log.rs"),
    ("a panic that is waited for, of what tells of a read", RUST, "let record = record(&given); drop(leaves);",
     "drop(leaves); let record = record(&given);", "log.rs"),
    ("a log without room that is waited for in Rust", RUST, "log.turn.0.store(if log.is_full() { LEFT } else { 0 }, Relaxed);",
     "log.turn.0.store(0, Relaxed);", "log.rs"),
    ("a thread that is given up and waited for in Rust", RUST, "self.feeds[at].turn.1.store(true, Relaxed);", "", "log.rs"),
    ("a thread that is given up and waited for once it ends in Rust", RUST, "self.feeds[at].turn.1.store(true, Relaxed);",
     "self.feeds[at].turn.0.store(LEFT, Relaxed);", "log.rs"),
    ("a thread that is given up and waits for ever in Rust", RUST, "others.fold(turn, |least, it|", "others.fold(LEFT, |least, it|", "log.rs"),
    ("a full log that is waited for in Rust", RUST, "turn == LEFT || self.is_full()", "turn == LEFT", "log.rs"),
    ("a write without an effect that stays", H, "nidzaru_log_tally(&log->state->unpaired, log->state->under_way.kind != NIDZARU_LOG_WRITE); nidzaru_log_rest(log);",
     "nidzaru_log_tally(&log->state->unpaired, log->state->under_way.kind != NIDZARU_LOG_WRITE);", "recorder"),
    ("a write without an effect as a write", H,
     "nidzaru_log_tally(&log->state->unpaired, log->state->under_way.kind != NIDZARU_LOG_WRITE); nidzaru_log_rest(log);", "nidzaru_log_end_write(log);", "recorder"),
    ("a read without an effect", H, "nidzaru_log_tally(&log->state->unpaired, log->state->under_way.kind != NIDZARU_LOG_WRITE); nidzaru_log_rest", "nidzaru_log_rest", "recorder"),
    ("a count before its operation", H, COUNTED, "__atomic_store_n(&it->count, it->count + 1, __ATOMIC_RELEASE); next = &log->operations[it->count - 1]; " + KEPT, "steps"),
    ("a rest before the count", H, COUNTED, "it->under_way.kind = NIDZARU_LOG_NOTHING; " + COUNTED, "steps"),
    ("a kind before its begin", H, "it->place = it->count; " + BEGUN, "it->under_way.kind = kind; it->place = it->count; " + BEGUN, "steps"),
    ("a kind before its record", H, "log->state->under_way.record = nidzaru_log_record_of(number, data, size); nidzaru_log_begin",
     "log->state->under_way.kind = NIDZARU_LOG_WRITE; log->state->under_way.record = nidzaru_log_record_of(number, data, size); "
     "log->state->under_way.kind = NIDZARU_LOG_NOTHING; nidzaru_log_begin", "steps"),
    ("words that are the last ones", H, "if (record.kept < NIDZARU_LOG_WORDS) record.words[record.kept++] = word;",
     "record.words[record.kept < NIDZARU_LOG_WORDS ? record.kept++ : NIDZARU_LOG_WORDS - 1] = word;", "recorder"),
    ("one word less than is to be kept", H, "if (record.kept < NIDZARU_LOG_WORDS) record", "if (record.kept + 1 < NIDZARU_LOG_WORDS) record", "recorder"),
    ("words that aren't written", H, "for (uint64_t at = 0; at < it->kept; at++) fprintf", "for (uint64_t at = 0; at < 0; at++) fprintf", "recorder"),
    ("words without the opening's", H, 'nidzaru_log_put_record(to, "opening", &opening);',
     'nidzaru_log_record bare = opening; bare.kept = 0; nidzaru_log_put_record(to, "opening", &bare);', "recorder"),
    ("a log of other words", H, "|| it->words != NIDZARU_LOG_WORDS) return 0;", ") return 0;", "recorder"),
    ("more words than are kept", H, "if (!nidzaru_log_is_record(&one->record)) return 0;", "", "recorder"),
    ("more words under way than are kept", H, "|| !nidzaru_log_is_record(&it->under_way.record)) return 0;", ") return 0;", "recorder"),
    ("a begin that isn't told", H, "it->place = it->count; " + BEGUN, BEGUN, "steps"),
    ("an operation twice", H, "&& it->place == it->count ?", "?", "steps"),
    ("a file that nobody else sees", H, "nidzaru_log_map(file, size, MAP_SHARED)", "nidzaru_log_map(file, size, MAP_PRIVATE)", "steps"),
    ("a log of another file", H, "memcmp(it->magic, NIDZARU_LOG_MAGIC, sizeof it->magic) ||", "", "recorder"),
    ("a log that was cut off", H, "nidzaru_log_size(it->room) != size ||", "", "recorder"),
    ("a full log in a file", H, "it->count > it->room", "it->count >= it->room", "recorder"),
    ("a file that stays open", H, "if (file >= 0) close(file); if (!block && made", "if (!block && made", "recorder"),
    ("a file that was left and stays open", H, "if (file >= 0) close(file); memset", "memset", "recorder"),
    ("a file that is emptied before it is known to take a log", H, "? open(path, O_RDWR | O_CREAT, 0666) : made;",
     "? open(path, O_RDWR | O_CREAT | O_TRUNC, 0666) : made;", "recorder"),
    ("a file that stays longer if it takes no log", H, "if (before >= 0) (void)!ftruncate(file, before);", "", "recorder"),
    ("a file that stays longer than its log", H, "if (block && !ftruncate(file, length)) return block;", "if (block) return block;", "recorder"),
    ("a file that is made and takes no log", H, "if (!block && made >= 0) unlink(path);", "", "recorder"),
    ("a file that is there and is taken away", H, "if (!block && made >= 0) unlink(path);", "if (!block) unlink(path);", "recorder"),
    ("a closed log that keeps its place in memory", H, "if (log->mapped) munmap(log->state, log->mapped);", "", "recorder"),
    ("an operation of no kind", H, "one->kind < NIDZARU_LOG_WRITE ||", "", "recorder"),
    ("an operation of an unknown kind", H, "one->kind > NIDZARU_LOG_REFUSED ||", "", "recorder"),
    ("an operation that ends before it begins", H, "|| one->begin > one->end) return 0;", ") return 0;", "recorder"),
    ("lines by a zero of their own", H, "nidzaru_log_put_all(to, logs, count, 0);", "nidzaru_log_put_all(to, logs, count, nidzaru_log_next(logs[0])->begin);", "recorder"),
    ("lines of a log that lost one", H, "int fault = nidzaru_log_fault(logs, count, 1);", "int fault = 0;", "recorder"),
    ("a floor that is one too high", H, FLOOR, FLOOR.replace("log->floor = floor;", "log->floor = floor + 1;"), "recorder"),
    ("a count that is looked at before the begin", H, f"{IDLE} {BEGIN} {UNDER_WAY} {COUNT}", f"{COUNT} {IDLE} {BEGIN} {UNDER_WAY}", "drained"),
    ("a pause that is looked at behind the count", H, f"{IDLE} {BEGIN} {UNDER_WAY} {COUNT}", f"{BEGIN} {UNDER_WAY} {COUNT} {IDLE}", "drained"),
    ("a clock that is looked at behind the threads", H, FLOOR, FLOOR.replace("floor = now;", "floor = nidzaru_log_stamp_begin(0);"), "drained"),
    ("a floor above what is under way", H, FLOOR, FLOOR.replace("if (idle || log->given_up) ", ""), "recorder"),
    ("a floor that a thread without operations holds", H, FLOOR, FLOOR.replace("idle || ", ""), "recorder"),
    ("a floor that a thread holds that was given up", H, FLOOR, FLOOR.replace(" || log->given_up", ""), "recorder"),
    ("a floor that falls", H, FLOOR, FLOOR.replace("if (floor > log->floor) ", ""), "recorder"),
    ("a floor above the end of what ended last", H, "[log->counted - 1].end + 1;", "[log->counted - 1].end + 2;", "recorder"),
    ("a floor of the first threads alone", H, "for (size_t at = 1; at < count; at++) {", "for (size_t at = 1; at < 1; at++) {", "recorder"),
    ("a floor that hasn't risen", H, "if (floor <= before) return before;", "if (floor < before) return before;", "recorder"),
    ("a drain that leaves out a line", H, "if (log->merged < log->counted) return next;", "if (log->merged + 1 < log->counted) return next;", "recorder"),
    ("lines of a drain by ends", H, "next->begin < nidzaru_log_next_drained(first)->begin", "next->end < nidzaru_log_next_drained(first)->end", "recorder"),
    ("many lines without a floor", H, "lines++ % 16 == 15 &&", "0 &&", "recorder"),
    ("a floor between lines that is one too high", H, "nidzaru_log_put_floor(to, floor, begin, first);", "nidzaru_log_put_floor(to, floor, begin + 1, first);", "recorder"),
    ("lines of a drain that aren't counted", H, "log->written++;", "", "recorder"),
    ("a drain of a log with a fault", H, "return nidzaru_log_fault(logs, count, 0);", "return 0;", "recorder"),
    ("a fault that isn't told by a line", H, 'fputs("{\\"kind\\":\\"fault\\"}\\n", to);', "(void)to;", "recorder"),
    ("lines of a log with a fault", H, "} else if (count) { nidzaru_log_put_counted", "}\n if (count) { nidzaru_log_put_counted", "recorder"),
    ("a drain onto a stream that is full", H, "if (fflush(to) || ferror(to)) return NIDZARU_LOG_STREAM; return fault;", "return fflush(to) ? fault : fault;", "recorder"),
    ("a thread that begins again unseen", H, "if (it->idle) nidzaru_log_wake(log);", "", "recorder"),
    ("a thread that begins again without a fence", H, "nidzaru_log_show(); log->last_end", "log->last_end", "stamped"),
    ("a thread that begins again before it is seen", H, "nidzaru_log_show(); log->last_end = nidzaru_log_stamp_end();", "nidzaru_log_show();", "stamped"),
    ("a thread that begins again and nothing holds the compiler", H, "nidzaru_log_show(void) { NIDZARU_LOG_ORDER(signal_fence);", "nidzaru_log_show(void) {", "stamped"),
    ("a full log that holds the floor", H, "if (nidzaru_log_is_full(log)) nidzaru_log_pause(log);", "", "recorder"),
    ("a new log that holds the floor", H, "log->state->idle = 1;", "", "recorder"),
    ("a thread that left and holds the floor", H, "nidzaru_log_set_turn(log, NIDZARU_LOG_LEFT); nidzaru_log_pause(log);",
     "nidzaru_log_set_turn(log, NIDZARU_LOG_LEFT);", "recorder"),
    *[("a write that is under way and holds no floor" + name, H, "if (log->state->under_way.kind == NIDZARU_LOG_WRITE) return;", "", test)
      for name, test in (("", "recorder"), (" during a drain", "drained"))],
    ("a read that is under way as its thread leaves, and holds the floor", H, "if (log->state->under_way.kind == NIDZARU_LOG_WRITE) return;",
     "if (log->state->under_way.kind) return;", "recorder"),
    ("a kind that is looked at again", H, 'is_under_way ? "write" : kinds[it->kind];', "kinds[it->kind];", "drained"),
    ("a write that is given up and written twice", H, "log->given_up > 1 && next->begin", "0 && next->begin", "recorder"),
    ("a write that was given up and ended and isn't written", H, "log->given_up > 1 && next->begin", "log->given_up && next->begin", "recorder"),
    ("a write that is given up and isn't written", H, "return log->under_way ? &log->state->under_way : NULL;", "return NULL;", "recorder"),
    ("a read that is given up and written", H, "== NIDZARU_LOG_WRITE; log->counted", "!= NIDZARU_LOG_NOTHING; log->counted", "recorder"),
    ("a write that ended and is given up", H, "&& log->given_up < 3 && log->state->place == log->counted;", "&& log->given_up < 3;", "recorder"),
    ("a thread that is given up again", H, "if (log->given_up) return; nidzaru_log_set_given_up(log, 1);", "nidzaru_log_set_given_up(log, 1);", "recorder"),
    ("a write that is lost as its thread is given up before its kind", H, "|| (log->merged < log->counted && log->operations[log->merged].kind != NIDZARU_LOG_READ);",
     ";", "drained"),
    ("a write below the floor as its thread is given up before its kind", H, "return log->under_way || (log->merged", "return (log->merged", "drained"),
    ("a write that is there and said to have come back", H, "nidzaru_log_set_given_up(log, 3);", "", "drained"),
    ("a read that is said to have come back", H, "&& log->operations[log->merged].kind != NIDZARU_LOG_READ", "", "drained"),
    ("a thread that comes back unseen", H, "if (nidzaru_log_came_back(logs[at])) return NIDZARU_LOG_CAME_BACK;", "", "recorder"),
    ("an end of threads that aren't given up", H, "nidzaru_log_give_up(logs[at]); fault", "(void)logs[at]; fault", "recorder"),
    ("a write without an effect as a write in Rust", RUST, "if took_effect {", "if took_effect || true {", "log.rs"),
    ("lines by a zero of their own in Rust", RUST, "put_all(to, logs, 0)?", "put_all(to, logs, 100)?", "log.rs"),
    ("no lfence in Rust", RUST, "_mm_lfence();", "", "instructions"),
    ("no mfence in Rust", RUST, "_mm_mfence();", "", "instructions"),
    ("rdtsc at the end in Rust", RUST, "__rdtscp(&mut processor)", "{ let _ = &mut processor; _rdtsc() }", "instructions"),
    ("a read that ends before its call", RUST, "let given = call(); let end = clock::end(self.fenced); let record",
     "let end = clock::end(self.fenced); let given = call(); let record", "log.rs"),
    ("a write that ends before its call", RUST, "let given = call(); let end = clock::end(self.fenced); let told",
     "let end = clock::end(self.fenced); let given = call(); let told", "log.rs"),
    ("a read that begins behind its call", RUST, "let begin = self.begin(); let leaves = LeavesByPanic(self.pace.as_ref()); let given = call();",
     "let given = call(); let begin = self.begin(); let leaves = LeavesByPanic(self.pace.as_ref());", "log.rs"),
    ("an end that isn't kept in Rust", RUST, "self.last_end = operation.end;", "", "log.rs"),
    ("operations that touch in Rust", RUST, "if now > last_end", "if now >= last_end", "log.rs"),
    ("unfenced that does nothing", RUST, "Log { fenced: false, ..self }", "self", "log.rs"),
    ("a log that is never fenced", RUST, "fenced: true, under_way: None", "fenced: false, under_way: None", "log.rs"),
    ("a hash of 16 words in Rust", RUST, "words.iter().copied())", "words.iter().copied().take(16))", "log.rs"),
    ("a hash of 16 words of bytes in Rust", RUST, "bytes.len(), words)", "bytes.len(), words.take(16))", "log.rs"),
    ("words without their size", RUST, "8 * words.len(), words", "8, words", "log.rs"),
    ("bytes without their size", RUST, "bytes.len(), words)", "8, words)", "log.rs"),
    ("words that are the last ones in Rust", RUST, "if let Some(next) = self.words.get_mut(self.kept) { *next = word; self.kept += 1; }",
     "self.words[self.kept.min(WORDS - 1)] = word; self.kept = WORDS.min(self.kept + 1);", "log.rs"),
    ("words that aren't written in Rust", RUST, 'in self.words().iter().enumerate() {', 'in self.words()[self.kept..].iter().enumerate() {', "log.rs"),
    ("a header without words in Rust", RUST, 'opening.put(to, "opening")?;', 'Record { kept: 0, ..opening }.put(to, "opening")?;', "log.rs"),
    ("bytes in another order", RUST, "u64::from_le_bytes(word)", "u64::from_be_bytes(word)", "log.rs"),
    ("no flush of a merge", RUST, '{count}}}")?; to.flush() }', '{count}}}") }', "log.rs"),
    ("no flush of lines", RUST, "put_all(to, logs, 0)?; to.flush()?;", "put_all(to, logs, 0)?;", "log.rs"),
    ("a loss that isn't counted in Rust", RUST, "self.lost += 1;", "", "log.rs"),
    ("a floor above what is under way in Rust", RUST, "let floor = if idle || self.given_up.is_some() { now }", "let floor = if true { now }", "log.rs"),
    ("a floor that an idle thread holds in Rust", RUST, "let floor = if idle || self", "let floor = if self", "log.rs"),
    ("a floor that a thread holds that was given up in Rust", RUST, "if idle || self.given_up.is_some() {", "if idle {", "log.rs"),
    ("a floor that falls in Rust", RUST, "self.floor = self.floor.max(floor);", "self.floor = floor;", "log.rs"),
    ("a floor above the last end in Rust", RUST, ".load().end + 1);", ".load().end + 2);", "log.rs"),
    ("a floor that hasn't risen in Rust", RUST, "if floor <= self.floor {", "if floor < self.floor {", "log.rs"),
    ("a floor that is one too high in Rust", RUST, "self.put_floor(to, line.begin, self.feeds[at].who)?;", "self.put_floor(to, line.begin + 1, self.feeds[at].who)?;", "log.rs"),
    ("many lines without a floor in Rust", RUST, "if lines % 16 == 0 &&", "if false &&", "log.rs"),
    ("a drain that leaves out a line in Rust", RUST, "while self.merged < self.counted {", "while self.merged + 1 < self.counted {", "log.rs"),
    ("a thread that begins again unseen in Rust", RUST, "if feed.idle.load(Relaxed) {", "if false {", "log.rs"),
    ("a thread that begins again before it is seen in Rust", RUST, "self.last_end = feed.wake();", "feed.wake();", "log.rs"),
    ("a full log that holds the floor in Rust", RUST, "if self.is_full() { self.pause(); }", "", "log.rs"),
    ("a thread that left and holds the floor in Rust", RUST, "pace.turn().store(LEFT, Relaxed); } self.pause();", "pace.turn().store(LEFT, Relaxed); }", "log.rs"),
    ("a write that is given up and written twice in Rust", RUST, "if self.is_new || self.given_up != Some(begin) {", "if true {", "log.rs"),
    ("a write that was given up and ended and isn't written in Rust", RUST, "if self.is_new || self.given_up", "if self.given_up", "log.rs"),
    ("a write that ended and is given up in Rust", RUST, "&& !self.is_open && writing == self.counted + 1;", "&& !self.is_open && writing > 0;", "log.rs"),
    ("a write that is lost as its thread is given up before its kind in Rust", RUST, "(self.under_way || wrote())", "self.under_way", "log.rs"),
    ("a write below the floor as its thread is given up before its kind in Rust", RUST, "(self.under_way || wrote())", "wrote()", "log.rs"),
    ("a write that is there and said to have come back in Rust", RUST, "(self.under_way, self.is_open) = (false, true);", "self.under_way = false;", "log.rs"),
    ("a read that is said to have come back in Rust", RUST, "&& feed.slots[self.merged as usize].load().kind != Kind::Read;", ";", "log.rs"),
    ("a thread that is given up again in Rust", RUST, "if seen.given_up.is_none() {", "if true {", "log.rs"),
    ("a thread that comes back unseen in Rust", RUST, "last != feed.begin.load(Acquire) ||", "", "log.rs"),
    ("an operation behind a write that panicked in Rust", RUST, "self.unpaired = true;", "", "log.rs"),
    ("a drain behind a write that panicked in Rust", RUST, "feed.unpaired.store(true, Relaxed);", "let _ = feed;", "log.rs"),
    ("a write that panicked and holds no floor in Rust", RUST, "if let (Some(feed), None) = (&self.feed, &self.under_way) {",
     "if let Some(feed) = &self.feed {", "log.rs"),
    ("a write that is lost if what says its effect panics in Rust", RUST, "let told = tell(&given);", "self.under_way = None; let told = tell(&given);", "log.rs"),
    ("a write that ended and stays under way in Rust", RUST, "self.under_way = None;", "", "log.rs"),
    ("a fault that isn't told by a line in Rust", RUST, 'writeln!(to, "{{\\"kind\\":\\"fault\\"}}")?;', "", "log.rs"),
    ("a drain of a log that lost one in Rust", RUST, "} else if lost > 0 {", "} else if lost > 9 {", "log.rs"),
    ("a drain of a refused write in Rust", RUST, "self.refused.store(true, Relaxed);", "", "log.rs"),
    ("no flush of a drain in Rust", RUST, "Ok(to.flush()?)", "Ok(())", "log.rs"),
    ("no limit in Rust", RUST, "limit.is_none() && self.operations", "false && self.operations", "log.rs"),
]


def call(command, **more):
    """The status and what was said; what doesn't end is killed with all that it began."""
    with subprocess.Popen([*BEFORE, *command], stdout=subprocess.PIPE, stderr=subprocess.PIPE, text=True, errors="replace", start_new_session=True, **more) as it:
        try:
            out, err = it.communicate(timeout=LONGEST)
        except subprocess.TimeoutExpired:
            os.killpg(it.pid, signal.SIGKILL)
            it.communicate()
            return 124, "it didn't end"
        return it.returncode, out + err


class Room:
    """A folder with the recorder's files, in which one edit after the other is made."""

    def __init__(self, folder):
        self.folder = folder
        self.restore()
        with open(f"{folder}/calls.rs", "w", encoding="utf-8") as file:
            file.write(CALLS)
        with open(f"{folder}/calls.c", "w", encoding="utf-8") as file:
            file.write(CALLS_IN_C)
        with open(f"{folder}/lib.rs", "w", encoding="utf-8") as file:
            file.write("pub mod log;\n")

    def restore(self):
        for path in (H, RUST):
            self.edit(path, None, None)

    def edit(self, path, old, new):
        with open(f"{TOP}/{path}", encoding="utf-8") as file:
            text = file.read()
        if old is not None:
            pattern = r"\s+".join(re.escape(word) for word in old.split())
            found = len(re.findall(pattern, text))
            if found != 1 or new == old:
                raise ValueError(f"its old text stands {found} times in {path}")
            text = re.sub(pattern, lambda _: new, text)
        with open(f"{self.folder}/{os.path.basename(path)}", "w", encoding="utf-8") as file:
            file.write(text)

    # Each test gives: whether it was built, whether it passed, and what was said.
    def program(self, name):
        source, words, its_words = PROGRAMS[name]
        out = f"{self.folder}/program"
        status, said = call([*C11, *words, "-I", self.folder, f"{TOP}/c/tests/{source}", "-o", out])
        if status:
            return False, False, said
        status, said = call([out, *its_words], cwd=self.folder)
        return True, status == 0 and said.split("\n")[-2:] == ["passed", ""], said

    def unit_tests(self):
        out = f"{self.folder}/tests"
        status, said = call(["rustc", "--edition", "2021", "--test", "--crate-name", "nidzaru", f"{self.folder}/lib.rs", "-o", out])
        if status:
            return False, False, said
        status, said = call([out])
        return True, status == 0 and "test result: ok. 0 passed" not in said, said

    def instructions(self):
        out = f"{self.folder}/calls.s"
        status, said = call(["rustc", "--edition", "2021", "-O", "-C", "codegen-units=1", "--crate-type", "lib", "--emit", "asm",
                             f"{self.folder}/calls.rs", "-o", out])
        if status:
            return False, False, said
        with open(out, encoding="utf-8") as file:
            text = file.read()
        found = {name: re.findall(r"\b(rdtscp?|[lm]fence|the_call)\b", text.split(f"\n{name}:\n")[1].split(".cfi_endproc")[0]) for name in NAMES}
        wrong = [f"{name}: {' '.join(order)}" for name, order in found.items() if order != ORDER]
        return True, not wrong, "FAILED: " + "; ".join(wrong)

    def arm_instructions(self, name):
        out = f"{self.folder}/calls.s"
        status, said = call([*ARM_C, f"-DNIDZARU_LOG_FENCE={int(name == 'arm')}", "-I", self.folder, f"{self.folder}/calls.c", "-o", out])
        if status:
            return False, False, said
        with open(out, encoding="utf-8") as file:
            text = file.read()
        wrong = []
        for function in "one_read", "one_write":
            body = text.split(f"\n{function}:\n")[1].split(".cfi_endproc")[0]
            order = re.findall(r"(?m)^\s+(mrs|isb|d[ms]b \w+|bl\s+the_call)\b", re.sub(r"(?m)^(\s+d[ms]b)\s+", r"\1 ", body))
            order = [it.split()[-1] if it.startswith("bl") else it for it in order]
            if order != ARM_ORDERS[name]:
                wrong.append(f"{function}: {' '.join(order)}")
        return True, not wrong, "FAILED: " + "; ".join(wrong)

    def test(self, name):
        if name in ARM_ORDERS:
            return self.arm_instructions(name)
        if name == "log.rs":
            return self.unit_tests()
        return self.instructions() if name == "instructions" else self.program(name)


def verdict(room, path, old, new, test):
    """Nothing if the edit is refused, or why it isn't."""
    try:
        room.edit(path, old, new)
    except ValueError as why:
        return str(why)
    built, passed, said = room.test(test)
    room.restore()
    if not built:
        return f"{test} isn't built: {said[:400]}"
    return f"{test} passes" if passed else None


def has(test):
    """Whether this machine can run the test."""
    needs = ARM_C[0] if test in ARM_ORDERS else "rustc" if test in ("log.rs", "instructions") else "gcc"
    return any(os.access(f"{folder}/{needs}", os.X_OK) for folder in os.environ["PATH"].split(os.pathsep))


def main(words):
    edits = [it for it in PLANTED if has(it[4]) and (not words or any(word in it[0] for word in words))]
    failed = []
    with tempfile.TemporaryDirectory() as folder:
        room = Room(folder)
        for test in sorted({it[4] for it in edits}):
            built, passed, said = room.test(test)
            if not (built and passed):
                failed.append(f"{test}: FAILED over the files as they are: {said[:400]}")
        if has("recorder") and verdict(room, H, "/* Before a read. */", "", "recorder") != "recorder passes":
            failed.append("planted: a comment that is dropped: FAILED: it counts as refused")
        for name, *edit in edits:
            why = verdict(room, *edit)
            if why:
                failed.append(f"planted: {name}: FAILED: {why}")
    tests = len({it[4] for it in edits}) + has("recorder")
    for it in failed:
        print(f"test: {it}")
    print(f"{tests + len(edits) - len(failed)} passed, {len(failed)} failed")
    return 1 if failed or not edits else 0


if __name__ == "__main__":
    sys.exit(main(sys.argv[1:]))
