//! Two threads at full speed over each mechanism and several records: nothing torn, no number that falls, none below a look.

use nidzaru::{register, triple_register, Mechanism, Refused, Sides};
use std::sync::atomic::{AtomicU64, Ordering::SeqCst};
use std::sync::Arc;
use std::thread;

const MANY: u64 = 20_000;

/// What a reader saw.
#[derive(Debug, Default, PartialEq)]
struct Seen {
    last: u64,
    torn: u64,
    fell: u64,
}

/// Runs both sides at once. Now and then the writer waits for an answer, so that there are many.
fn run<T: Copy + Send + PartialEq + 'static, M: Mechanism>(
    (mut writer, mut reader): Sides<T, M>,
    of: impl Fn(u64) -> T + Copy + Send + 'static,
) {
    let answers = Arc::new(AtomicU64::new(0));
    let counted = Arc::clone(&answers);
    let reading = thread::spawn(move || {
        let (mut seen, mut fresh) = (Seen::default(), 0);
        while seen.last < MANY {
            let looked = if seen.last % 3 == 0 { reader.look() } else { 0 };
            let item = if seen.last % 2 == 0 {
                reader.latest()
            } else {
                let mut item = of(0);
                assert_eq!(reader.read_into(&mut item), reader.number());
                item
            };
            let number = reader.number();
            seen.torn += u64::from(item != of(number));
            seen.fell += u64::from(number < seen.last || number < looked);
            fresh += u64::from(number > seen.last);
            seen.last = number;
            counted.fetch_add(1, SeqCst);
        }
        (seen, fresh, reader)
    });
    let writing = thread::spawn(move || {
        for n in 1..=MANY {
            writer.write(&of(n))?;
            if n % 256 == 0 {
                let before = answers.load(SeqCst);
                while n < MANY && answers.load(SeqCst) == before {
                    thread::yield_now();
                }
            }
        }
        Ok::<(), Refused>(())
    });
    writing.join().unwrap().unwrap();
    let (seen, fresh, mut reader) = reading.join().unwrap();
    assert_eq!(seen, Seen { last: MANY, torn: 0, fell: 0 });
    assert!(fresh >= MANY / 512, "the threads didn't run at once: {fresh}");
    assert!(reader.latest() == of(MANY), "the last record after the writer went");
}

/// In both mechanisms.
fn run_both<T: Copy + Send + PartialEq + 'static>(of: impl Fn(u64) -> T + Copy + Send + 'static) {
    run(register(of(0)).unwrap(), of);
    run(triple_register(of(0)).unwrap(), of);
}

#[derive(Clone, Copy, PartialEq)]
struct Limits {
    low: f64,
    high: f64,
    serial: u32,
}

#[test]
fn words_that_are_passed_where_they_lie() {
    run_both(|n| [n]);
    run_both(|n| [n, n + 1, n + 2]);
    run_both(|n| [n; 16]);
    run_both(|n| [n * 5; 512]);
}

#[test]
fn records_that_go_through_a_copy() {
    run_both(|n| n as u32);
    run_both(|n| [n as u32; 6]);
    run_both(|n| [n; 5]);
    run_both(|n| [n as u8; 3000]);
}

#[test]
fn records_with_padding() {
    run_both(|n| Limits { low: -(n as f64), high: n as f64, serial: n as u32 });
    run_both(|n| (n as u8, n));
    run_both(|n| if n % 2 == 0 { None } else { Some(n) });
}
