//! Fans: what each reader of one writer gets, and under which number.

use nidzaru::{fan, fan_from, fan_over, Fan, FourSlot, Mechanism, Triple};
use std::fmt::Debug;
use std::sync::atomic::{AtomicBool, Ordering};

fn calls<T: Copy + Send + PartialEq + Debug, M: Mechanism>((mut writer, mut readers): Fan<T, 3, M>, first: T, next: T) {
    for reader in &mut readers {
        assert!(!reader.has_news());
        assert_eq!((reader.latest(), reader.number()), (first, 0));
    }
    assert_eq!(writer.write(&next), Ok(()));
    for reader in &mut readers {
        assert_eq!((reader.news(), reader.number(), reader.news()), (Some(next), 1, None));
    }
    assert_eq!((writer.write(&first), writer.write(&next)), (Ok(()), Ok(())));
    let [mut control, logger, mut display] = readers;
    assert_eq!((control.latest(), control.number()), (next, 3));
    drop(logger);
    assert_eq!(writer.write(&first), Ok(()));
    assert_eq!((display.latest(), display.number()), (first, 4));
    drop(writer);
    assert_eq!((control.latest(), control.number(), display.latest()), (first, 4, first));
}

macro_rules! at_sizes {
    ($($size:literal)*) => {$(
        let (first, next) = ([1_u8; $size], [2_u8; $size]);
        calls(fan(first).unwrap(), first, next);
        calls(fan_over::<_, Triple, 3>(first).unwrap(), first, next);
    )*};
}

#[test]
fn each_call_at_each_size() {
    at_sizes!(1 8 9 24 64 128 256 1024 4096);
    calls(fan([1_u64; 3]).unwrap(), [1; 3], [2; 3]);
    calls(fan_from::<_, FourSlot, 3>(&'a').unwrap(), 'a', 'b');
}

#[test]
fn a_fan_of_one_reader() {
    let (mut writer, [mut reader]) = fan(1).unwrap();
    assert_eq!((reader.number(), reader.has_news()), (0, false));
    writer.write(&2).unwrap();
    assert_eq!((reader.news(), reader.number()), (Some(2), 1));
    assert_eq!((reader.latest(), reader.number()), (2, 1));
    assert_eq!(format!("{writer:?}"), "FanWriter { .. }");
}

#[test]
fn what_is_held_is_each_readers_own() {
    let (mut writer, mut readers) = fan_over::<_, Triple, 2>([0_u64; 512]).unwrap();
    writer.write(&[7; 512]).unwrap();
    let [one, two] = readers.each_mut().map(|reader| reader.hold());
    assert_eq!((one[511], two[0]), (7, 7));
    assert_ne!(one.as_ptr(), two.as_ptr());
}

/// Says that the writer's thread is over, also if it panics.
struct Over<'a>(&'a AtomicBool);

impl Drop for Over<'_> {
    fn drop(&mut self) {
        self.0.store(true, Ordering::Release);
    }
}

/// One thread writes as fast as it can, and each reader has a thread of its own.
#[test]
fn threads_see_one_record_under_one_number() {
    const WRITES: u64 = 50_000;
    let (mut writer, readers) = fan::<_, 3>([0_u64; 3]).unwrap();
    let is_over = &AtomicBool::new(false);
    std::thread::scope(|threads| {
        for mut reader in readers {
            threads.spawn(move || {
                let mut last = 0;
                while last < WRITES {
                    let was_over = is_over.load(Ordering::Acquire);
                    let [low, value, high] = reader.latest();
                    assert!((low, value, high) == (reader.number(), 2 * low, 3 * low) && reader.number() >= last);
                    assert!(!was_over || low == WRITES);
                    last = low;
                }
            });
        }
        threads.spawn(move || {
            let _over = Over(is_over);
            let done = (1..=WRITES).try_for_each(|n| writer.write(&[n, 2 * n, 3 * n]));
            assert_eq!(done, Ok(()));
        });
    });
}
