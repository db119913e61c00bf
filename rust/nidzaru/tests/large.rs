//! Records of more than 4,096 bytes: each call in both mechanisms, on a small stack where records lie elsewhere, and two threads at once.

use nidzaru::{register_from, FourSlot, Mechanism, Sides, Triple};
use std::thread;

/// Runs it in a thread with so many kilobytes of stack.
fn on_stack<R: Send>(kilobytes: usize, run: impl FnOnce() -> R + Send) -> R {
    thread::scope(|threads| {
        let thread = thread::Builder::new().stack_size(kilobytes << 10).spawn_scoped(threads, run).unwrap();
        thread.join().unwrap()
    })
}

/// A record on the heap, each word of which is this one.
fn of<const N: usize>(word: u64) -> Box<[u64; N]> {
    vec![word; N].into_boxed_slice().try_into().unwrap()
}

/// A register of records that are as large as the library's, made on a stack of so many records.
fn made<const N: usize, M: Mechanism>() -> Sides<[u64; N], M> {
    let first = of::<N>(0);
    on_stack(128 + MAKE_RECORDS * N / 128, || register_from(&*first).unwrap())
}

/// No more records does a make put on the stack.
const MAKE_RECORDS: usize = 2;

/// All calls but a make run on a small stack.
fn calls<const N: usize, M: Mechanism>() {
    let (mut writer, mut reader) = made::<N, M>();
    let (mut item, mut next) = (of::<N>(9), of::<N>(1));
    on_stack(128, || {
        assert_eq!((reader.read_into(&mut item), reader.number()), (0, 0));
        assert!(*item == *of::<N>(0));
        for n in 1..20 {
            next.fill(n);
            writer.write(&next).unwrap();
            assert!(reader.has_news() && reader.look() == n);
            assert_eq!(reader.read_into(&mut item), n);
            assert!(*item == *next);
        }
        drop((writer, reader));
    });
}

#[test]
fn each_call_at_each_large_size() {
    calls::<8192, FourSlot>();
    calls::<8192, Triple>();
    calls::<131_072, FourSlot>();
    calls::<131_072, Triple>();
}

/// What lies where it is held or filled comes to no stack.
fn in_place<const N: usize>() {
    let (mut writer, mut reader) = made::<N, Triple>();
    on_stack(128, || writer.write_with(|record| record.fill(7)).unwrap());
    on_stack(128, || {
        let held = reader.hold();
        writer.write(&of::<N>(8)).unwrap();
        assert!(*held == *of::<N>(7));
        assert!(*reader.hold() == *of::<N>(8) && reader.number() == 2);
    });
}

#[test]
fn records_in_place_at_each_large_size() {
    in_place::<8192>();
    in_place::<131_072>();
}

/// A record that isn't as large as the library's goes through copies on the stack.
fn copied<const N: usize, M: Mechanism>() {
    let (mut writer, mut reader) = register_from::<_, M>(&[1_u8; N]).unwrap();
    assert!(reader.latest() == [1; N]);
    writer.write(&[2; N]).unwrap();
    let mut item = [0; N];
    assert_eq!((reader.read_into(&mut item), item == [2; N], reader.latest() == [2; N]), (1, true, true));
}

#[test]
fn records_between_the_sizes() {
    on_stack(32 << 10, || {
        copied::<4097, FourSlot>();
        copied::<4097, Triple>();
        copied::<65_535, FourSlot>();
        copied::<65_537, Triple>();
        copied::<1_048_575, FourSlot>();
        copied::<1_048_575, Triple>();
    });
}

/// Two threads at once: nothing torn, no number that falls.
fn at_once<const N: usize, M: Mechanism>(many: u64) {
    let (mut writer, mut reader) = made::<N, M>();
    thread::scope(|threads| {
        threads.spawn(move || {
            let mut item = of::<N>(0);
            for n in 1..=many {
                item.fill(n);
                writer.write(&item).unwrap();
            }
        });
        threads.spawn(move || {
            let (mut item, mut last) = (of::<N>(0), 0);
            while last < many {
                let number = reader.read_into(&mut item);
                assert!(number >= last && item.iter().all(|word| *word == number), "{last}, then {number}");
                last = number;
            }
        });
    });
}

#[test]
fn large_records_of_two_threads() {
    at_once::<8192, FourSlot>(2000);
    at_once::<8192, Triple>(2000);
    at_once::<131_072, FourSlot>(200);
    at_once::<131_072, Triple>(200);
}
