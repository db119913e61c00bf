//! Boards: each call at the edges of the library's sizes, what it refuses, and threads at full speed.

use nidzaru::{
    board, board_over, limited_board, places, places_over, triple_board, BoardError, FourSlot, Mechanism, Place, Refused, Since, Stamp,
    Triple, GREATEST_LIMIT,
};
use std::fmt::Debug;
use std::sync::{Arc, Mutex};
use std::thread;

fn calls<T: Copy + Send + PartialEq + Debug, M: Mechanism>(made: Result<Vec<Place<T, M>>, BoardError>, first: T, next: T) {
    let mut places = made.unwrap();
    let n = places.len();
    assert_eq!((places[n - 1].read(), places[n - 1].stamp()), (first, Stamp::default()));
    let told = places[1].write(&next).unwrap();
    assert_eq!((told, places[1].stamp()), (Stamp { tag: 1, writer: 1 }, told));
    assert_eq!((places[0].read_since(told), places[0].stamp()), (Since::Fresh(next), told));
    let later = Stamp { tag: 1, writer: 2 };
    assert!(told < later);
    assert_eq!((places[0].read_since(later), places[0].stamp()), (Since::Older(next), told));
    assert!(!places[0].has_news() && places[0].news().is_none() && !places[1].has_news() && places[1].news().is_none());
    if n > 2 {
        assert!(places[2].has_news() && places[2].has_news() && places[2].stamp() == Stamp::default());
        assert_eq!((places[2].news(), places[2].stamp(), places[2].news()), (Some(next), told, None));
    }
    let mut item = first;
    assert_eq!((places[0].read_into(&mut item), item, places[0].stamp()), (told, next, told));
    drop(places.remove(1));
    assert_eq!(places[0].read(), next);
    assert_eq!(places[0].write(&first), Ok(Stamp { tag: 2, writer: 0 }));
    assert_eq!(places[0].read(), first);
}

macro_rules! at_sizes {
    ($($size:literal)*) => {$(
        let (first, next) = ([1u8; $size], [2u8; $size]);
        calls(board(2, first), first, next);
        calls(triple_board(3, first), first, next);
    )*};
}

#[test]
fn each_call_at_each_size() {
    at_sizes!(1 7 8 9 23 24 25 63 64 65 127 128 129 255 256 257 1023 1024 1025 4095 4096);
    calls(board(16, [1u64; 3]), [1; 3], [2; 3]);
    calls(triple_board(16, [1u64; 512]), [1; 512], [2; 512]);
    calls(board(4, 'a'), 'a', 'b');
    calls(triple_board(16, Some(1.5)), Some(1.5), None);
}

#[test]
fn as_many_places_as_an_array_has() {
    let mut sixteen: [Place<u64>; 16] = places(1).unwrap();
    let told = sixteen[15].write(&2).unwrap();
    assert_eq!((told, sixteen[0].read()), (Stamp::new(1, 15), 2));
    let [_, mut second] = places_over::<_, Triple, 2>(3).unwrap();
    assert_eq!(second.read(), 3);
}

#[test]
fn what_no_board_has_is_refused() {
    for n in [0, 1, 17, usize::MAX] {
        assert_eq!(board(n, 1).err(), Some(BoardError::Places));
    }
    for limit in [0, u64::MAX] {
        assert_eq!(limited_board::<_, FourSlot>(2, limit, 1).err(), Some(BoardError::Limit));
        assert_eq!(limited_board::<_, Triple>(2, limit, 1).err(), Some(BoardError::Limit));
    }
    assert!(limited_board::<_, Triple>(2, GREATEST_LIMIT, 1).is_ok());
    assert_eq!(BoardError::OutOfMemory.to_string(), "memory for a board was refused");
}

#[test]
fn tags_end_at_the_limit() {
    let mut places = limited_board::<_, Triple>(2, 2, 0).unwrap();
    assert!(places[0].write(&1).is_ok() && places[1].write(&2).is_ok());
    assert_eq!((places[0].write(&3), places[0].stamp()), (Err(Refused), Stamp::new(1, 0)));
    assert_eq!((places[0].read(), places[1].read()), (2, 2));
}

#[test]
fn an_older_answer_comes_with_its_stamp() {
    let mut places = board(2, 0).unwrap();
    places[1].write(&1).unwrap();
    assert_eq!((places[0].read_since(Stamp::new(9, 0)), places[0].stamp()), (Since::Older(1), Stamp::new(1, 1)));
}

#[test]
fn boards_without_a_limit() {
    fn unlimited<M: Mechanism>(places: Result<Vec<Place<u8, M>>, BoardError>) {
        let mut places = places.unwrap();
        for n in 1..=1_100_000 {
            assert_eq!(places[0].write(&1), Ok(Stamp::new(n, 0)));
        }
    }
    assert_eq!(GREATEST_LIMIT, 18_446_744_073_709_551_614);
    unlimited(board(2, 0));
    unlimited(triple_board(2, 0));
    unlimited(board_over::<_, FourSlot>(2, 0));
}

#[test]
fn stamps_are_in_order_and_printed() {
    let in_order = [(0, 0), (0, 1), (1, 0), (1, 15), (2, 0), (u64::MAX, 0)].map(|(tag, writer)| Stamp::new(tag, writer));
    assert!(in_order.is_sorted() && in_order.windows(2).all(|two| two[0] < two[1] && two[1] > two[0]));
    assert_eq!(in_order.iter().max(), Some(&in_order[5]));
    assert_eq!((Stamp::new(12, 3).to_string(), Stamp::default().to_string()), ("12.3".into(), "0.0".into()));
    assert_eq!((Stamp::new(12, 3).tag, Stamp::new(12, 3).writer), (12, 3));
}

/// The tasks of a board write and read at once, and each reads what another one told.
fn run<M: Mechanism, const N: usize>(places: Vec<Place<[u32; N], M>>, times: usize) {
    let told: Arc<Vec<Mutex<Stamp>>> = Arc::new(places.iter().map(|_| Mutex::default()).collect());
    let tasks: Vec<_> = places
        .into_iter()
        .enumerate()
        .map(|(me, mut place)| {
            let told = Arc::clone(&told);
            thread::spawn(move || {
                let mut last = Stamp::default();
                let whole = |item: [u32; N]| item.iter().all(|&word| word == item[0]);
                for n in 1..=times {
                    let stamp = place.write(&[(n * 16 + me) as u32; N]).unwrap();
                    assert!(stamp > last && stamp.writer == me as u64);
                    *told[me].lock().unwrap() = stamp;
                    assert!(whole(place.read()) && place.stamp() >= stamp);
                    let least = *told[(me + n) % told.len()].lock().unwrap();
                    match place.read_since(least) {
                        Since::Fresh(item) => assert!(whole(item) && place.stamp() >= least && place.stamp() >= stamp),
                        Since::Older(_) => panic!("an answer that is older than what was told"),
                    }
                    last = place.stamp();
                }
            })
        })
        .collect();
    for task in tasks {
        task.join().unwrap();
    }
}

#[test]
fn nothing_is_torn_and_no_stamp_falls() {
    for n in [2, 4, 16] {
        run(board(n, [0; 5]).unwrap(), 5_000);
        run(triple_board(n, [0; 5]).unwrap(), 5_000);
        run(board(n, [0; 1000]).unwrap(), 500);
        run(triple_board(n, [0; 1000]).unwrap(), 500);
    }
}
