//! A board whose three tasks each write and read in turn, or with the word `register` a four-slot register, recorded as JSON Lines on
//! standard output.
//!
//!     record_board OPERATIONS [register]

use nidzaru::log::{merge, Log, Record};
use nidzaru::{Place, Reader, Refused, Writer};
use std::env;
use std::error::Error;
use std::io::{self, BufWriter};
use std::thread;

/// A record of four words, the first of which is its number.
type Item = [u64; 4];

fn item(number: u64) -> Item {
    [number, number * 2, number * 5, number * 10]
}

/// The tasks' writes have different numbers.
fn run_place(me: u64, mut place: Place<Item>, log: &mut Log) -> Result<(), Refused> {
    for turn in 1.. {
        if log.is_full() {
            break;
        }
        if turn % 2 == 0 {
            let item = item(turn * 3 + me);
            log.write(Record::of_words(&item), || place.write(&item))?;
        } else {
            log.read(|| place.read(), |item| Record::of_words(item));
        }
    }
    Ok(())
}

fn run_writer(mut writer: Writer<Item>, log: &mut Log) {
    for n in 1.. {
        if log.is_full() {
            break;
        }
        let item = item(n);
        log.write(Record::of_words(&item), || writer.write(&item)).expect("a number that is left");
    }
}

fn run_reader(mut reader: Reader<Item>, log: &mut Log) {
    while !log.is_full() {
        log.read(|| reader.latest(), |item| Record::of_words(item));
    }
}

fn main() -> Result<(), Box<dyn Error>> {
    let words: Vec<String> = env::args().skip(1).collect();
    let room = words.first().ok_or("usage: record_board OPERATIONS [register]")?.parse::<usize>()? / 3;
    let mut logs = [Log::new(0, room)?, Log::new(1, room)?, Log::new(2, room)?];
    thread::scope(|scope| -> Result<(), Box<dyn Error>> {
        if words.len() > 1 {
            let (writer, reader) = nidzaru::register(item(0))?;
            let [first, second, _] = &mut logs;
            scope.spawn(|| run_writer(writer, first));
            scope.spawn(|| run_reader(reader, second));
        } else {
            for (me, (place, log)) in nidzaru::board(3, item(0))?.into_iter().zip(&mut logs).enumerate() {
                scope.spawn(move || run_place(me as u64, place, log).expect("a tag that is left"));
            }
        }
        Ok(())
    })?;
    merge(&mut BufWriter::new(io::stdout().lock()), &logs, Record::of_words(&item(0)), None)?;
    Ok(())
}
