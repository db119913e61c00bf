//! A control loop that runs until it is told to stop. A sensor publishes a reading with its limits, the operator the commands that
//! stand in the input, a word a line (`hold`, `run`, `stop`), and the control loop takes the newest of both in each of its steps. No
//! task waits for another, and none sees half of an old record. The end of the input stops it too.

use nidzaru::{register, triple_register, Reader, Refused, Triple, Writer};
use std::error::Error;
use std::io::{self, BufRead};
use std::thread;
use std::time::Duration;

/// What the sensor publishes. Half of an old reading is seen by its limits.
#[derive(Clone, Copy)]
struct Reading {
    low: f64,
    high: f64,
    value: f64,
}

/// What the operator wants.
#[derive(Clone, Copy, PartialEq)]
enum Command {
    Hold,
    Run,
    Stop,
}

/// What the control loop publishes.
#[derive(Clone, Copy, Default)]
struct State {
    output: f64,
    steps: u64,
    torn: u64,
}

/// Publishes readings until the newest command is to stop.
fn sense(mut readings: Writer<Reading>, mut commands: Reader<Command>) -> Result<(), Refused> {
    let mut n = 0;
    while commands.latest() != Command::Stop {
        n += 1;
        let width = f64::from(n);
        readings.write(&Reading { low: -width, high: width, value: f64::from(n % 17) })?;
        thread::sleep(Duration::from_micros(100));
    }
    Ok(())
}

/// Steers by the newest reading until the newest command is to stop.
fn control(mut readings: Reader<Reading>, mut commands: Reader<Command>, mut states: Writer<State, Triple>) -> Result<(), Refused> {
    let mut state = State::default();
    loop {
        match commands.latest() {
            Command::Stop => return Ok(()),
            Command::Hold => {}
            Command::Run => {
                let seen = readings.latest();
                state.output = seen.value.clamp(seen.low, seen.high);
                state.torn += u64::from(seen.low != -seen.high);
            }
        }
        state.steps += 1;
        states.write(&state)?;
        thread::sleep(Duration::from_micros(50));
    }
}

/// The command that a line of the input gives.
fn command_of(line: &str) -> Result<Command, String> {
    match line.trim() {
        "hold" => Ok(Command::Hold),
        "run" => Ok(Command::Run),
        "stop" => Ok(Command::Stop),
        other => Err(format!("there is no command '{other}'")),
    }
}

fn main() -> Result<(), Box<dyn Error>> {
    let (readings, newest) = register(Reading { low: 0.0, high: 0.0, value: 0.0 })?;
    let (mut to_control, told) = register(Command::Run)?;
    let (mut to_sensor, heard) = register(Command::Run)?;
    let (states, mut seen) = triple_register(State::default())?;
    let sensor = thread::spawn(move || sense(readings, heard));
    let controller = thread::spawn(move || control(newest, told, states));
    for line in io::stdin().lock().lines() {
        match command_of(&line?) {
            Ok(Command::Stop) => break,
            Ok(command) => {
                to_control.write(&command)?;
                to_sensor.write(&command)?;
            }
            Err(why) => eprintln!("{why}"),
        }
    }
    to_control.write(&Command::Stop)?;
    to_sensor.write(&Command::Stop)?;
    controller.join().expect("the control loop panicked")?;
    sensor.join().expect("the sensor panicked")?;
    let state = seen.latest();
    println!("{} steps, the last output {}", state.steps, state.output);
    println!("{}", if state.torn == 0 { "no record was torn" } else { "a record was torn" });
    Ok(())
}
