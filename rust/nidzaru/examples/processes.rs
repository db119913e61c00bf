//! A driver and a controller in two processes, of which the driver is killed every 50 ms. It writes readings into a register that lies in
//! memory of both; the controller reads them and starts a new driver. Where the last one died between two writes the new one goes on with its
//! side. Where it died within one, the new driver takes the side over by `recover_writer`; over a triple buffer it would make another register.
//!
//! cargo run --release --features shared --example processes [KILLS [DRIVER]]
//!
//! DRIVER is a program that drives in place of this one, as that of examples/c/processes.c.

use nidzaru::shared::{Block, BlockError, Register};
use std::process::Command;
use std::time::{Duration, Instant};

nidzaru::shared_record! {
    #[derive(PartialEq)]
    struct Reading { low: u64, value: u64, high: u64 }
}
nidzaru::shared_block! {
    struct Plant: "struct plant" { readings: Register<Reading> }
}

type Failed = Box<dyn std::error::Error>;

fn reading(n: u64) -> Reading {
    Reading { low: n, value: n + 1, high: n + 2 }
}

fn drive(name: &str) -> Result<(), Failed> {
    // The processes that open this name are the controller's.
    let block = unsafe { Block::<Plant>::attach(name)? };
    let register = &block.root().readings;
    let mut writer = match register.claim_writer(&block) {
        Err(BlockError::OwnerDead) => register.recover_writer(&block)?,
        claimed => claimed?,
    };
    (1..).try_for_each(|n| writer.write(&reading(n)))?;
    Ok(())
}

fn control(name: &str, kills: u32, driver: &str) -> Result<(), Failed> {
    // As above.
    let block = unsafe { Block::<Plant>::create(name, 1 << 20)? };
    block.root().readings.make(&block, &reading(0))?;
    block.open()?;
    let mut reader = block.root().readings.claim_reader(&block)?;
    let mut records = 0_u64;
    for _ in 0..kills {
        let mut child = Command::new(driver).args(["--drive", name]).spawn()?;
        let end = Instant::now() + Duration::from_millis(50);
        while Instant::now() < end {
            if let Some(seen) = reader.news() {
                assert!(seen == reading(seen.low), "a torn record");
                records += 1;
            }
        }
        child.kill()?;
        child.wait()?;
    }
    block.unlink(name)?;
    if records == 0 {
        return Err("no driver has written".into());
    }
    println!("{kills} drivers were killed; of {records} records none was torn");
    Ok(())
}

fn main() -> Result<(), Failed> {
    let words: Vec<String> = std::env::args().collect();
    if words.get(1).is_some_and(|it| it == "--drive") {
        return drive(&words[2]);
    }
    let kills = words.get(1).map_or(Ok(20), |it| it.parse())?;
    let driver = words.get(2).map_or("/proc/self/exe", String::as_str);
    control(&format!("/readings-{}", std::process::id()), kills, driver)
}
