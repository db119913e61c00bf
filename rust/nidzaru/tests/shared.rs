//! Blocks that processes share: what is refused and why, sides that go from one owner to the next, and processes that are killed at random.
//! Other processes are this program, run anew.

#![cfg(feature = "shared")]

use nidzaru::shared::{Block, BlockError, Board, Reader, Register};
use nidzaru::Triple;
use std::io::{Seek, SeekFrom, Write};
use std::os::unix::fs::PermissionsExt;
use std::os::unix::process::ExitStatusExt;
use std::process::{Child, Command};
use std::sync::atomic::{AtomicU32, AtomicU64, Ordering};
use std::time::Duration;

nidzaru::shared_record! {
    #[derive(Debug, PartialEq)]
    struct Limits { low: u64, at: u64, high: u64 }
    struct Plan { words: [u64; 32] }
}
nidzaru::shared_block! {
    struct Plant: "struct plant" {
        limits: Register<Limits>,
        later: [Register<Limits>; 100],
        plans: Register<Plan, Triple>,
        turns: Board<Limits, 3>,
        fast_turns: Board<Limits, 3, Triple>,
        uses: AtomicU32,
        seen: AtomicU64,
    }
}
nidzaru::shared_block! {
    struct Other: "struct other" at 0x2100_0000_0000 { limits: Register<Limits>, seen: AtomicU64 }
}
nidzaru::shared_block! {
    struct Boards: "struct boards" at 0x2200_0000_0000 { pair: Board<Limits, 2>, most: Board<Limits, 16> }
}

const BYTES: usize = 1 << 20;

/// What all makes of a [`Plant`] take, but those of `later`.
const MAKE_BYTES: usize = Register::<Limits>::MAKE_BYTES
    + Register::<Plan, Triple>::MAKE_BYTES
    + Board::<Limits, 3>::MAKE_BYTES
    + Board::<Limits, 3, Triple>::MAKE_BYTES;

fn limits(n: u64) -> Limits {
    Limits { low: n, at: n + 1, high: n + 2 }
}

/// All blocks of one type lie at one address, so one test at a time has one.
fn alone() -> std::sync::MutexGuard<'static, ()> {
    static ONE: std::sync::Mutex<()> = std::sync::Mutex::new(());
    ONE.lock().unwrap_or_else(std::sync::PoisonError::into_inner)
}

/// A block with all that is in it, not yet opened; its name goes with this value.
struct Made {
    name: String,
    block: Block<Plant>,
}

impl Drop for Made {
    fn drop(&mut self) {
        let _ = self.block.unlink(&self.name);
    }
}

fn make(test: &str) -> Made {
    let name = format!("/nidzaru-{test}-{}", std::process::id());
    // The processes of this test open it.
    let block = unsafe { Block::<Plant>::create(&name, BYTES) }.unwrap();
    let root = block.root();
    root.limits.make(&block, &limits(0)).unwrap();
    root.plans.make(&block, &Plan { words: [0; 32] }).unwrap();
    let left = block.left();
    root.turns.make(&block, &limits(0)).unwrap();
    assert_eq!(left - block.left(), Board::<Limits, 3>::MAKE_BYTES);
    root.fast_turns.make(&block, &limits(0)).unwrap();
    assert_eq!(BYTES - block.left(), Block::<Plant>::CREATE_BYTES + MAKE_BYTES);
    Made { name, block }
}

fn attach(name: &str) -> Result<Block<Plant>, BlockError> {
    // The processes of this test open it.
    unsafe { Block::attach(name) }
}

/// Starts this program as another process, which does this task on the block of this name.
fn start(task: &str, name: &str) -> Child {
    Command::new(std::env::current_exe().unwrap())
        .args(["--exact", "another_process", "--nocapture"])
        .envs([("NIDZARU_TASK", task), ("NIDZARU_NAME", name)])
        .stdout(std::process::Stdio::null())
        .spawn()
        .unwrap()
}

/// What another process tells of the refusal that it met, by its exit status.
fn ends_with(task: &str, name: &str) -> i32 {
    start(task, name).wait().unwrap().code().unwrap_or(-1)
}

const DONE: i32 = 0;
const CLAIMED: i32 = 41;
const OTHER_TYPE: i32 = 42;
const OTHER_BUILD: i32 = 43;
const NOT_READY: i32 = 44;
const OWNER_DEAD: i32 = 45;
const ADDRESS_TAKEN: i32 = 46;
const OTHER_USER: i32 = 47;

fn code_of(why: &BlockError) -> i32 {
    match why {
        BlockError::Claimed => CLAIMED,
        BlockError::OtherType => OTHER_TYPE,
        BlockError::OtherBuild => OTHER_BUILD,
        BlockError::NotReady => NOT_READY,
        BlockError::OwnerDead => OWNER_DEAD,
        BlockError::AddressTaken => ADDRESS_TAKEN,
        BlockError::OtherUser => OTHER_USER,
        _ => 99,
    }
}

#[test]
fn another_process() {
    let (Ok(task), Ok(name)) = (std::env::var("NIDZARU_TASK"), std::env::var("NIDZARU_NAME")) else {
        return;
    };
    let code = match run(&task, &name) {
        Ok(()) => DONE,
        Err(why) => code_of(&why),
    };
    std::process::exit(code);
}

fn run(task: &str, name: &str) -> Result<(), BlockError> {
    if task == "other" {
        return unsafe { Block::<Other>::attach(name) }.map(|_| ());
    }
    if task == "create" {
        std::mem::forget(unsafe { Block::<Plant>::create(name, BYTES) }?);
        return Ok(());
    }
    let block = attach(name)?;
    let root = block.root();
    if task == "attach" {
        return Ok(());
    }
    if task == "board" {
        let mut place = root.turns.claim(&block, 0)?;
        for n in 1.. {
            place.write(&limits(2 * n)).unwrap();
        }
    }
    if task == "plans" {
        let mut writer = root.plans.claim_writer(&block)?;
        (1..).for_each(|n| writer.write_with(|plan| plan.words = std::array::from_fn(|k| n * 100 + k as u64)).unwrap());
    }
    let current = root.uses.load(Ordering::SeqCst) as usize;
    let mut writer = if current == 0 { root.limits.claim_writer(&block)? } else { root.later[current].claim_writer(&block)? };
    let last = if task == "write" { 1000 } else { u64::MAX };
    for _ in 1..=last {
        let n = root.seen.fetch_add(1, Ordering::Relaxed) + 1;
        writer.write(&limits(n)).unwrap();
    }
    Ok(())
}

/// Changes a word of the block's head.
fn change(name: &str, at: u64, word: u64) {
    let mut file = std::fs::OpenOptions::new().write(true).open(format!("/dev/shm{name}")).unwrap();
    file.seek(SeekFrom::Start(at)).unwrap();
    file.write_all(&word.to_ne_bytes()).unwrap();
}

fn word_of(name: &str, at: usize) -> u64 {
    let bytes = std::fs::read(format!("/dev/shm{name}")).unwrap();
    u64::from_ne_bytes(bytes[at..at + 8].try_into().unwrap())
}

#[test]
fn blocks_are_refused_by_name() {
    let _alone = alone();
    let Made { name, block } = &make("refused");
    assert!(matches!(unsafe { Block::<Plant>::create(name, BYTES) }, Err(BlockError::NameTaken)));
    let second = format!("{name}-second");
    assert!(matches!(unsafe { Block::<Plant>::create(&second, BYTES) }, Err(BlockError::AddressTaken)));
    assert!(matches!(attach(&second), Err(BlockError::NoBlock)), "a name stays where no block was made");
    assert!(matches!(unsafe { Block::<Other>::create(&second, 4096) }, Err(BlockError::OutOfMemory)));
    for wrong in ["", "plant", "/", "/a/b", "/..", "/a\0"] {
        assert!(matches!(attach(wrong), Err(BlockError::NoSuch)), "{wrong:?}");
    }
    assert_eq!(ends_with("attach", name), NOT_READY);
    std::thread::scope(|threads| threads.spawn(|| assert!(matches!(block.open(), Err(BlockError::NotOwner)))).join().unwrap());
    block.open().unwrap();
    assert!(matches!(block.open(), Err(BlockError::NotOwner)));
    assert_eq!(ends_with("attach", name), DONE);
    assert!(matches!(attach(name), Err(BlockError::AddressTaken)));
    assert_eq!(ends_with("other", name), OTHER_TYPE);
    let build = word_of(name, 8);
    change(name, 8, build ^ 1);
    assert_eq!(ends_with("attach", name), OTHER_BUILD);
    change(name, 8, build);
    let path = format!("/dev/shm{name}");
    assert_eq!(std::fs::metadata(&path).unwrap().permissions().mode() & 0o777, 0o600);
    std::fs::set_permissions(&path, PermissionsExt::from_mode(0o660)).unwrap();
    assert_eq!(ends_with("attach", name), OTHER_USER);
    std::fs::set_permissions(&path, PermissionsExt::from_mode(0o600)).unwrap();
    assert_eq!(ends_with("attach", name), DONE);
}

#[test]
fn a_maker_that_died_is_told() {
    let _alone = alone();
    let name = format!("/nidzaru-maker-{}", std::process::id());
    assert_eq!(ends_with("create", &name), DONE);
    assert!(matches!(attach(&name), Err(BlockError::OwnerDead)));
    assert!(matches!(attach(&name), Err(BlockError::OwnerDead)), "once more");
    std::fs::remove_file(format!("/dev/shm{name}")).unwrap();
}

#[test]
fn sides_are_claimed_by_one_thread() {
    let _alone = alone();
    let Made { name, block } = &make("claims");
    let root = block.root();
    block.open().unwrap();
    assert!(matches!(root.limits.make(block, &limits(1)), Err(BlockError::InUse)));
    assert!(matches!(root.later[1].claim_writer(block), Err(BlockError::NotReady)));
    assert!(matches!(root.turns.claim(block, 3), Err(BlockError::NoSuch)));
    let mut writer = root.limits.claim_writer(block).unwrap();
    std::thread::scope(|threads| {
        threads.spawn(|| assert!(matches!(root.limits.claim_writer(block), Err(BlockError::Claimed)))).join().unwrap();
    });
    assert_eq!(ends_with("write", name), CLAIMED);
    writer.write(&limits(5)).unwrap();
    drop(writer);
    root.seen.store(5, Ordering::Relaxed);
    assert_eq!(ends_with("write", name), DONE);
    let mut reader = root.limits.claim_reader(block).unwrap();
    assert_eq!((reader.latest(), reader.number()), (limits(1005), 1001));
    assert!(reader.news().is_none() && !reader.has_news() && reader.look() == 1001);
    // A register of another block isn't this one's.
    let other = format!("{name}-other");
    let second = unsafe { Block::<Other>::create(&other, BYTES) }.unwrap();
    assert!(matches!(second.root().limits.make(block, &limits(1)), Err(BlockError::Elsewhere)));
    second.root().limits.make(&second, &limits(1)).unwrap();
    assert!(matches!(second.root().limits.claim_reader(block), Err(BlockError::Elsewhere)));
    second.unlink(&other).unwrap();
    assert!(matches!(second.unlink(&other), Err(BlockError::NoBlock)));
}

#[test]
fn boards_of_two_and_of_sixteen_tell_what_is_new() {
    let _alone = alone();
    let name = format!("/nidzaru-boards-{}", std::process::id());
    let block = unsafe { Block::<Boards>::create(&name, BYTES) }.unwrap();
    block.unlink(&name).unwrap();
    let Boards { pair, most } = block.root();
    pair.make(&block, &limits(0)).unwrap();
    most.make(&block, &limits(0)).unwrap();
    for (mut one, mut other) in [
        (pair.claim(&block, 0).unwrap(), pair.claim(&block, 1).unwrap()),
        (most.claim(&block, 15).unwrap(), most.claim(&block, 7).unwrap()),
    ] {
        assert_eq!((one.news(), other.news()), (None, None));
        let stamp = one.write(&limits(1)).unwrap();
        assert_eq!((other.news(), other.stamp(), other.news(), one.news()), (Some(limits(1)), stamp, None, None));
    }
}

#[test]
fn memory_is_the_blocks_alone() {
    let _alone = alone();
    let name = format!("/nidzaru-memory-{}", std::process::id());
    let block = unsafe { Block::<Other>::create(&name, 3 * 4096) }.unwrap();
    block.unlink(&name).unwrap();
    let before = block.left();
    assert_eq!(before, 3 * 4096 - Block::<Other>::CREATE_BYTES);
    block.root().limits.make(&block, &limits(3)).unwrap();
    assert_eq!(before - block.left(), Register::<Limits>::MAKE_BYTES);
    // A register of the process itself takes nothing of it.
    let (left, mut own) = (block.left(), nidzaru::register(limits(4)).unwrap());
    assert_eq!((block.left(), own.1.latest()), (left, limits(4)));
}

#[test]
fn a_side_that_was_cut_off_is_refused() {
    let _alone = alone();
    let Made { name, block } = &make("cut");
    block.open().unwrap();
    let root = block.root();
    let handle = std::ptr::from_ref(&root.limits) as usize + size_of::<Register<Limits>>() - 2 * 96 - 0x2000_0000_0000;
    let live = word_of(name, handle);
    assert!(live != 0 && live < 64, "the writer's number is {live}");
    change(name, handle as u64, 255);
    assert!(matches!(root.limits.claim_writer(block), Err(BlockError::OwnerDead)));
    assert!(matches!(root.limits.claim_writer(block), Err(BlockError::OwnerDead)), "the refused claim was given back");
    let at = word_of(name, handle + 8);
    change(name, handle as u64 + 8, at + 1);
    assert!(matches!(root.limits.recover_writer(block), Err(BlockError::OwnerDead)), "what leads nowhere isn't mended");
    change(name, handle as u64 + 8, at);
    root.limits.recover_writer(block).unwrap().write(&limits(1)).unwrap();
    assert_eq!(word_of(name, handle), live);
    // What the writer knew is lost, all but where it lies.
    change(name, handle as u64, 255);
    for word in 1..5 {
        let knows = at - 0x2000_0000_0000 + 8 * word;
        // The bits are the other ones, and the number is none that it wrote.
        change(name, knows, if word < 4 { 1 ^ word_of(name, knows as usize) } else { 0 });
    }
    let mut reader = root.limits.claim_reader(block).unwrap();
    assert_eq!((reader.latest(), reader.number()), (limits(1), 1));
    let mut writer = root.limits.recover_writer(block).unwrap();
    for n in 2..9 {
        writer.write(&limits(n)).unwrap();
        assert_eq!((reader.latest(), reader.number()), (limits(n), n));
    }
    // A write that was cut off before it showed its record is done.
    drop(writer);
    let within = |address: u64| (address - 0x2000_0000_0000) as usize;
    let words = word_of(name, within(word_of(name, within(at))) + 8);
    let shown = within(words) + 8 * 8;
    change(name, shown as u64, 1 ^ word_of(name, shown));
    change(name, handle as u64, 255);
    drop(root.limits.recover_writer(block).unwrap());
    assert_eq!((reader.latest(), reader.number()), (limits(8), 8));
    // A reader is recovered, also one that has said nothing since the last recovery.
    drop(reader);
    for _ in 0..2 {
        change(name, handle as u64 + 96, 255);
        assert_eq!(root.limits.recover_reader(block).unwrap().number(), 0, "it has read nothing");
    }
    change(name, handle as u64 + 96, 255);
    let mut reader = root.limits.recover_reader(block).unwrap();
    assert_eq!((reader.latest(), reader.number()), (limits(8), 8));
    assert!(matches!(root.limits.recover_reader(block), Err(BlockError::Claimed)));
    change(name, handle as u64, 0);
    assert!(matches!(root.limits.claim_writer(block), Err(BlockError::Ended)));
    change(name, handle as u64, live);
    root.limits.claim_writer(block).unwrap().write(&limits(1)).unwrap();
}

/// Kills a process that does this task, once it has done something.
fn kill_one(task: &str, name: &str, mut beside: impl FnMut() -> bool) {
    let mut child = start(task, name);
    let mut rounds = 0;
    while rounds < 200 {
        rounds += u32::from(beside());
        assert!(child.try_wait().unwrap().is_none(), "{task} has ended");
    }
    child.kill().unwrap();
    assert_eq!(child.wait().unwrap().signal(), Some(9));
}

#[test]
fn a_killed_writer_hinders_nobody() {
    let _alone = alone();
    let Made { name, block } = &make("killed");
    block.open().unwrap();
    let root = block.root();
    let (mut uses, mut number, mut refused) = (0, 0, 0);
    let mut reader = root.limits.claim_reader(block).unwrap();
    let check = |reader: &mut Reader<'_, Limits>, number: &mut u64| {
        let seen = reader.latest();
        assert!(seen == limits(seen.low), "torn: {seen:?}");
        assert!(reader.number() >= *number, "older");
        let is_new = reader.number() > *number;
        *number = reader.number();
        is_new
    };
    for _ in 0..30 {
        kill_one("endless", name, || check(&mut reader, &mut number));
        for _ in 0..20 {
            check(&mut reader, &mut number);
        }
        let register = if uses == 0 { &root.limits } else { &root.later[uses] };
        match register.claim_writer(block) {
            Ok(mut writer) => {
                writer.write(&limits(root.seen.fetch_add(1, Ordering::Relaxed) + 1)).unwrap();
                check(&mut reader, &mut number);
            }
            Err(BlockError::OwnerDead) if refused % 2 == 0 => {
                refused += 1;
                let mut writer = register.recover_writer(block).unwrap();
                check(&mut reader, &mut number);
                let last = number;
                let next = limits(root.seen.fetch_add(1, Ordering::Relaxed) + 1);
                writer.write(&next).unwrap();
                assert_eq!((reader.latest(), reader.number()), (next, last + 1));
                number = last + 1;
            }
            Err(BlockError::OwnerDead) => {
                (uses, number, refused) = (uses + 1, 0, refused + 1);
                root.later[uses].make(block, &limits(0)).unwrap();
                reader = root.later[uses].claim_reader(block).unwrap();
                root.uses.store(uses as u32, Ordering::SeqCst);
            }
            Err(why) => panic!("{why}"),
        }
    }
    println!("{refused} of 30 died within a write");
}

#[test]
fn a_killed_place_hinders_no_other_one() {
    let _alone = alone();
    let Made { name, block } = &make("board");
    block.open().unwrap();
    let root = block.root();
    let mut places = [root.turns.claim(block, 1).unwrap(), root.turns.claim(block, 2).unwrap()];
    kill_one("board", name, || places.iter_mut().all(|place| place.news().is_some_and(|it| it == limits(it.low))));
    let stamp = places[0].write(&limits(7)).unwrap();
    assert_eq!((places[1].read(), places[1].stamp()), (limits(7), stamp));
}

#[test]
fn a_record_that_is_filled_in_part_is_never_seen() {
    let _alone = alone();
    let Made { name, block } = &make("plans");
    block.open().unwrap();
    let mut reader = block.root().plans.claim_reader(block).unwrap();
    let mut last = 0;
    kill_one("plans", name, || {
        let plan = reader.hold();
        assert!((0..32).all(|k| plan.words[k] == plan.words[0] + k as u64 || plan.words[0] == 0));
        let is_new = reader.number() > last;
        last = reader.number();
        is_new
    });
    std::thread::sleep(Duration::from_millis(1));
    assert!(reader.hold().words[31] == reader.hold().words[0] + 31 || reader.number() == 0);
}
