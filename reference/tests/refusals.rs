//! Every refusal, those a script cannot meet included, and which one wins.

use reference::bench::Bench;
use reference::container::Container;
use reference::descriptor::DescriptorVector;
use reference::kinds::{Kind, Numbers, Point, Points};
use reference::lock::LockVector;
use reference::memory::{BucketedMemory, FlatMemory, Memory};
use reference::operation::{Answer, Operation};
use reference::play::run;
use reference::{play, Refusal};

/// Sets up a fresh container with a capacity and a thread count.
type SetUp = Box<dyn Fn(u64, u64) -> Result<(), Refusal>>;

fn containers() -> Vec<SetUp> {
    fn try_set_up(
        mut container: impl Container,
        capacity: u64,
        threads: u64,
    ) -> Result<(), Refusal> {
        container.set_up(capacity, threads)
    }
    vec![
        Box::new(|c, t| try_set_up(DescriptorVector::new(FlatMemory::new()), c, t)),
        Box::new(|c, t| try_set_up(DescriptorVector::new(BucketedMemory::new()), c, t)),
        Box::new(|c, t| try_set_up(LockVector::new(FlatMemory::new()), c, t)),
        Box::new(|c, t| try_set_up(LockVector::new(BucketedMemory::new()), c, t)),
    ]
}

#[test]
#[rustfmt::skip]
fn numbers_of_refusals() {
    let rows = [
        (Refusal::ScriptTooLong, 40), (Refusal::NoFirstLine, 43), (Refusal::Form, 41),
        (Refusal::Range, 42), (Refusal::Coordinate, 24), (Refusal::SetUpBefore, 15),
        (Refusal::Capacity, 10), (Refusal::ThreadCount, 11), (Refusal::ShortMemory, 12),
        (Refusal::UsedMemory, 13), (Refusal::Thread, 20), (Refusal::OperationOpen, 21),
        (Refusal::NumbersGiven, 22), (Refusal::Index, 23), (Refusal::NothingOpen, 25),
        (Refusal::Location, 30), (Refusal::ListingTooLong, 44),
    ];
    assert!(rows.iter().all(|(refusal, number)| refusal.number() == *number));
}

#[test]
fn capacity_and_threads() {
    for set_up in containers() {
        assert_eq!(set_up(64, 8), Ok(()));
        assert_eq!(set_up(1, 1), Ok(()));
        assert_eq!(set_up(65, 1), Err(Refusal::Capacity));
        assert_eq!(set_up(0, 1), Err(Refusal::Capacity));
        assert_eq!(set_up(1, 9), Err(Refusal::ThreadCount));
        assert_eq!(set_up(1, 0), Err(Refusal::ThreadCount));
        assert_eq!(set_up(0, 0), Err(Refusal::Capacity));
        assert_eq!(set_up((1 << 32) + 1, 1), Err(Refusal::Capacity));
        assert_eq!(set_up(1, (1 << 32) + 1), Err(Refusal::ThreadCount));
    }
}

#[test]
fn unfit_memories() {
    let mut short = DescriptorVector::new(FlatMemory::short());
    assert_eq!(short.words_needed(2), 403);
    assert_eq!(short.set_up(1, 1), Err(Refusal::ShortMemory));
    assert_eq!(short.set_up(65, 1), Err(Refusal::Capacity));
    assert_eq!(short.begin(1, Operation::Size), Err(Refusal::Thread));
    assert_eq!(LockVector::new(FlatMemory::short()).set_up(1, 1), Err(Refusal::ShortMemory));

    // Also a word that the capacity does not need must be 0.
    for location in [0, 1, 401, 464] {
        let mut memory = FlatMemory::new();
        memory.swap(location, 0, 1).unwrap();
        assert_eq!(DescriptorVector::new(memory.clone()).set_up(1, 1), Err(Refusal::UsedMemory));
        assert_eq!(LockVector::new(memory).set_up(1, 1), Err(Refusal::UsedMemory));
    }
    let mut memory = BucketedMemory::new();
    memory.swap(503, 0, 1).unwrap();
    assert_eq!(LockVector::new(memory).set_up(64, 8), Err(Refusal::UsedMemory));

    // A bucket that is open but holds only 0 is no hindrance.
    let mut memory = BucketedMemory::new();
    memory.swap(503, 0, 0).unwrap();
    assert_eq!(LockVector::new(memory).set_up(64, 8), Ok(()));

    let mut used_and_short = FlatMemory::short();
    used_and_short.swap(0, 0, 1).unwrap();
    assert_eq!(LockVector::new(used_and_short).set_up(1, 1), Err(Refusal::ShortMemory));
}

#[test]
fn second_set_up() {
    let mut bench: Bench<Numbers, _> = Bench::new(LockVector::new(FlatMemory::new()));
    assert_eq!(bench.look(1), Err(Refusal::Thread));
    assert_eq!(bench.begin(1, Operation::Size), Err(Refusal::Thread));
    assert_eq!(bench.step(1), Err(Refusal::Thread));
    assert_eq!(bench.set_up(0, 1), Err(Refusal::Capacity));
    assert_eq!(bench.set_up(2, 1), Ok(()));
    assert_eq!(bench.set_up(0, 0), Err(Refusal::SetUpBefore));
    assert_eq!(bench.begin(1, Operation::Size), Ok(1));

    // Over a container set up before, a bench never gets threads.
    let mut container = LockVector::new(FlatMemory::new());
    container.set_up(2, 1).unwrap();
    let mut bench: Bench<Numbers, _> = Bench::new(container);
    assert_eq!(bench.set_up(2, 1), Err(Refusal::SetUpBefore));
    assert_eq!(bench.begin(1, Operation::Size), Err(Refusal::Thread));
    assert_eq!(bench.step(1), Err(Refusal::Thread));
    assert_eq!(bench.look(1), Err(Refusal::Thread));
    assert!(bench.log().is_empty());
}

#[test]
fn calls_of_threads() {
    let mut bench: Bench<Numbers, _> = Bench::new(DescriptorVector::new(FlatMemory::new()));
    bench.set_up(2, 2).unwrap();
    for thread in [0, 3, 9, 1 << 32, (1 << 32) + 1] {
        assert_eq!(bench.look(thread), Err(Refusal::Thread));
        assert_eq!(bench.step(thread), Err(Refusal::Thread));
        assert_eq!(bench.begin(thread, Operation::Read(99)), Err(Refusal::Thread));
    }
    assert_eq!(bench.step(1), Err(Refusal::NothingOpen));
    assert_eq!(bench.look(1), Ok(None));
    assert_eq!(bench.begin(1, Operation::Read(2)), Err(Refusal::Index));
    assert_eq!(bench.begin(1, Operation::Write(1 << 32, 5)), Err(Refusal::Index));
    // A refused begin uses up no number.
    assert_eq!(bench.begin(1, Operation::Read(1)), Ok(1));
    assert_eq!(bench.begin(1, Operation::Read(2)), Err(Refusal::OperationOpen));
    assert_eq!(bench.begin(2, Operation::Size), Ok(2));
    assert_eq!(bench.log().len(), 2);
}

#[test]
fn all_numbers_given() {
    let mut bench: Bench<Numbers, _> = Bench::new(LockVector::new(BucketedMemory::new()));
    bench.set_up(2, 2).unwrap();
    for number in 1..=400 {
        assert_eq!(bench.begin(1, Operation::Size), Ok(number));
        if number < 400 {
            while bench.step(1).unwrap().end.is_none() {}
        }
    }
    assert_eq!(bench.container().numbers(), 400);
    assert_eq!(bench.begin(1, Operation::Read(2)), Err(Refusal::OperationOpen));
    assert_eq!(bench.begin(2, Operation::Read(2)), Err(Refusal::NumbersGiven));
    assert_eq!(bench.begin(3, Operation::Read(2)), Err(Refusal::Thread));
    while bench.step(1).unwrap().end.is_none() {}
    assert_eq!(bench.begin(1, Operation::Size), Err(Refusal::NumbersGiven));
}

#[test]
fn locations() {
    let mut flat = FlatMemory::new();
    assert_eq!(flat.load(465), Err(Refusal::Location));
    assert_eq!(flat.swap(465, 0, 1), Err(Refusal::Location));
    assert_eq!(FlatMemory::short().load(400), Err(Refusal::Location));
    assert_eq!(FlatMemory::short().load(399), Ok(0));
    let mut bucketed = BucketedMemory::new();
    assert_eq!(bucketed.load(504), Err(Refusal::Location));
    assert_eq!(bucketed.swap(504, 0, 1), Err(Refusal::Location));
    assert_eq!(bucketed.load(usize::MAX), Err(Refusal::Location));
    assert_eq!(bucketed.load(503), Ok(0));
    assert_eq!(bucketed.open_buckets(), 0);
}

#[test]
fn points_and_items() {
    assert_eq!(Point::new(0, 0, 512), Err(Refusal::Coordinate));
    assert_eq!(Point::new(-513, 0, 0), Err(Refusal::Coordinate));
    let read = |text: &str| Points::read(text.as_bytes()).map(Point::coordinates);
    assert_eq!(read("1.5,-1.5,511.4"), Ok((2, -2, 511)));
    assert_eq!(read("511.5,0,0"), Err(Refusal::Coordinate));
    assert_eq!(read("-0.4,-0.5,-512.4"), Ok((0, -1, -512)));
    assert_eq!(read("0,-512.5,0"), Err(Refusal::Coordinate));
    assert_eq!(read("600,0,."), Err(Refusal::Form));
    assert_eq!(Numbers::read(b"2147483648"), Err(Refusal::Range));
    assert_eq!(Numbers::read(b"-2147483648"), Ok(i32::MIN));
    assert_eq!(Numbers::read(b"-2147483649"), Err(Refusal::Range));
    assert_eq!(Numbers::read(b"00000000001"), Err(Refusal::Form));
}

#[test]
fn listing_room() {
    let script = b"gfn 1 1\n1 s\n1 . 3\n";
    let listing = b"begin 1 1 s\neffect 1\nend 1 0\n";
    assert_eq!(play(script, listing.len()), listing);
    assert_eq!(play(script, listing.len() - 1), b"fault 0 44\n");
    assert_eq!(play(b"gfn 1 1\n", 0), b"");
    // The script's own fault comes before the listing's.
    assert_eq!(play(b"gfn 1 1\n1 s\n1 . 4\n", 0), b"fault 3 25\n");

    let mut bench: Bench<Numbers, _> = Bench::new(LockVector::new(FlatMemory::new()));
    bench.set_up(1, 1).unwrap();
    bench.begin(1, Operation::Size).unwrap();
    let closed = bench.close();
    let mut output = [b'x'; 11];
    assert_eq!(closed.list(&mut output), Err(Refusal::ListingTooLong));
    assert_eq!(output, [b'x'; 11], "nothing is written when refused");
    let mut output = [b'x'; 13];
    assert_eq!(closed.list(&mut output), Ok(12));
    assert_eq!(&output, b"begin 1 1 s\nx");
}

/// A step refused in the middle of a script leaves what was before it.
#[test]
fn refused_steps_alter_nothing() {
    let mut table = run(b"dfn 2 2\n1 + 17\n1 . 4\n").map_err(|fault| fault.refusal).unwrap();
    let words = |table: &dyn reference::play::Table| -> Vec<u64> {
        let memory = table.container().memory();
        (0..memory.length()).map(|location| memory.load(location).unwrap()).collect()
    };
    let before = (words(&*table), table.log(), table.container().label(1));
    for line in ["2 . 1", "3 s", "1 s", "2 r 2", "2 w 7 1", "1 . 0", "1 + x", "0 . 1"] {
        table.line(line.as_bytes()).unwrap_err();
        assert_eq!((words(&*table), table.log(), table.container().label(1)), before, "{line}");
    }
    assert_eq!(table.step(1).unwrap().end, Some(Answer::Position(0)));
}
