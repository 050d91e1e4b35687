//! Runs worked out by hand, played step by step.

use reference::bench::Bench;
use reference::container::Container;
use reference::coverage::Label;
use reference::descriptor::DescriptorVector;
use reference::kinds::{Kind, Numbers, Point, Points};
use reference::lock::LockVector;
use reference::memory::{BucketedMemory, FlatMemory, Memory};
use reference::operation::{Answer, Open, Operation, Step};
use reference::word::{Cell, Status};
use reference::{play, LISTING_LIMIT};

type DescriptorBench = Bench<Numbers, DescriptorVector<FlatMemory>>;
type LockBench = Bench<Numbers, LockVector<BucketedMemory>>;

fn descriptor(capacity: u64, threads: u64) -> DescriptorBench {
    let mut bench = Bench::new(DescriptorVector::new(FlatMemory::new()));
    bench.set_up(capacity, threads).unwrap();
    bench
}

fn lock(capacity: u64, threads: u64) -> LockBench {
    let mut bench = Bench::new(LockVector::new(BucketedMemory::new()));
    bench.set_up(capacity, threads).unwrap();
    bench
}

/// What a whole operation took: its steps, the step of its effect, its answer.
type Whole = (u32, u32, Answer<i32>);

fn whole<C: Container>(
    bench: &mut Bench<Numbers, C>,
    thread: u64,
    operation: Operation<i32>,
) -> Whole {
    let number = bench.begin(thread, operation).unwrap();
    finish(bench, thread, number)
}

fn finish<C: Container>(bench: &mut Bench<Numbers, C>, thread: u64, number: u32) -> Whole {
    let mut effect_at = 0;
    for count in 1.. {
        let step = bench.step(thread).unwrap();
        if step.effect == Some(number) {
            effect_at = count;
        }
        if let Some(answer) = step.end {
            return (count, effect_at, answer);
        }
    }
    unreachable!()
}

fn value(number: i32) -> u32 {
    Numbers::value_of(number)
}

#[test]
fn descriptor_whole_operations() {
    let bench = &mut descriptor(4, 2);
    assert_eq!(whole(bench, 1, Operation::Push(17)), (5, 4, Answer::Position(0)));

    let bench = &mut descriptor(4, 2);
    assert_eq!(whole(bench, 1, Operation::Pop), (2, 2, Answer::Empty));

    let bench = &mut descriptor(4, 2);
    whole(bench, 1, Operation::Push(17));
    assert_eq!(whole(bench, 2, Operation::Pop), (9, 6, Answer::Value(17)));

    let bench = &mut descriptor(1, 2);
    whole(bench, 1, Operation::Push(17));
    assert_eq!(whole(bench, 1, Operation::Push(18)), (3, 3, Answer::Full));

    let bench = &mut descriptor(2, 1);
    assert_eq!(whole(bench, 1, Operation::Size), (2, 2, Answer::Size(0)));
    whole(bench, 1, Operation::Push(-7));
    assert_eq!(whole(bench, 1, Operation::Push(8)), (6, 5, Answer::Position(1)));
    assert_eq!(whole(bench, 1, Operation::Size), (3, 3, Answer::Size(2)));
    assert_eq!(whole(bench, 1, Operation::Read(0)), (1, 1, Answer::Value(-7)));
    assert_eq!(whole(bench, 1, Operation::Write(1, 9)), (2, 2, Answer::Done));
    assert_eq!(whole(bench, 1, Operation::Pop), (9, 6, Answer::Value(9)));
    assert_eq!(whole(bench, 1, Operation::Read(1)), (1, 1, Answer::Out));
    assert_eq!(whole(bench, 1, Operation::Write(1, 9)), (1, 1, Answer::Out));
}

#[test]
fn lock_whole_operations() {
    let bench = &mut lock(1, 2);
    assert_eq!(whole(bench, 1, Operation::Push(17)), (6, 5, Answer::Position(0)));
    assert_eq!(whole(bench, 2, Operation::Push(18)), (3, 2, Answer::Full));
    assert_eq!(whole(bench, 1, Operation::Read(0)), (4, 3, Answer::Value(17)));
    assert_eq!(whole(bench, 1, Operation::Write(0, 5)), (5, 4, Answer::Done));
    assert_eq!(whole(bench, 1, Operation::Size), (3, 2, Answer::Size(1)));
    assert_eq!(whole(bench, 2, Operation::Pop), (5, 4, Answer::Value(5)));
    assert_eq!(whole(bench, 2, Operation::Pop), (3, 2, Answer::Empty));
    assert_eq!(whole(bench, 2, Operation::Read(0)), (3, 2, Answer::Out));
    assert_eq!(whole(bench, 2, Operation::Write(0, 1)), (3, 2, Answer::Out));
    assert_eq!(bench.container().bound(), 48);
}

/// Each step's access, seen in the words it leaves.
#[test]
fn descriptor_words() {
    let bench = &mut descriptor(2, 1);
    let word =
        |bench: &DescriptorBench, location| bench.container().memory().load(location).unwrap();
    bench.begin(1, Operation::Push(17)).unwrap();
    let mut seen = Vec::new();
    for _ in 0..5 {
        bench.step(1).unwrap();
        seen.push((word(bench, 0), word(bench, 1), word(bench, 401)));
    }
    let plain = (1 << 50) + (1 << 31) + 17;
    let last = 2 << 50;
    assert_eq!(seen, [(0, 0, 0), (0, 0, 0), (1, 0, 0), (1, 0, plain), (1, last, plain)]);

    bench.begin(1, Operation::Pop).unwrap();
    let mut seen = Vec::new();
    for _ in 0..9 {
        bench.step(1).unwrap();
        seen.push((word(bench, 0), word(bench, 2), word(bench, 401)));
    }
    let item = (1 << 31) + 17;
    let frozen = (2 << 50) + (2 << 41) + (2 << 32) + item;
    let (done, last) = ((1 << 50) + item, (2 << 50) + item);
    let empty = 2 << 41;
    assert_eq!(
        seen,
        [
            (1, 0, plain),
            (1, 0, plain),
            (2, 0, plain),
            (2, 0, plain),
            (2, 0, frozen),
            (2, done, frozen),
            (2, done, empty),
            (2, last, empty),
            (2, last, empty),
        ]
    );
    let others = (0..465).filter(|location| ![0, 1, 2, 401].contains(location));
    assert!(others.into_iter().all(|location| word(bench, location) == 0));
}

#[test]
fn lock_words() {
    let bench = &mut lock(2, 1);
    let words = |bench: &LockBench| {
        [0, 1, 401].map(|location| bench.container().memory().load(location).unwrap())
    };
    let plain = (1 << 50) + (1 << 31) + 17;
    bench.begin(1, Operation::Push(17)).unwrap();
    let mut seen = Vec::new();
    for _ in 0..6 {
        bench.step(1).unwrap();
        seen.push(words(bench));
    }
    assert_eq!(
        seen,
        [[1, 0, 0], [1, 0, 0], [1, 0, 0], [1, 0, plain], [1, 1, plain], [0, 1, plain],]
    );
    whole(bench, 1, Operation::Pop);
    assert_eq!(words(bench), [0, 0, plain], "a pop leaves its cell's word as it was");
}

#[test]
fn parked_push_script() {
    let script = "dfn 2 2\n1 + 17\n# parked\n1 . 3\n2 r 0\n2 . 1\n2 s\n2 . 7\n1 . 2\n";
    let listing = "begin 1 1 + 17\nbegin 2 2 r 0\neffect 2\nend 2 out\nbegin 3 2 s\n\
                   effect 1\neffect 3\nend 3 1\nend 1 0\n";
    assert_eq!(play(script.as_bytes(), LISTING_LIMIT), listing.as_bytes());
    let bucketed = script.replace("dfn", "dbn");
    assert_eq!(play(bucketed.as_bytes(), LISTING_LIMIT), listing.as_bytes());
}

#[test]
fn late_freeze() {
    let bench = &mut descriptor(2, 2);
    whole(bench, 2, Operation::Push(5));
    assert_eq!(bench.begin(1, Operation::Pop), Ok(2));
    for _ in 0..4 {
        bench.step(1).unwrap();
    }
    assert_eq!(bench.container().label(1), Some(Label::G3));
    assert_eq!(bench.look(1), Ok(Some(Open { number: 2, served: false })));

    let pop = bench.begin(2, Operation::Pop).unwrap();
    assert_eq!(finish(bench, 2, pop), (10, 10, Answer::Empty));
    assert_eq!(bench.look(1), Ok(Some(Open { number: 2, served: true })));
    assert_eq!(bench.look(2), Ok(None));
    assert_eq!(whole(bench, 2, Operation::Push(5)).2, Answer::Position(0));

    assert_eq!(finish(bench, 1, 2), (4, 0, Answer::Value(5)));
    let frozen = Cell::Frozen { value: value(5), by: 2, through: 2 };
    assert_eq!(bench.container().cell(0), frozen);
    assert_eq!(bench.container().status(2), Status::Final(value(5)));
    assert_eq!(whole(bench, 2, Operation::Read(0)), (3, 3, Answer::Value(5)));
}

/// A read that looks again and finds another word goes on within that step.
#[test]
fn second_look_at_another_word() {
    let bench = &mut descriptor(2, 2);
    whole(bench, 1, Operation::Push(5));
    bench.begin(1, Operation::Pop).unwrap();
    for _ in 0..5 {
        bench.step(1).unwrap();
    }
    // The cell is frozen; the reader sees that, then the pop is finished.
    let read = bench.begin(2, Operation::Read(0)).unwrap();
    bench.step(2).unwrap();
    finish(bench, 1, 2);
    whole(bench, 1, Operation::Push(6));
    assert_eq!(bench.step(2), Ok(Step { effect: None, end: None }));
    assert_eq!(bench.container().label(2), Some(Label::R3));
    let end = Step { effect: Some(read), end: Some(Answer::Value(6)) };
    assert_eq!(bench.step(2), Ok(end));
}

/// Pending, the frozen value is still there; done, it is gone.
#[test]
fn reads_and_writes_of_a_frozen_cell() {
    for (steps, reading, writing) in [
        (5, (2, 2, Answer::Value(5)), (7, 7, Answer::Out)),
        (6, (2, 2, Answer::Out), (2, 2, Answer::Out)),
    ] {
        let bench = &mut descriptor(2, 2);
        whole(bench, 1, Operation::Push(5));
        bench.begin(1, Operation::Pop).unwrap();
        for _ in 0..steps {
            bench.step(1).unwrap();
        }
        assert_eq!(whole(bench, 2, Operation::Read(0)), reading);
        // A write that meets a pending pop helps it: W1, W2, G1, G4, G6, G7, W1.
        assert_eq!(whole(bench, 2, Operation::Write(0, 6)), writing);
    }
}

#[test]
fn buckets() {
    let buckets = [7, 8, 23, 24].map(BucketedMemory::bucket_of);
    assert_eq!(buckets, [0, 1, 1, 2]);
    assert_eq!(BucketedMemory::bucket_of(503), 5);
    assert_eq!(BucketedMemory::WORDS, 504);

    let mut memory = BucketedMemory::new();
    assert_eq!(memory.open_buckets(), 0);
    assert_eq!(memory.swap(8, 1, 2), Ok(false));
    assert_eq!((memory.load(8), memory.open_buckets()), (Ok(0), 0));
    assert_eq!(memory.swap(8, 0, 0), Ok(true));
    assert_eq!((memory.load(8), memory.open_buckets()), (Ok(0), 1));
    assert_eq!(memory.swap(503, 0, 9), Ok(true));
    assert_eq!((memory.load(503), memory.open_buckets()), (Ok(9), 2));
    assert_eq!(memory.swap(503, 8, 1), Ok(false));
    assert_eq!(memory.load(503), Ok(9));
}

/// Every location is its own word in both memories.
#[test]
fn memories_keep_words_apart() {
    let memories: [Box<dyn Memory>; 2] =
        [Box::new(FlatMemory::new()), Box::new(BucketedMemory::new())];
    for mut memory in memories {
        for location in 0..memory.length() {
            assert_eq!(memory.swap(location, 0, location as u64 + 1), Ok(true));
        }
        for location in 0..memory.length() {
            assert_eq!(memory.load(location), Ok(location as u64 + 1));
        }
    }
    assert_eq!((FlatMemory::new().length(), FlatMemory::short().length()), (465, 400));
}

#[test]
fn points_and_numbers() {
    let point = |x, y, z| Points::value_of(Point::new(x, y, z).unwrap());
    assert_eq!(point(0, 0, 0), 537_395_712);
    assert_eq!(point(-512, -512, -512), 0);
    assert_eq!(point(511, 511, 511), 1_073_741_823);
    assert_eq!(Numbers::value_of(-1), 2_147_483_647);
    assert_eq!((Numbers::value_of(i32::MIN), Numbers::value_of(i32::MAX)), (0, u32::MAX));
    for number in [i32::MIN, -1, 0, 1, 17, i32::MAX] {
        assert_eq!(Numbers::item_of(Numbers::value_of(number)), number);
    }
    for x in [-512, -1, 0, 511] {
        for y in [-512, 3, 511] {
            for z in [-512, -7, 511] {
                let item = Point::new(x, y, z).unwrap();
                let value = Points::value_of(item);
                assert_eq!(Points::item_of(value), item);
                assert_eq!(Points::item_of(value | 3 << 30), item, "two bits are ignored");
            }
        }
    }
}
