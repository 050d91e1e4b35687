//! Walking a script step by step while watching what the threads do.

use reference::coverage::{Coverage, Label};
use reference::explain::explain;
use reference::operation::{Answer, Step};
use reference::play::{run, table, Table};
use reference::script::{lines, read_header, ContainerChoice, Header};
use reference::word::{Cell, Status, CELLS};
use std::collections::BTreeSet;

/// What walking many scripts has shown.
#[derive(Default)]
pub struct Findings {
    pub coverage: Coverage,
    /// Labels at which a thread stood still while another thread carried out
    /// a whole push that got a position and a whole pop that got a value.
    pub parked_across: BTreeSet<Label>,
    /// The same, but for two threads parked at once.
    pub two_parked_across: BTreeSet<Label>,
    /// Where the lock's holder stood while another thread spun before it.
    pub spun_before: BTreeSet<Label>,
    /// The most steps a thread took that alone was not idle.
    pub longest_lone_run: u32,
    pub operations: u64,
}

/// Which whole operations of one thread fell into a parking of another.
#[derive(Clone, Copy, Default)]
struct Whole {
    push: bool,
    pop: bool,
}

struct Walk {
    table: Box<dyn Table>,
    header: Header,
    clock: u64,
    /// When each thread moved last, and when its operation began.
    moved: Vec<u64>,
    begun: Vec<u64>,
    /// whole[parked][other]
    whole: Vec<Vec<Whole>>,
    /// Steps of the thread that alone is not idle, since it is.
    lone_run: u32,
}

/// Walks a script that has no fault and checks, besides what it counts, that
/// the log is explained, that the words say what the log results in, and that
/// lone threads end in time.
pub fn walk(script: &[u8], findings: &mut Findings) {
    let mut script_lines = lines(script).filter(|line| !line.is_skipped());
    let first = script_lines.next().expect("a script without fault has a header");
    let header = read_header(first.text).expect("and the header is of its form");
    let mut table = table(&header).expect("and is granted");
    table.container_mut().watch();
    let threads = header.threads as usize + 1;
    let mut walk = Walk {
        table,
        header,
        clock: 0,
        moved: vec![0; threads],
        begun: vec![0; threads],
        whole: vec![vec![Whole::default(); threads]; threads],
        lone_run: 0,
    };
    for line in script_lines {
        walk.line(line.text, findings);
    }
    let direct = run(script).unwrap_or_else(|fault| panic!("{fault:?}"));
    assert_eq!(walk.table.log(), direct.log(), "stepping singly changed the log");
    walk.end_all(findings);
    walk.check_words();
    findings.coverage.add(walk.table.container().coverage().expect("it was watched"));
}

impl Walk {
    fn line(&mut self, text: &[u8], findings: &mut Findings) {
        let text_line = std::str::from_utf8(text).expect("lines without fault are ASCII");
        let fields: Vec<&str> = text_line.split(' ').collect();
        let thread: usize = fields[0].parse().expect("a thread number");
        if fields[1] == "." {
            for _ in 0..fields[2].parse().expect("a count") {
                self.step(thread, findings);
            }
            return;
        }
        self.table.line(text).expect("a script without fault");
        findings.operations += 1;
        self.clock += 1;
        self.begun[thread] = self.clock;
        self.move_on(thread);
    }

    fn move_on(&mut self, thread: usize) {
        self.moved[thread] = self.clock;
        self.whole[thread].fill(Whole::default());
    }

    fn step(&mut self, thread: usize, findings: &mut Findings) -> Step<u32> {
        self.clock += 1;
        self.lone_run = if self.open().len() == 1 { self.lone_run + 1 } else { 0 };
        assert!(self.lone_run <= self.table.container().bound(), "a lone thread does not end");
        findings.longest_lone_run = findings.longest_lone_run.max(self.lone_run);
        let before = self.label(thread);
        let step = self.table.step(thread as u64).expect("a script without fault");
        self.move_on(thread);
        if before == Some(Label::K1) && self.label(thread) == before {
            let labels = (1..self.moved.len()).filter_map(|other| self.label(other));
            findings.spun_before.extend(labels.filter(|&label| label != Label::K1));
        }
        if let Some(answer) = step.end {
            self.lone_run = 0;
            self.note_parked(thread, answer, findings);
        }
        step
    }

    /// Tells every thread parked since before this operation began that
    /// another whole operation went by.
    fn note_parked(&mut self, ended: usize, answer: Answer<u32>, findings: &mut Findings) {
        // A value may also be a read's answer, so the log is asked.
        let popped = matches!(answer, Answer::Value(_)) && self.was_pop(ended);
        let mut crossed = Vec::new();
        for parked in 1..self.moved.len() {
            let Some(label) = self.label(parked) else { continue };
            if parked == ended || self.moved[parked] > self.begun[ended] {
                continue;
            }
            let whole = &mut self.whole[parked][ended];
            whole.push |= matches!(answer, Answer::Position(_));
            whole.pop |= popped;
            if whole.push && whole.pop {
                crossed.push(label);
            }
        }
        findings.parked_across.extend(&crossed);
        if crossed.len() > 1 {
            findings.two_parked_across.extend(&crossed);
        }
    }

    fn was_pop(&self, thread: usize) -> bool {
        use reference::bench::Record;
        use reference::operation::Operation;
        let last = self.table.log().into_iter().rev().find_map(|record| match record {
            Record::Begin { thread: beginner, operation, .. } if beginner == thread as u64 => {
                Some(operation)
            }
            _ => None,
        });
        last == Some(Operation::Pop)
    }

    fn label(&self, thread: usize) -> Option<Label> {
        self.table.container().label(thread as u64)
    }

    fn open(&self) -> Vec<usize> {
        (1..self.moved.len()).filter(|&thread| self.label(thread).is_some()).collect()
    }

    /// Runs everything to its end, one thread after another. Those who wait before the lock must let its holder out first.
    fn end_all(&mut self, findings: &mut Findings) {
        let mut order = self.open();
        order.sort_by_key(|&thread| self.label(thread) == Some(Label::K1));
        for thread in order {
            let ends = (0..100).any(|_| self.step(thread, findings).end.is_some());
            assert!(ends, "thread {thread} does not end");
        }
    }

    /// With all threads idle the words must show just the plain vector.
    fn check_words(&self) {
        let capacity = self.header.capacity as usize;
        let vector = explain(&self.table.log(), capacity).unwrap_or_else(|why| panic!("{why}"));
        let container = self.table.container();
        let word = |location| container.memory().load(location).expect("a granted location");
        let list: Vec<u32> = if self.header.container == ContainerChoice::Lock {
            assert_eq!(word(0), 0, "an idle vector is locked");
            (0..word(1) as usize).map(|index| value(word(CELLS + index))).collect()
        } else {
            for number in 1..CELLS {
                if let Status::Done(_) = Status::of(word(number)) {
                    panic!("operation {number} was left done");
                }
            }
            let filled =
                |&index: &usize| !matches!(Cell::of(word(CELLS + index)), Cell::Empty { .. });
            let length = (0..capacity).take_while(filled).count();
            assert!((length..capacity).all(|index| !filled(&index)), "a gap among the cells");
            (0..length).map(|index| value(word(CELLS + index))).collect()
        };
        assert_eq!(list, vector.list());
    }
}

fn value(word: u64) -> u32 {
    match Cell::of(word) {
        Cell::Plain { value } | Cell::Frozen { value, .. } => value,
        Cell::Empty { .. } => panic!("an empty cell below the length"),
    }
}
