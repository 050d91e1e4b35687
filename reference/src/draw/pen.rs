//! Writes a script while playing it, so that a family knows which threads are
//! open, at which stage, and when an operation has ended.

use super::items;
use super::rng::Rng;
use crate::container::Container;
use crate::coverage::Label;
use crate::operation::Answer;
use crate::play::{table, Table};
use crate::script::{ContainerChoice, Header, KindChoice, MemoryChoice, MOST_STEPS};
use crate::word::{Cell, CELLS, NUMBERS};

/// How a script looks; drawn once for each.
struct Style {
    /// Percent of step lines that are broken into single steps.
    singles: u64,
    /// Percent of step lines that are broken somewhere.
    broken: u64,
    /// Percent of lines that an empty line or a comment goes before.
    noise: u64,
    /// Percent of numbers with leading zeros.
    zeros: u64,
}

pub struct Pen<'a> {
    pub rng: &'a mut Rng,
    header: Header,
    table: Box<dyn Table>,
    text: Vec<u8>,
    style: Style,
    /// Steps played and not yet written.
    unwritten: Option<(u64, u64)>,
    begun: u64,
    /// The items this script pushes and writes.
    pool: Vec<String>,
}

/// Many steps of a thread that ends at all end within this many.
const ENOUGH: u64 = 80;

impl<'a> Pen<'a> {
    /// Starts a script; the header must be one that is granted.
    pub fn new(rng: &'a mut Rng, header: Header, pool: Vec<String>) -> Self {
        let table = table(&header).expect("a pen is given granted headers");
        let style = Style {
            singles: rng.pick(&[0, 5, 20, 60]),
            broken: rng.pick(&[0, 20, 50]),
            noise: rng.pick(&[0, 0, 3, 10]),
            zeros: rng.pick(&[0, 0, 0, 0, 4]),
        };
        let mut pen =
            Pen { rng, header, table, text: Vec::new(), style, unwritten: None, begun: 0, pool };
        let capacity = pen.number(header.capacity);
        let threads = pen.number(header.threads);
        pen.write(&format!("{} {capacity} {threads}", letters(&header)));
        pen
    }

    pub fn header(&self) -> &Header {
        &self.header
    }

    pub fn is_descriptor(&self) -> bool {
        self.header.container == ContainerChoice::Descriptor
    }

    pub fn container(&self) -> &dyn Container {
        self.table.container()
    }

    /// How many operations were begun.
    pub fn begun(&self) -> u64 {
        self.begun
    }

    pub fn length(&self) -> usize {
        self.text.len()
    }

    pub fn idle(&self) -> Vec<u64> {
        (1..=self.header.threads).filter(|&thread| self.label(thread).is_none()).collect()
    }

    pub fn open(&self) -> Vec<u64> {
        (1..=self.header.threads).filter(|&thread| self.label(thread).is_some()).collect()
    }

    pub fn label(&self, thread: u64) -> Option<Label> {
        self.container().label(thread)
    }

    pub fn item(&mut self) -> String {
        let choice = self.rng.below(self.pool.len() as u64);
        self.pool[choice as usize].clone()
    }

    /// An index for a read or write: often one whose cell is frozen just now.
    pub fn index(&mut self) -> u64 {
        let frozen: Vec<u64> =
            (0..self.header.capacity).filter(|&index| self.is_frozen(index)).collect();
        if !frozen.is_empty() && self.rng.percent(60) {
            self.rng.pick(&frozen)
        } else {
            self.rng.below(self.header.capacity)
        }
    }

    pub fn is_frozen(&self, index: u64) -> bool {
        let word = self.container().memory().load(CELLS + index as usize);
        matches!(word.map(Cell::of), Ok(Cell::Frozen { .. }))
    }

    /// Begins an operation of an idle thread, while numbers are left.
    pub fn begin(&mut self, thread: u64, operation: &str) -> bool {
        if self.begun == u64::from(NUMBERS) {
            return false;
        }
        self.flush();
        let line = format!("{} {operation}", self.number(thread));
        self.table.line(line.as_bytes()).expect("only granted begins are drawn");
        self.begun += 1;
        self.write(&line);
        true
    }

    /// One step, if an operation is open; tells the answer that ended it.
    pub fn step(&mut self, thread: u64) -> Option<Answer<u32>> {
        let step = self.table.step(thread).ok()?;
        self.unwritten = match self.unwritten {
            Some((same, count)) if same == thread && count < MOST_STEPS => {
                Some((thread, count + 1))
            }
            _ => {
                self.flush();
                Some((thread, 1))
            }
        };
        step.end
    }

    pub fn steps(&mut self, thread: u64, count: u64) {
        for _ in 0..count {
            if self.label(thread).is_none() || self.step(thread).is_some() {
                return;
            }
        }
    }

    /// Steps a thread until it stands at a label or has ended.
    pub fn run_to(&mut self, thread: u64, label: Label) {
        for _ in 0..ENOUGH {
            if self.label(thread) == Some(label) || self.label(thread).is_none() {
                return;
            }
            self.step(thread);
        }
    }

    /// Steps a thread until it has ended; one that spins before a held lock
    /// soon gives up and stays open.
    pub fn run(&mut self, thread: u64) -> Option<Answer<u32>> {
        let patience = self.rng.between(1, 4);
        let mut spins = 0;
        for _ in 0..ENOUGH {
            let before = self.label(thread)?;
            if let Some(answer) = self.step(thread) {
                return Some(answer);
            }
            spins += u64::from(before == Label::K1 && self.label(thread) == Some(Label::K1));
            if spins == patience {
                break;
            }
        }
        None
    }

    /// A whole operation: begun and run to its end.
    pub fn whole(&mut self, thread: u64, operation: &str) -> Option<Answer<u32>> {
        if self.begin(thread, operation) {
            self.run(thread)
        } else {
            None
        }
    }

    /// Ends every open operation: those inside a lock first, then the rest.
    pub fn settle(&mut self) {
        for inside in [true, false] {
            for thread in self.open() {
                if !inside || self.label(thread) != Some(Label::K1) {
                    self.run(thread);
                }
            }
        }
    }

    /// Writes a line as it stands, without playing it.
    pub fn raw(&mut self, line: &str) {
        self.flush();
        self.write(line);
    }

    /// The script so far.
    pub fn finish(mut self) -> Vec<u8> {
        self.flush();
        self.text
    }

    fn flush(&mut self) {
        let Some((thread, mut left)) = self.unwritten.take() else {
            return;
        };
        while left > 0 {
            let count = if self.rng.percent(self.style.singles) {
                1
            } else if self.rng.percent(self.style.broken) {
                self.rng.between(1, left)
            } else {
                left
            };
            let line = format!("{} . {}", self.number(thread), self.number(count));
            self.write(&line);
            left -= count;
        }
    }

    fn write(&mut self, line: &str) {
        if self.rng.percent(self.style.noise) {
            let noise = noise(self.rng);
            self.text.extend_from_slice(&noise);
        }
        self.text.extend_from_slice(line.as_bytes());
        self.text.push(b'\n');
    }

    fn number(&mut self, number: u64) -> String {
        if self.rng.percent(self.style.zeros) {
            let width = self.rng.between(2, 10) as usize;
            format!("{number:0width$}")
        } else {
            number.to_string()
        }
    }
}

/// Items for a pool: simple ones mostly, else any that are granted.
pub fn pool(rng: &mut Rng, kind: KindChoice, size: u64) -> Vec<String> {
    let plain = rng.percent(70);
    (0..size)
        .map(|_| if plain { items::simple(rng, kind) } else { items::fine(rng, kind) })
        .collect()
}

/// An empty line or a comment; control bytes in a comment are fine.
pub fn noise(rng: &mut Rng) -> Vec<u8> {
    const COMMENTS: [&[u8]; 9] = [
        b"\n",
        b"#\n",
        b"# parked\n",
        b"## 1 + 17\n",
        b"#1 . 3\n",
        b"# tab\there\n",
        b"# cr\r\n",
        b"# nul\0 bell\x07\n",
        b"#  trailing \n",
    ];
    rng.pick(&COMMENTS).to_vec()
}

pub fn letters(header: &Header) -> String {
    let container = match header.container {
        ContainerChoice::Descriptor => 'd',
        ContainerChoice::Lock => 'g',
    };
    let memory = match header.memory {
        MemoryChoice::Flat => 'f',
        MemoryChoice::Bucketed => 'b',
    };
    let kind = match header.kind {
        KindChoice::Numbers => 'n',
        KindChoice::Points => 'p',
    };
    [container, memory, kind].iter().collect()
}
