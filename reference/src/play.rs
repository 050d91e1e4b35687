//! Playing whole scripts on the bench their header asks for.

use crate::bench::{Bench, Record};
use crate::container::Container;
use crate::descriptor::DescriptorVector;
use crate::kinds::{Kind, Numbers, Points};
use crate::lock::LockVector;
use crate::memory::{BucketedMemory, FlatMemory};
use crate::operation::Step;
use crate::refusal::Refusal;
use crate::script::{
    lines, read_calls, read_header, Calls, ContainerChoice, Header, KindChoice, MemoryChoice,
    SCRIPT_LIMIT,
};

/// How much output the program gives a listing.
pub const LISTING_LIMIT: usize = 65_536;

/// A bench of any container, memory and kind, driven by script lines.
pub trait Table {
    /// Plays a line after the header.
    fn line(&mut self, text: &[u8]) -> Result<(), Refusal>;

    /// One step, with its answer as a value.
    fn step(&mut self, thread: u64) -> Result<Step<u32>, Refusal>;

    fn container(&self) -> &dyn Container;
    fn container_mut(&mut self) -> &mut dyn Container;

    /// The log, items turned into values.
    fn log(&self) -> Vec<Record<u32>>;

    /// Closes the run and lists it.
    fn list(self: Box<Self>, limit: usize) -> Result<Vec<u8>, Refusal>;
}

impl<K: Kind, C: Container> Table for Bench<K, C> {
    fn line(&mut self, text: &[u8]) -> Result<(), Refusal> {
        match read_calls::<K>(text)? {
            Calls::Begin { thread, operation } => {
                self.begin(thread, operation)?;
            }
            Calls::Steps { thread, count } => {
                for _ in 0..count {
                    Bench::step(self, thread)?;
                }
            }
        }
        Ok(())
    }

    fn step(&mut self, thread: u64) -> Result<Step<u32>, Refusal> {
        let step = Bench::step(self, thread)?;
        Ok(Step { effect: step.effect, end: step.end.map(|answer| answer.map(K::value_of)) })
    }

    fn container(&self) -> &dyn Container {
        Bench::<K, C>::container(self)
    }

    fn container_mut(&mut self) -> &mut dyn Container {
        Bench::<K, C>::container_mut(self)
    }

    fn log(&self) -> Vec<Record<u32>> {
        Bench::log(self).iter().map(|record| record.map(K::value_of)).collect()
    }

    fn list(self: Box<Self>, limit: usize) -> Result<Vec<u8>, Refusal> {
        let mut output = vec![0; limit];
        let length = self.close().list(&mut output)?;
        output.truncate(length);
        Ok(output)
    }
}

/// The bench that a header asks for, set up.
pub fn table(header: &Header) -> Result<Box<dyn Table>, Refusal> {
    match header.kind {
        KindChoice::Numbers => table_of::<Numbers>(header),
        KindChoice::Points => table_of::<Points>(header),
    }
}

fn table_of<K: Kind + 'static>(header: &Header) -> Result<Box<dyn Table>, Refusal> {
    use {ContainerChoice::*, MemoryChoice::*};
    match (header.container, header.memory) {
        (Descriptor, Flat) => ready::<K, _>(header, DescriptorVector::new(FlatMemory::new())),
        (Descriptor, Bucketed) => {
            ready::<K, _>(header, DescriptorVector::new(BucketedMemory::new()))
        }
        (Lock, Flat) => ready::<K, _>(header, LockVector::new(FlatMemory::new())),
        (Lock, Bucketed) => ready::<K, _>(header, LockVector::new(BucketedMemory::new())),
    }
}

fn ready<K: Kind + 'static, C: Container + 'static>(
    header: &Header,
    container: C,
) -> Result<Box<dyn Table>, Refusal> {
    let mut bench = Bench::<K, C>::new(container);
    bench.set_up(header.capacity, header.threads)?;
    Ok(Box::new(bench))
}

/// The first fault of a script.
#[derive(Clone, Copy, Debug, PartialEq, Eq)]
pub struct Fault {
    /// 0 for a fault of the script or listing as a whole.
    pub line: usize,
    pub refusal: Refusal,
}

impl Fault {
    fn whole(refusal: Refusal) -> Fault {
        Fault { line: 0, refusal }
    }

    pub fn text(&self) -> Vec<u8> {
        format!("fault {} {}\n", self.line, self.refusal.number()).into_bytes()
    }
}

/// What the program prints for a script: its listing, or its first fault.
pub fn play(script: &[u8], limit: usize) -> Vec<u8> {
    run(script)
        .and_then(|table| table.list(limit).map_err(Fault::whole))
        .unwrap_or_else(|fault| fault.text())
}

/// Plays all lines of a script.
pub fn run(script: &[u8]) -> Result<Box<dyn Table>, Fault> {
    if script.len() > SCRIPT_LIMIT {
        return Err(Fault::whole(Refusal::ScriptTooLong));
    }
    let mut bench: Option<Box<dyn Table>> = None;
    // Looked for ahead, since its want comes before the fault of any line.
    if lines(script).all(|line| line.is_skipped()) {
        return Err(Fault::whole(Refusal::NoFirstLine));
    }
    for line in lines(script) {
        let at_line = |refusal| Fault { line: line.number, refusal };
        line.check().map_err(at_line)?;
        if line.is_skipped() {
            continue;
        }
        match &mut bench {
            Some(bench) => bench.line(line.text).map_err(at_line)?,
            None => {
                let header = read_header(line.text).map_err(at_line)?;
                bench = Some(table(&header).map_err(at_line)?);
            }
        }
    }
    Ok(bench.expect("a line that is not skipped was found"))
}
