//! Drawing scripts from a seed. Scripts come in families, mixed by weights;
//! most are played without a fault and are long enough to be worth playing.

mod damage;
mod faults;
mod items;
mod parking;
mod pen;
mod recipes;
mod rng;
mod schedules;

use crate::script::{ContainerChoice, Header, KindChoice, MemoryChoice, SCRIPT_LIMIT};
use pen::Pen;
use rng::Rng;

/// The scripts number 0 to `count` - 1 of a seed.
pub fn draw(seed: u64, count: u64) -> Vec<Vec<u8>> {
    (0..count).map(|index| draw_one(seed, index)).collect()
}

/// One script of a seed. Rare families have fixed places, so that every few
/// hundred scripts have them.
pub fn draw_one(seed: u64, index: u64) -> Vec<u8> {
    let rng = &mut Rng::new(seed, index);
    match index % 1_000 {
        250 => return padded(rng, SCRIPT_LIMIT),
        500 => return padded(rng, SCRIPT_LIMIT + 1),
        750 => return over_long(rng),
        _ => {}
    }
    if index % 200 == 77 {
        return exhausted(rng);
    }
    match rng.weighted(&[38, 16, 15, 6, 8, 5, 2, 8]) {
        0 => parked(rng),
        1 => contended(rng),
        2 => by_chance(rng),
        3 => at_boundaries(rng),
        4 => with_odd_items(rng),
        5 => refused(rng),
        6 => refused_at_start(rng),
        _ => damaged(rng),
    }
}

/// A header with `descriptor` percent of descriptor vectors.
fn header(rng: &mut Rng, descriptor: u64, capacity: u64, threads: u64) -> Header {
    Header {
        container: if rng.percent(descriptor) {
            ContainerChoice::Descriptor
        } else {
            ContainerChoice::Lock
        },
        memory: rng.pick(&[MemoryChoice::Flat, MemoryChoice::Bucketed]),
        kind: if rng.percent(75) { KindChoice::Numbers } else { KindChoice::Points },
        capacity,
        threads,
    }
}

/// Operations for a script of ordinary length.
fn budget(rng: &mut Rng) -> u64 {
    rng.between(8, 50)
}

/// Small vectors, where threads meet.
fn parked(rng: &mut Rng) -> Vec<u8> {
    let (capacity, threads) = (rng.pick(&[1, 1, 2, 2, 2, 3, 4]), rng.pick(&[2, 3, 3, 4, 4, 5, 8]));
    let header = header(rng, 80, capacity, threads);
    let pool_size = rng.pick(&[1, 1, 1, 2, 3]);
    let budget = budget(rng);
    scripted(rng, header, pool_size, |pen| parking::parking(pen, budget))
}

fn contended(rng: &mut Rng) -> Vec<u8> {
    let (capacity, threads) = (rng.between(1, 4), rng.between(2, 8));
    let header = header(rng, 80, capacity, threads);
    let pool_size = rng.pick(&[1, 2, 5]);
    let budget = budget(rng);
    scripted(rng, header, pool_size, |pen| schedules::contention(pen, budget))
}

fn by_chance(rng: &mut Rng) -> Vec<u8> {
    let (capacity, threads) = (any_capacity(rng), rng.between(1, 8));
    let header = header(rng, 60, capacity, threads);
    let pool_size = rng.between(1, 6);
    let budget = budget(rng);
    scripted(rng, header, pool_size, |pen| schedules::chance(pen, budget))
}

fn any_capacity(rng: &mut Rng) -> u64 {
    if rng.percent(85) {
        rng.between(1, 4)
    } else {
        rng.between(5, 64)
    }
}

fn at_boundaries(rng: &mut Rng) -> Vec<u8> {
    let (capacity, threads) = (rng.pick(&[1, 2, 3, 5, 8, 64]), rng.pick(&[1, 2, 8, 8]));
    let header = header(rng, 60, capacity, threads);
    if rng.percent(4) {
        // A header alone has an empty listing.
        return scripted(rng, header, 1, |_| {});
    }
    scripted(rng, header, 3, schedules::boundaries)
}

/// Any schedule, with every odd way to write a granted item.
fn with_odd_items(rng: &mut Rng) -> Vec<u8> {
    let (capacity, threads) = (rng.between(2, 6), rng.between(1, 4));
    let mut header = header(rng, 60, capacity, threads);
    header.kind = rng.pick(&[KindChoice::Numbers, KindChoice::Points, KindChoice::Points]);
    let pool: Vec<String> = (0..12).map(|_| items::fine(rng, header.kind)).collect();
    let budget = budget(rng);
    let mut pen = Pen::new(rng, header, pool);
    schedules::chance(&mut pen, budget);
    pen.finish()
}

/// A short run and then a line at fault.
fn refused(rng: &mut Rng) -> Vec<u8> {
    let (capacity, threads) = (rng.pick(&[1, 2, 3, 4, 63, 64]), rng.between(1, 8));
    let mut header = header(rng, 60, capacity, threads);
    header.kind = rng.pick(&[KindChoice::Numbers, KindChoice::Points]);
    let budget = rng.between(0, 12);
    scripted(rng, header, 3, |pen| {
        schedules::chance(pen, budget);
        faults::bad_line(pen);
    })
}

fn refused_at_start(rng: &mut Rng) -> Vec<u8> {
    let (capacity, threads) = (rng.between(1, 64), rng.between(1, 8));
    let header = header(rng, 50, capacity, threads);
    faults::bad_start(rng, &header)
}

fn damaged(rng: &mut Rng) -> Vec<u8> {
    let mut script = match rng.below(3) {
        0 => contended(rng),
        1 => by_chance(rng),
        _ => parked(rng),
    };
    damage::damage(rng, &mut script);
    script
}

/// All 400 numbers, and mostly one begin more.
fn exhausted(rng: &mut Rng) -> Vec<u8> {
    let (capacity, threads) = (rng.between(1, 4), rng.between(1, 4));
    let mut header = header(rng, 70, capacity, threads);
    header.kind = KindChoice::Numbers;
    let more = rng.percent(70);
    scripted(rng, header, 3, |pen| {
        schedules::exhaustion(pen);
        if more {
            faults::one_too_many(pen);
        }
    })
}

/// A script padded by comments to a length; at the limit it is granted, one
/// byte above it is not.
fn padded(rng: &mut Rng, length: usize) -> Vec<u8> {
    let mut script = by_chance(rng);
    while script.len() < length {
        let room = (length - script.len()).min(200);
        script.extend(std::iter::repeat_n(b'#', room - 1));
        script.push(b'\n');
    }
    script
}

/// Too long, and at fault in every other way too: the length comes first.
fn over_long(rng: &mut Rng) -> Vec<u8> {
    let length = SCRIPT_LIMIT as u64 + rng.between(2, 4_000);
    (0..length).map(|_| rng.pick(b"#\n 1+-dfn\xff")).collect()
}

fn scripted(
    rng: &mut Rng,
    header: Header,
    pool_size: u64,
    family: impl FnOnce(&mut Pen),
) -> Vec<u8> {
    let pool = pen::pool(rng, header.kind, pool_size);
    let mut pen = Pen::new(rng, header, pool);
    family(&mut pen);
    pen.finish()
}
