//! Calls on any bytes as a state, held to the second implementation's reading
//! of these bytes: each call has a defined answer, which is 3 where the bytes
//! are no state, and where it refuses the call nothing at all is changed.
//!
//!     states SEED EACH RANDOM
//!
//! Real states come from generated sessions, EACH of every kind; every change of
//! a single byte of them is tried, with RANDOM changes of several bytes and
//! RANDOM states of random bytes beside.

#[path = "states/calls.rs"]
mod calls;
#[path = "states/lamps.rs"]
mod lamps;
#[path = "states/real.rs"]
mod real;
#[path = "states/tally.rs"]
mod tally;

use calls::{Calls, Lent};
use generate::Random;
use real::{real_states, Real};
use second::bytes::{self, COUNT_AT, STATE, STREAMS_AT};
use std::process::exit;
use std::thread;
use tally::Tally;

/// Every change of one byte.
fn single_changes(real: &Real, lent: &mut Lent, calls: &mut Calls) -> Result<(), String> {
    for place in 0..STATE {
        for step in 1..=255 {
            let mut bytes = real.state.clone();
            bytes[place] = bytes[place].wrapping_add(step);
            calls
                .hold(&bytes, lent)
                .map_err(|reason| format!("{}, byte {place} plus {step}: {reason}", real.kind))?;
        }
    }
    Ok(())
}

/// Some bytes changed at once, mostly by little.
fn several_changes(
    real: &Real,
    lent: &mut Lent,
    random: &mut Random,
    calls: &mut Calls,
) -> Result<(), String> {
    let mut bytes = real.state.clone();
    for _ in 0..random.between(2, 6) {
        let place = match random.below(12) {
            0..=3 => random.below(STREAMS_AT),
            4 => COUNT_AT,
            _ => random.below(STATE),
        };
        let any = random.byte();
        bytes[place] = random.pick(&[0, 1, 1, 2, 3, 4, 8, 16, any]);
    }
    calls
        .hold(&bytes, lent)
        .map_err(|reason| format!("{}, changed to {bytes:02x?}: {reason}", real.kind))
}

/// Bytes at random: any, or small ones, which are often a state. The count of a
/// state is then mostly right.
fn random_bytes(lent: &mut Lent, random: &mut Random, calls: &mut Calls) -> Result<(), String> {
    let largest = random.pick(&[255, 255, 4, 3, 2, 1, 1, 1]);
    let mut bytes: Vec<u8> = (0..STATE)
        .map(|_| random.between(0, largest) as u8)
        .collect();
    if let Some(state) = bytes::read(&bytes).filter(|_| random.percent(80)) {
        bytes[COUNT_AT] = state.used().count() as u8;
    }
    calls
        .hold(&bytes, lent)
        .map_err(|reason| format!("{bytes:02x?}: {reason}"))
}

/// A share of the work, for one thread.
fn share(seed: u64, states: &[Real], random_count: u64) -> Result<Tally, String> {
    let mut calls = Calls::new(seed);
    let random = &mut Random::new(seed);
    let mut buffers: Vec<Lent> = states.iter().map(|real| Lent::new(&real.work)).collect();
    for (real, lent) in states.iter().zip(&mut buffers) {
        calls.hold(&real.state, lent)?;
        calls.other_lengths(real, lent)?;
        single_changes(real, lent, &mut calls)?;
    }
    for _ in 0..random_count {
        let place = random.below(states.len());
        let (real, lent) = (&states[place], &mut buffers[place]);
        several_changes(real, lent, random, &mut calls)?;
        random_bytes(lent, random, &mut calls)?;
    }
    Ok(calls.tally)
}

fn run(seed: u64, each: usize, random: u64) -> Result<(), String> {
    let states = real_states(seed, each)?;
    let (first, second) = states.split_at(states.len() / 2);
    let tally = thread::scope(|scope| {
        let other = scope.spawn(|| share(seed + 1, second, random / 2));
        let tally = share(seed, first, random / 2)?;
        let other = other.join().map_err(|_| "a thread ended".to_string())?;
        Ok::<Tally, String>(tally.joined(other?))
    })?;
    tally.print();
    tally.check()?;
    println!(
        "states: {} real states, every change of a byte, {} calls, each as the second implementation's",
        states.len(),
        tally.calls()
    );
    Ok(())
}

fn main() {
    let arguments: Vec<String> = std::env::args().skip(1).collect();
    let numbers: Option<Vec<u64>> = arguments.iter().map(|word| word.parse().ok()).collect();
    let Some([seed, each, random]) = numbers.as_deref() else {
        println!("states: SEED EACH RANDOM");
        exit(2)
    };
    if let Err(reason) = run(*seed, *each as usize, *random) {
        println!("states: {reason}");
        exit(1);
    }
}
