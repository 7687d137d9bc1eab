//! The turns of `bm_turn_bench` with a `Mutex` in place of the turnstile: the same tally in plain Rust.
//!
//! usage: turnstile_mutex THREADS MUTEXES TURNS

use std::sync::Mutex;
use std::thread;

struct Made {
    _seat: u16,
    _call: u32,
}

/// Keeps its calls, and replies how many there were before.
struct Tally {
    calls: Vec<Made>,
}

impl Tally {
    fn apply(&mut self, seat: u16, call: u32) -> Option<usize> {
        let before = self.calls.len();
        self.calls.try_reserve(1).ok()?;
        self.calls.push(Made { _seat: seat, _call: call });
        Some(before)
    }
}

fn work(tallies: &[Mutex<Tally>], seat: u16, turns: u32) -> u64 {
    let mut answered = 0;
    for turn in 0..turns {
        let mut tally = tallies[turn as usize % tallies.len()].lock().unwrap();
        if tally.apply(seat, turn).is_some() {
            answered += 1;
        }
    }
    answered
}

fn main() {
    let words: Vec<u32> = std::env::args().skip(1).map(|word| word.parse().unwrap()).collect();
    let [threads, mutexes, turns] = words[..] else { panic!("three numbers") };
    let tallies: Vec<_> = (0..mutexes).map(|_| Mutex::new(Tally { calls: Vec::new() })).collect();
    let made: u64 = thread::scope(|scope| {
        let workers: Vec<_> = (0..threads)
            .map(|seat| scope.spawn({ let tallies = &tallies; move || work(tallies, seat as u16, turns) }))
            .collect();
        workers.into_iter().map(|worker| worker.join().unwrap()).sum()
    });
    println!("{threads} threads, {mutexes} mutexes, {made} turns");
}
