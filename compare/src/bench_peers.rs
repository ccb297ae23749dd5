//! The run beside interpreters of another language: Lua 5.4, and LuaJIT with its compiler off, both packages of Debian.
//! The loop of ten statements stands in `peers/loop.lua` as a Lua programmer writes it.

use crate::bench::{best, loop_input, loop_table};
use crate::linked::Proved;
use crate::proved::{Fast, Implementation};
use std::hint::black_box;
use std::process::Command;

const LOOP: &str = concat!(env!("CARGO_MANIFEST_DIR"), "/peers/loop.lua");

/// The run takes at most this part of the time of LuaJIT's interpreter.
const GOAL: f64 = 0.9;

/// Rounds of the loop over 100 cells, and the steps that they are: ten in each round, and one more where i is set to 0.
const ROUNDS: u32 = 100_000;
const STEPS: u32 = ROUNDS * 10 + ROUNDS / 100;

/// Each form is asked so often, in turn, and makes so many calls each time.
const TURNS: usize = 10;
const CALLS: usize = 10;

enum Form {
    Own(&'static dyn Implementation),
    Peer(&'static str, &'static [&'static str]),
}

const FORMS: [(&str, Form); 4] = [
    ("run, fast", Form::Own(&Fast)),
    ("run, proved", Form::Own(&Proved)),
    ("Lua 5.4", Form::Peer("lua5.4", &[])),
    ("LuaJIT, compiler off", Form::Peer("luajit", &["-joff"])),
];

/// ns of the loop, and i, x, sum and round after it.
#[derive(Debug, PartialEq)]
struct Measured {
    time: f64,
    values: Vec<u32>,
}

impl Form {
    /// `None` where a peer is not installed.
    fn measured(&self) -> Option<Measured> {
        match self {
            Form::Own(form) => Some(own(*form)),
            Form::Peer(program, options) => {
                let mut command = Command::new(program);
                command.args(*options).args([LOOP, &ROUNDS.to_string(), &CALLS.to_string()]);
                let output = command.output().ok()?;
                Some(told(&String::from_utf8_lossy(&output.stdout)).expect("a line of peers/loop.lua"))
            }
        }
    }
}

fn own(form: &dyn Implementation) -> Measured {
    let table = loop_table();
    let mut values = Vec::new();
    let time = best(CALLS, || {
        let mut input = loop_input(100, STEPS);
        assert_eq!(form.run_alone(black_box(&table), &mut input)[0], 1, "spent");
        values = input.values;
    });
    // The pointer and its count come first.
    Measured { time, values: values.split_off(2) }
}

/// A line of `peers/loop.lua`.
fn told(line: &str) -> Option<Measured> {
    let numbers: Option<Vec<u32>> = line.split_whitespace().map(|word| word.parse().ok()).collect();
    let (time, values) = numbers?.split_first().map(|(time, values)| (f64::from(*time), values.to_vec()))?;
    Some(Measured { time, values })
}

pub fn peers() {
    let right = own(&Fast).values;
    let mut times = [f64::INFINITY; 4];
    for _ in 0..TURNS {
        // In turn, so that other work on the machine meets all.
        for ((_, form), time) in FORMS.iter().zip(&mut times) {
            if let Some(measured) = form.measured() {
                assert_eq!(measured.values, right, "the same loop");
                *time = time.min(measured.time);
            }
        }
    }
    for ((name, _), time) in FORMS.iter().zip(times) {
        match time.is_finite() {
            true => println!("peers, {name:<20} {:8.2} ns a step", time / f64::from(STEPS)),
            false => println!("peers, {name}: not installed"),
        }
    }
    let [_, proved, _, luajit] = times;
    if luajit.is_finite() {
        let ratio = proved / luajit;
        let met = if ratio <= GOAL { "met" } else { "MISSED" };
        println!("run, proved against LuaJIT's interpreter: {ratio:.2}, goal at most {GOAL:.2}: {met}");
    }
}

#[cfg(test)]
mod tests {
    use super::*;

    #[test]
    fn the_peers_run_the_same_loop() {
        let right = own(&Fast).values;
        for (name, form) in FORMS {
            let Some(measured) = form.measured() else { continue };
            assert_eq!(measured.values, right, "{name}");
        }
        assert_eq!(told("12 0 1 2 3"), Some(Measured { time: 12.0, values: vec![0, 1, 2, 3] }));
        assert_eq!(told("lua: no such file"), None);
    }
}
