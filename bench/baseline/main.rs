//! A plain Rust interpreter of the machine's design, to measure `xv6 flat` against: the memory is
//! one block of frames, each access walks three levels of Sv39 tables in it, or with `--tlb` looks
//! first at what is remembered of 64 pages for each kind of access, and each step decodes its
//! instruction from the word. It knows RV64IM, the calls fork, exit, wait, pipe, read, sbrk, write and
//! close, 64 slots of processes that take turns, pipes whose bytes lie in a frame, and a console with
//! keys. A fork shares the pages until they are written, or with `--copying` copies them at once. A
//! script's lines `step N`, `tick N`, `type TEXT` and `keys HEX` say what happens.
//!
//!     rustc -O -o baseline main.rs
//!     ./baseline [--tlb] [--copying] FRAMES FILE SCRIPT

mod hart;
mod machine;
mod memory;
mod pages;
mod processes;
mod transfers;

use machine::Machine;

/// Takes a flag from the words, and returns whether it was there.
fn take_flag(words: &mut Vec<String>, flag: &str) -> bool {
    let before = words.len();
    words.retain(|word| word != flag);
    words.len() < before
}

fn main() {
    let mut words: Vec<String> = std::env::args().collect();
    let keeps = take_flag(&mut words, "--tlb");
    let copies = take_flag(&mut words, "--copying");
    let frames = words[1].parse().expect("a number of frames");
    let program = std::fs::read(&words[2]).expect("a program");
    let script = std::fs::read_to_string(&words[3]).expect("a script");
    let mut machine =
        Machine::new(frames, &program, keeps, copies).expect("frames for the program");
    let mut done = 0u64;
    for line in script.lines() {
        let (word, rest) = line.split_once(' ').expect("a command");
        match word {
            "step" => {
                for _ in 0..rest.parse().expect("a number of steps") {
                    done += 1;
                    if let Some(status) = machine.go() {
                        eprintln!("exit {status} after {done} steps");
                        return;
                    }
                }
            }
            "tick" => machine.tick(),
            "type" => rest.bytes().chain([b'\n']).for_each(|byte| machine.key(byte)),
            "keys" => machine.key(u8::from_str_radix(rest, 16).expect("a key")),
            _ => panic!("no command: {line}"),
        }
    }
    eprintln!("running after {done} steps");
}
