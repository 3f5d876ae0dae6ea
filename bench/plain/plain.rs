//! The plain program beside which `bench/run.sh` times eperftool: what an unverified program that
//! is written for speed takes for the same work. It has `encode`, `decode` and `perf` with the
//! words of the benchmark's jobs, and reads, writes and reports what eperftool does with them
//! (docs/COMMANDS.md). It leaves out the grid, the bursts of `--loss`, `--draws` and `--packets`.
//!
//! It promises nothing: nothing here is proved, want of memory aborts it, and draws have no
//! limit. The gate doesn't build it, and no other program uses it. By hand: `rustc --edition
//! 2021 -O bench/plain/plain.rs`.
//!
//! Three choices make it fast. A row of the matrix is one word, the number of its unknown columns
//! and their XOR, and its symbols are added only once all but one are known, many into one. All
//! blocks of a size share one code of flat rows and columns. What peeling leaves is solved eight
//! unknowns at a time, by a table of the 256 sums of eight pivot rows.

mod blocks;
mod codes;
mod commands;
mod draws;
mod elimination;
mod files;
mod symbols;
mod words;

use blocks::*;
use codes::*;
use commands::*;
use draws::*;
use elimination::*;
use files::*;
use std::collections::HashMap;
use std::fs::File;
use std::io::{self, Read, Write};
use std::os::fd::{AsFd, BorrowedFd};
use symbols::*;
use words::*;

/// A status and the report behind `fault: `.
type Fault = (i32, String);
type Answer<T> = Result<T, Fault>;

fn fault<T>(status: i32, text: impl Into<String>) -> Answer<T> {
    Err((status, text.into()))
}

fn usage<T>() -> Answer<T> {
    fault(2, "usage\nusage: eperftool COMMAND [--name=value ...]")
}

fn main() {
    let words: Vec<String> = std::env::args().skip(1).collect();
    let status = match run(&words) {
        Ok((status, text)) if tell(&text) || status != 0 => status,
        Ok(_) => 4,
        Err((status, text)) => {
            tell(&format!("fault: {text}\n"));
            status
        }
    };
    std::process::exit(status);
}

/// Writes to standard error, and says whether that went well.
fn tell(text: &str) -> bool {
    io::stderr().write_all(text.as_bytes()).is_ok()
}

/// The status and the report.
fn run(words: &[String]) -> Answer<(i32, String)> {
    let Some((command, words)) = words.split_first() else { return usage() };
    let code = ["codec", "n1", "seed", "symbol"];
    match command.as_str() {
        "encode" => encode(&Options::read(words, &[&code[..], &["block", "max-n"]].concat())?),
        "decode" => decode(&Options::read(words, &["early"])?),
        "perf" => {
            let own = ["k", "n", "runs", "run-seed", "loss", "order"];
            perf(&Options::read(words, &[&code[..], &own].concat())?)
        }
        _ => usage(),
    }
}
