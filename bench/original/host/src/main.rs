//! Runs the original fast check on the inputs of `fast-check (transform|build) FILE`, and prints its answers in the same JSON.
//! `original rebuild FILE` takes a run of the part `cached_builds` of the stored runs, and prints what that part prints.
#![allow(dead_code, unused_imports)]

pub mod analysis;
mod answers;
pub mod ast;
mod explain;
pub mod fast_check;
mod graph;
mod requests;
mod rebuild;
pub mod source;
pub mod symbols;

pub use deno_ast::{MediaType, ModuleSpecifier};
pub use graph::{JsModule, Module, ModuleGraph, Packages, WorkspaceMember};
use serde_json::Value;

/// What a command prints, and its status.
type Answer = Result<(String, i32), String>;

fn answer(command: &str, file: &str) -> Answer {
    let bytes = std::fs::read(file).map_err(|_| "unreadable")?;
    let value: Value = serde_json::from_slice(&bytes).map_err(|_| "not-json")?;
    match command {
        "transform" => requests::transform(value),
        "build" => requests::build(value),
        "rebuild" => rebuild::rebuild(value),
        _ => Err("usage: original (transform|build|rebuild) FILE".into()),
    }
}

fn run() -> i32 {
    let _covered = explain::Covered;
    let words: Vec<String> = std::env::args().skip(1).collect();
    let [command, file] = words.as_slice() else {
        eprintln!("usage: original (transform|build|rebuild) FILE");
        return 2;
    };
    match answer(command, file) {
        Ok((text, status)) => {
            println!("{text}");
            status
        }
        Err(why) => {
            eprintln!("error: input refused: {why}");
            2
        }
    }
}

/// Trees are deep, so the stack is large. A panic of the original is status 101.
fn main() {
    let thread = std::thread::Builder::new().stack_size(512 << 20).spawn(run);
    let status = thread.expect("a thread").join().unwrap_or(101);
    std::process::exit(status)
}
