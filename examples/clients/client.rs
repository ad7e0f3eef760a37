//! Prints what `fast-check build` answers of each module: client FAST-CHECK REQUEST.json. Needs the crate serde_json.
use serde_json::Value;
use std::{env, process::{exit, Command, Stdio}};

fn main() -> Result<(), Box<dyn std::error::Error>> {
    let words: Vec<String> = env::args().skip(1).collect();
    let done = Command::new(&words[0]).arg("build").arg(&words[1]).stdin(Stdio::null()).output()?;
    if done.status.code() > Some(1) { // the request is refused, or memory ran out
        eprintln!("{}", String::from_utf8_lossy(&done.stderr).trim());
        exit(1);
    }
    for (specifier, answer) in serde_json::from_slice::<Vec<(String, Value)>>(&done.stdout)? {
        for each in answer["Err"].as_array().into_iter().flatten() {
            println!("{specifier}: {}: {}", each["code"].as_str().unwrap_or(""), each["message"].as_str().unwrap_or(""));
        }
        if let Some(body) = answer["Ok"]["program"]["body"].as_array() {
            println!("{specifier}: {} items", body.len());
        }
    }
    Ok(())
}
