//! Reads the JSON file that the argument names into a `serde_json::Value`, and prints `ok` or the fault.

use std::process::ExitCode;

fn main() -> ExitCode {
    let Some(path) = std::env::args().nth(1) else {
        println!("usage: bench_serde FILE");
        return ExitCode::from(2);
    };
    let bytes = std::fs::read(path).expect("a file that can be read");
    match serde_json::from_slice::<serde_json::Value>(&bytes) {
        Ok(_) => {
            println!("ok");
            ExitCode::SUCCESS
        }
        Err(fault) => {
            println!("{fault}");
            ExitCode::FAILURE
        }
    }
}
