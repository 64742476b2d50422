//! The anchor of the measurements: a program without proofs, in plain Rust, that runs the scripts of stampctl by the rules of
//! docs/MODEL.md, keeps the bytes of docs/FORMATS.md, and prints the same lines. It has all actors: nodes with replicas, the stream
//! manager, servers with their ranges, their checkpoints, their loads, their Gets and their splits, and the map; record files of
//! version 2 in memory, after gates; all packets; and what was acknowledged.
//!
//! It knows no merge of ranges: of a script with a `merge` nothing is run and nothing is printed, but the line on standard error,
//! and the status is 2. It takes no words: there is no trace, no drawing and no dump. Nor has it what no run of a script comes to:
//! its own records are not damaged, no number is used up, and memory that runs out ends the program.
mod bytes;
mod cache;
mod checkpoint;
mod client;
mod device;
mod digest;
mod effects;
mod formats;
mod keys;
mod load;
mod log;
mod manager;
mod map;
mod node;
mod packet;
mod range;
mod reads;
mod refusal;
mod script;
mod server;
mod session;
mod split;
mod streams;
mod table;

use script::Refused;
use std::io::{self, Read, Write};
use std::process::ExitCode;

fn main() -> io::Result<ExitCode> {
    if std::env::args().len() > 1 {
        eprintln!("the plain program takes no words, and reads a script from standard input");
        return Ok(ExitCode::from(2));
    }
    let mut text = Vec::new();
    io::stdin().read_to_end(&mut text)?;
    match script::read(&text) {
        Ok(plan) => {
            io::stdout().write_all(&session::run(plan))?;
            Ok(ExitCode::SUCCESS)
        }
        Err(Refused::BadScript(reason)) => {
            eprintln!("{reason}");
            println!("refused 60 BadScript");
            Ok(ExitCode::FAILURE)
        }
        Err(Refused::Unknown(reason)) => {
            eprintln!("{reason}");
            Ok(ExitCode::from(2))
        }
    }
}
