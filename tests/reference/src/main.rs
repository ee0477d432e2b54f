//! An implementation of documents 01 and 02 that shares no line with the proved library, and the tests that it makes possible.

mod call;
mod commands;
mod compare;
mod concerns;
mod damage;
mod descriptors;
mod draft;
mod dumps;
mod endpoints;
mod events;
mod explained;
mod fault;
mod files;
mod kind;
mod lister;
mod makers;
mod octets;
mod opening;
mod packets;
mod pair;
mod pair_draft;
mod pipe;
mod pipe_runs;
mod ports;
mod protocol;
mod questions;
mod random;
mod record;
mod requests;
mod rule;
mod runs;
mod serve;
mod strikes;
mod super_draft;
mod superspeed;
mod transfers;
mod trim;
mod vectors;
mod writer;

use std::process::ExitCode;

fn main() -> ExitCode {
    match commands::Arguments::read(std::env::args().skip(1)) {
        Some(arguments) => commands::run(&arguments),
        None => {
            eprintln!("usage:\n{}", commands::USAGE);
            ExitCode::from(2)
        }
    }
}
