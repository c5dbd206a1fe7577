//! ctfd-front: lets many clients use one ctfd, over a Unix socket.
//!
//! Each connection is a session of its own. Each shard is a thread that has a service of its own,
//! in process, and a part of the connections: no pipe and no second process is between a client and
//! its service.
//!
//! - `start`, `front`: the main thread: the socket, who may connect, signals, statistics.
//! - `shard`, `door`: the loop of a shard, and what other threads ask of it.
//! - `connection`, `incoming`, `tools`: a client: its lines, its replies, and its turn.
//! - `turns`, `weight`, `meter`: whose turn it is, by the time that each has used.
//! - `answers`: the service, which answers each line as its connection's session.
//! - `rooms`, `name`, `members`: the parts of lines that the front itself reads.
//! - `builds`, `bundle`: types by build-id, published when they are first taken.
//! - `users`, `limits`, `refusals`: what each user has, and the limits.
//! - `statistics`, `metrics`, `journal`, `text`, `notify`: output for the operator.
//! - `listening`, `signals`, `files`, `system`: calls of the operating system.

mod answers;
mod builds;
mod bundle;
mod command;
mod connection;
mod door;
mod files;
mod front;
mod incoming;
mod journal;
mod limits;
mod listening;
mod members;
mod meter;
mod metrics;
mod name;
mod notify;
mod refusals;
mod rooms;
mod shard;
mod signals;
mod start;
mod statistics;
mod system;
mod text;
mod tools;
mod turns;
mod users;
mod weight;

use std::process::ExitCode;

/// A function that ends the process, for a command line that is wrong or asks for help.
pub type Refuse = fn(&clap::Command, &clap::Error) -> !;

/// Runs the front with the command line of the process. Returns the exit status.
pub fn main(refuse: Refuse) -> ExitCode {
    // Before the command line is parsed, so that no signal is lost.
    let signals = match signals::Signals::new() {
        Ok(signals) => signals,
        Err(why) => {
            journal::say(journal::Level::Error, format_args!("signals can't be had: {why}"));
            return ExitCode::from(5);
        }
    };
    ExitCode::from(front::run(command::options(std::env::args_os(), refuse), signals))
}
