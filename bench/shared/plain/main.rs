//! A plain server, to measure bl_server by: the same commands, setups, sessions and trails, with nothing proved.
//!
//!     plain alone --setup FILE [--limit N] [--trail FILE]
//!     plain serve --setup FILE --port N --trail FILE [--session-threads N] [--sessions N] [--limit N] [--workers N]
//!     plain replay --setup FILE --trail FILE
//!
//! Written as one would who has only speed and the right answers in mind: a line is read in one walk into lists that
//! all lines of a block share, and runs under one lock. A setup has to be right, nobody is told of faults of input and
//! output, and there are no workers: each session's thread runs what it read.
mod ink;
mod names;
mod policy;
mod read;
mod replay;
mod run;
mod script;
mod session;
mod setup;
mod state;
mod tokens;

use session::{Session, serve};
use setup::Setup;
use state::{State, Trail};
use std::env::args;
use std::fs;
use std::io::{self, Write, stdin, stdout};
use std::net::TcpListener;
use std::sync::Mutex;
use std::sync::atomic::{AtomicUsize, Ordering};
use std::thread;

fn option(name: &str) -> Option<String> {
    args().skip_while(|word| word != name).nth(1)
}

fn number(name: &str, usual: usize) -> usize {
    option(name).map_or(usual, |word| word.parse().expect("a number"))
}

fn alone(setup: &Setup, state: &Mutex<State>, traces: bool) -> io::Result<()> {
    serve(Session::new(setup, state, traces), stdin().lock(), stdout().lock(), false)
}

fn serve_all(setup: &Setup, state: &Mutex<State>) -> io::Result<()> {
    let listener = TcpListener::bind(("127.0.0.1", number("--port", 0) as u16))?;
    println!("listening");
    stdout().flush()?;
    let (sessions, taken) = (number("--sessions", 1), AtomicUsize::new(0));
    let visit = || {
        while taken.fetch_add(1, Ordering::Relaxed) < sessions {
            let Ok((stream, _)) = listener.accept() else { continue };
            // a client that goes early is its own affair
            let served = |()| serve(Session::new(setup, state, true), &stream, &stream, true);
            let _ = stream.set_nodelay(true).and_then(served);
        }
    };
    thread::scope(|scope| {
        for _ in 0..number("--session-threads", 2) {
            scope.spawn(visit);
        }
    });
    Ok(())
}

fn main() -> io::Result<()> {
    let setup = Setup::read(&fs::read_to_string(option("--setup").expect("a setup"))?);
    let command = args().nth(1).expect("a command");
    if command == "replay" {
        let trail = fs::read(option("--trail").expect("a trail"))?;
        let said = replay::verdict(&setup, &trail);
        println!("{said}");
        std::process::exit(said.starts_with('r').into());
    }
    let limit = number("--limit", 10_000) as u32;
    let trail = option("--trail").map(|name| Trail::new(&name, limit)).transpose()?;
    let traces = trail.is_some();
    let state = Mutex::new(State::new(&setup, limit, trail));
    match command.as_str() {
        "alone" => alone(&setup, &state, traces)?,
        "serve" => serve_all(&setup, &state)?,
        _ => panic!("alone, serve or replay"),
    }
    match state.into_inner().expect("a state").trail {
        Some(trail) => trail.close(),
        None => Ok(()),
    }
}
