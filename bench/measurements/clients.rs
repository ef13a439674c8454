//! Clients of a server, and a plain echo server that is sent the same bytes.
//!
//!     clients echo CONNECTIONS
//!     clients serve PORT CLIENTS ROUNDS LINES
//!     clients same PORT CLIENTS ROUNDS LINES
//!     clients load PORT CLIENTS ROUNDS LINES LINE
//!
//! - `echo` listens at a free port, tells it, and sends back what comes.
//! - `serve` sends so many lines and `wait` in each round, and reads their replies. It tells behind the seconds how
//!   many milliseconds half of the rounds and 99 of 100 took at most.
//! - `same` sends the same bytes in each round, and reads as many.
//! - `load` does as `serve`, with this line, in which {} is the number of the client. It tells behind the seconds a
//!   number that is the same where all clients heard the same.
//!
//! Clients wait for each other once they are connected, and then the seconds until the last has ended its rounds are
//! told. Of those that serve, each has a thread of its own where they are 16 at most; else 16 threads have as many
//! each, and wait for all of them at once.
use std::env::args;
use std::hash::{DefaultHasher, Hasher};
use std::io::{BufRead, BufReader, Read, Result, Write};
use std::net::{TcpListener, TcpStream};
use std::os::fd::AsRawFd;
use std::sync::{Arc, Barrier};
use std::thread;
use std::time::Instant;

/// How many threads the clients have at most.
const THREADS: usize = 16;

const LINE: &str = "when read note do show note; end\n";

fn number(at: usize) -> usize {
    args().nth(at).expect("a number").parse().expect("a number")
}

fn echo_one(stream: TcpStream) -> Result<()> {
    stream.set_nodelay(true)?;
    let mut from = stream.try_clone()?;
    let mut to = stream;
    let mut block = vec![0; 65_536];
    loop {
        let count = from.read(&mut block)?;
        if count == 0 {
            return Ok(());
        }
        to.write_all(&block[..count])?;
    }
}

fn echo(connections: usize) -> Result<()> {
    let listener = TcpListener::bind("127.0.0.1:0")?;
    println!("{}", listener.local_addr()?.port());
    let mut threads = Vec::new();
    for _ in 0..connections {
        let (stream, _) = listener.accept()?;
        threads.push(thread::spawn(move || echo_one(stream)));
    }
    for one in threads {
        one.join().expect("an echo")?;
    }
    Ok(())
}

/// Reads up to the line `ok`.
fn hear(reader: &mut impl BufRead, line: &mut String) -> Result<()> {
    loop {
        line.clear();
        assert!(reader.read_line(line)? > 0, "the server ended the session");
        if line == "ok\n" {
            return Ok(());
        }
        assert!(line.ends_with("done \"n1\"\n"), "an unexpected reply: {}", line.trim_end());
    }
}

/// The seconds that each round took.
fn visit(port: usize, rounds: usize, lines: usize, serves: bool, all: &Barrier) -> Result<Vec<f64>> {
    let mut stream = TcpStream::connect(("127.0.0.1", port as u16))?;
    stream.set_nodelay(true)?;
    let mut reader = BufReader::new(stream.try_clone()?);
    let mut line = String::new();
    if serves {
        stream.write_all(b"hello ann\n")?;
        hear(&mut reader, &mut line)?;
    }
    let block = LINE.repeat(lines) + "wait\n";
    let mut back = vec![0; block.len()];
    let mut took = Vec::with_capacity(rounds);
    all.wait();
    for _ in 0..rounds {
        let begun = Instant::now();
        stream.write_all(block.as_bytes())?;
        if serves {
            hear(&mut reader, &mut line)?;
        } else {
            reader.read_exact(&mut back)?;
        }
        took.push(begun.elapsed().as_secs_f64());
    }
    all.wait();
    Ok(took)
}

/// The system's calls by which a thread waits for many sockets.
mod ready {
    use std::io::{Error, Result};

    #[repr(C, packed)]
    #[derive(Clone, Copy)]
    struct Event {
        events: u32,
        data: u64,
    }

    extern "C" {
        fn epoll_create1(flags: i32) -> i32;
        fn epoll_ctl(epoll: i32, operation: i32, socket: i32, event: *mut Event) -> i32;
        fn epoll_wait(epoll: i32, events: *mut Event, most: i32, timeout: i32) -> i32;
    }

    const ADD: i32 = 1;
    const READABLE: u32 = 1;
    const MOST: usize = 64;

    /// Sockets that are waited for.
    pub struct Poll(i32);

    impl Poll {
        pub fn new() -> Result<Poll> {
            // no memory is lent
            match unsafe { epoll_create1(0) } {
                -1 => Err(Error::last_os_error()),
                epoll => Ok(Poll(epoll)),
            }
        }

        /// Has a socket waited for, which is told by its number.
        pub fn add(&self, socket: i32, number: usize) -> Result<()> {
            let mut event = Event { events: READABLE, data: number as u64 };
            // the call reads the event alone
            match unsafe { epoll_ctl(self.0, ADD, socket, &mut event) } {
                -1 => Err(Error::last_os_error()),
                _ => Ok(()),
            }
        }

        /// Waits until something can be read, and tells the numbers of those sockets.
        pub fn wait(&self, found: &mut Vec<usize>) -> Result<()> {
            let mut events = [Event { events: 0, data: 0 }; MOST];
            // the call writes as many events at most
            match unsafe { epoll_wait(self.0, events.as_mut_ptr(), MOST as i32, -1) } {
                -1 => Err(Error::last_os_error()),
                count => {
                    found.clear();
                    found.extend(events[..count as usize].iter().map(|event| event.data as usize));
                    Ok(())
                }
            }
        }
    }
}

/// A client that shares its thread: its stream, what it has heard of its round, the rounds that it has still to send,
/// and when it sent the last.
struct Client {
    stream: TcpStream,
    heard: Vec<u8>,
    left: usize,
    begun: Instant,
}

impl Client {
    /// Connected, and greeted.
    fn new(port: usize, rounds: usize) -> Result<Client> {
        let mut stream = TcpStream::connect(("127.0.0.1", port as u16))?;
        stream.set_nodelay(true)?;
        stream.write_all(b"hello ann\n")?;
        hear(&mut BufReader::new(stream.try_clone()?), &mut String::new())?;
        Ok(Client { stream, heard: Vec::new(), left: rounds, begun: Instant::now() })
    }

    /// Sends a round.
    fn send(&mut self, block: &[u8]) -> Result<()> {
        self.begun = Instant::now();
        self.left -= 1;
        self.stream.write_all(block)
    }

    /// Hears what has come, and says whether that is the end of its round: `ok`, after replies as they have to be.
    fn is_answered(&mut self, room: &mut [u8]) -> Result<bool> {
        let count = self.stream.read(room)?;
        assert!(count > 0, "the server ended the session");
        self.heard.extend_from_slice(&room[..count]);
        if self.heard != b"ok\n" && !self.heard.ends_with(b"\nok\n") {
            return Ok(false);
        }
        for line in self.heard.split(|byte| *byte == b'\n').filter(|line| !line.is_empty() && *line != b"ok") {
            assert!(line.ends_with(b"done \"n1\""), "an unexpected reply: {}", String::from_utf8_lossy(line));
        }
        self.heard.clear();
        Ok(true)
    }
}

/// The seconds that each round of so many clients took.
fn visit_as(port: usize, count: usize, rounds: usize, lines: usize, all: &Barrier) -> Result<Vec<f64>> {
    let poll = ready::Poll::new()?;
    let mut clients = (0..count).map(|_| Client::new(port, rounds)).collect::<Result<Vec<_>>>()?;
    for (number, client) in clients.iter().enumerate() {
        poll.add(client.stream.as_raw_fd(), number)?;
    }
    let block = LINE.repeat(lines) + "wait\n";
    let (mut took, mut room, mut found) = (Vec::with_capacity(count * rounds), vec![0; 65_536], Vec::new());
    all.wait();
    for client in &mut clients {
        client.send(block.as_bytes())?;
    }
    while took.len() < count * rounds {
        poll.wait(&mut found)?;
        for number in &found {
            let client = &mut clients[*number];
            if !client.is_answered(&mut room)? {
                continue;
            }
            took.push(client.begun.elapsed().as_secs_f64());
            if client.left > 0 {
                client.send(block.as_bytes())?;
            }
        }
    }
    all.wait();
    Ok(took)
}

/// How many of the clients this thread has, of so many threads.
fn share(clients: usize, threads: usize, at: usize) -> usize {
    clients / threads + usize::from(at < clients % threads)
}

/// Sends the rounds of one client, and hashes all that it is told.
fn load(port: usize, rounds: usize, lines: usize, line: &str, all: &Barrier) -> Result<u64> {
    let mut stream = TcpStream::connect(("127.0.0.1", port as u16))?;
    stream.set_nodelay(true)?;
    let mut reader = BufReader::with_capacity(1 << 16, stream.try_clone()?);
    stream.write_all(b"hello ann\n")?;
    let (mut heard, mut hash) = (String::new(), DefaultHasher::new());
    reader.read_line(&mut heard)?;
    let block = format!("{line}\n").repeat(lines) + "wait\n";
    all.wait();
    for _ in 0..rounds {
        stream.write_all(block.as_bytes())?;
        heard.clear();
        while !heard.ends_with("\nok\n") {
            assert!(reader.read_line(&mut heard)? > 0, "the server ended the session");
        }
        hash.write(heard.as_bytes());
    }
    all.wait();
    Ok(hash.finish())
}

fn load_all() -> Result<()> {
    let (port, clients, rounds, lines) = (number(2), number(3), number(4), number(5));
    let line = args().nth(6).expect("a line");
    let all = Barrier::new(clients + 1);
    let (seconds, told) = thread::scope(|scope| {
        let visit = |at: usize| {
            let (line, all) = (line.replace("{}", &at.to_string()), &all);
            scope.spawn(move || load(port, rounds, lines, &line, all))
        };
        let threads: Vec<_> = (0..clients).map(visit).collect();
        all.wait();
        let begun = Instant::now();
        all.wait();
        let seconds = begun.elapsed().as_secs_f64();
        let told: Result<Vec<u64>> = threads.into_iter().map(|one| one.join().expect("a client")).collect();
        (seconds, told)
    });
    println!("{seconds} {}", told?.iter().fold(0_u64, |sum, one| sum.wrapping_add(*one)));
    Ok(())
}

fn main() -> Result<()> {
    let mode = args().nth(1).expect("a mode");
    if mode == "echo" {
        return echo(number(2));
    }
    if mode == "load" {
        return load_all();
    }
    let (port, clients, rounds, lines) = (number(2), number(3), number(4), number(5));
    let serves = mode == "serve";
    let count = if serves { clients.min(THREADS) } else { clients };
    let all = Arc::new(Barrier::new(count + 1));
    let threads: Vec<_> = (0..count)
        .map(|at| {
            let all = all.clone();
            thread::spawn(move || match share(clients, count, at) {
                1 => visit(port, rounds, lines, serves, &all),
                several => visit_as(port, several, rounds, lines, &all),
            })
        })
        .collect();
    all.wait();
    let begun = Instant::now();
    all.wait();
    let seconds = begun.elapsed().as_secs_f64();
    let mut took = Vec::new();
    for one in threads {
        took.extend(one.join().expect("a client")?);
    }
    took.sort_by(f64::total_cmp);
    println!("{seconds} {:.3} {:.3}", 1e3 * took[took.len() / 2], 1e3 * took[took.len() * 99 / 100]);
    Ok(())
}
