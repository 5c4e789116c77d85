//! A load for bench/tcp.py: `load --operation get|put --server ADDRESS --key-file FILE [--connections N] [--milliseconds N]`.
//!
//! Each connection sends its next request when it has the reply to the last. Prints a line of four numbers: requests a second, the median and the 99th
//! percentile of their times, and the median time of the library's call alone on such requests, in this process; times in microseconds.

use ridgeladle::arguments::Arguments;
use ridgeladle::client::{Account, Client};
use ridgeladle::failure::{Failure, Result};
use ridgeladle::library::{self, BLOCK, CONNECTION, MOST_BLOCKS, READINGS, RECORD, REPLY};
use ridgeladle::wire::{self, Message};
use ridgeladle::{key, say, text};
use std::ffi::OsString;
use std::process::ExitCode;
use std::thread;
use std::time::{Duration, Instant};

const GET: i64 = 2;
const PUT: i64 = 4;

/// Half of the blocks.
const ENTRIES: u64 = MOST_BLOCKS as u64 / 2;
const VALUE: usize = 32;
const MOST_CONNECTIONS: u64 = 64;
const TIMEOUT: Duration = Duration::from_secs(10);
/// Calls of the library alone.
const CALLS: u64 = 4000;

#[derive(Clone, Copy)]
struct Load {
    operation: i64,
    connection: u64,
}

impl Load {
    /// The body and the value of a connection's n-th request. Each PUT has another value, so that each changes the box.
    fn request(self, n: u64) -> (Vec<u8>, Vec<u8>) {
        let key = format!("key:{:012}", (self.connection + 17 * n) % ENTRIES);
        let put = self.operation == PUT;
        let part = Message::default().bytes(3, key.as_bytes()).number(8, put.then_some(1));
        let value = if put { format!("{:08}{n:0width$}", self.connection, width = VALUE - 8).into_bytes() } else { Vec::new() };
        (Message::default().message(1, part).done(), value)
    }

    /// The times of a connection's requests.
    fn run(self, client: &mut Client, end: Instant) -> Result<Vec<Duration>> {
        let mut times = Vec::new();
        for n in 0.. {
            let begun = Instant::now();
            if begun >= end {
                break;
            }
            let (body, value) = self.request(n);
            let reply = client.ask(self.operation, &body, &value)?;
            times.push(begun.elapsed());
            if reply.value.len() != if self.operation == GET { VALUE } else { 0 } {
                return Err(Failure::data("a reply has a value of another length"));
            }
        }
        Ok(times)
    }
}

fn main() -> ExitCode {
    match measured(&std::env::args_os().skip(1).collect::<Vec<_>>()) {
        Ok(()) => ExitCode::SUCCESS,
        Err(Failure { code, message }) => {
            say(format!("load: {message}"));
            ExitCode::from(code)
        }
    }
}

fn measured(words: &[OsString]) -> Result<()> {
    let arguments = Arguments::read(words, &["operation", "server", "key-file", "connections", "milliseconds"], &[])?;
    let operation = match arguments.words("operation")? {
        Some("get") => GET,
        Some("put") => PUT,
        _ => return Err(Failure::usage("--operation get or put is wanted")),
    };
    let server = arguments.words("server")?.ok_or_else(|| Failure::usage("--server ADDRESS is missing"))?;
    let key = key::key_of(&arguments)?;
    let connections = arguments.number("connections", 1, MOST_CONNECTIONS as i64, 1)? as u64;
    let length = Duration::from_millis(arguments.number("milliseconds", 1, 60_000, 1000)? as u64);
    let connect = |_| Client::connect(server, account(&key), TIMEOUT);
    let mut clients = (0..connections).map(connect).collect::<Result<Vec<_>>>()?;
    fill(|body, value| clients[0].ask(PUT, body, value).map(|_| ()))?;
    let begun = Instant::now();
    let mut times = all_times(&mut clients, operation, begun + length)?;
    let elapsed = begun.elapsed();
    times.sort_unstable();
    let alone = alone(&account(&key), operation)?;
    let rate = times.len() as f64 / elapsed.as_secs_f64();
    let [median, high, call] = [quantile(&times, 50), quantile(&times, 99), alone].map(|time| time.as_secs_f64() * 1e6);
    text::print(format!("{rate:.1} {median:.2} {high:.2} {call:.3}\n"))
}

fn account(key: &[u8]) -> Account {
    Account { identity: 1, key: key.to_vec(), cluster_version: 0 }
}

/// Puts every entry, with values that no connection puts.
fn fill(mut put: impl FnMut(&[u8], &[u8]) -> Result<()>) -> Result<()> {
    let load = Load { operation: PUT, connection: MOST_CONNECTIONS };
    (0..ENTRIES).map(|n| load.request(n)).try_for_each(|(body, value)| put(&body, &value))
}

/// The times of all requests, a thread for each connection.
fn all_times(clients: &mut [Client], operation: i64, end: Instant) -> Result<Vec<Duration>> {
    let lost = |_| Failure::system("a thread panicked");
    thread::scope(|scope| {
        let run = |(connection, client)| scope.spawn(move || Load { operation, connection }.run(client, end));
        let threads: Vec<_> = (0..).zip(clients).map(run).collect();
        let times = threads.into_iter().map(|thread| thread.join().map_err(lost)?).collect::<Result<Vec<_>>>()?;
        Ok(times.concat())
    })
}

/// The percentile of times in order, the lowest that so many in a hundred don't exceed.
fn quantile(times: &[Duration], percent: usize) -> Duration {
    let place = (times.len() * percent).div_ceil(100).saturating_sub(1);
    times.get(place).copied().unwrap_or_default()
}

/// The library's call without a server around it.
struct Alone<'a> {
    account: &'a Account,
    store: Vec<u8>,
    record: [u8; RECORD],
    connection: [u8; CONNECTION],
    sequence: i64,
    out: [u8; REPLY],
}

impl Alone<'_> {
    const NUMBER: i64 = 1;

    fn formatted(account: &Account) -> Result<Alone<'_>> {
        let (mut store, mut record) = (vec![0; MOST_BLOCKS * BLOCK], [0; RECORD]);
        library::format(&mut store, &mut record, &account.key).map_err(refused)?;
        Ok(Alone { account, store, record, connection: library::connect(Alone::NUMBER, false), sequence: 0, out: [0; REPLY] })
    }

    fn signed(&mut self, operation: i64, body: &[u8], value: &[u8]) -> Result<Vec<u8>> {
        self.sequence += 1;
        self.account.request(Alone::NUMBER, self.sequence, operation, body, value)
    }

    /// How many bytes the reply has.
    fn answer(&mut self, request: &[u8]) -> Result<usize> {
        let answer = library::answer(&mut self.store, &mut self.record, &mut self.connection, &[0; READINGS], request, &mut self.out);
        answer.map(|(_, written)| written).map_err(refused)
    }

    /// Fails unless the last reply, of so many bytes, says SUCCESS.
    fn succeeded(&self, written: usize) -> Result<()> {
        let frame = wire::read_frame(&self.out[..written]).map_err(Failure::data)?;
        let (frame, _) = frame.ok_or_else(|| Failure::data("the library's reply is cut"))?;
        match self.account.reply(frame, Some(Alone::NUMBER), self.sequence)?.status {
            1 => Ok(()),
            status => Err(self.account.refusal(status)),
        }
    }
}

fn refused(number: u32) -> Failure {
    Failure::data(format!("the library refuses with {number}"))
}

/// The median time of a call of the library, on a box of as many entries.
fn alone(account: &Account, operation: i64) -> Result<Duration> {
    let mut alone = Alone::formatted(account)?;
    fill(|body, value| {
        let request = alone.signed(PUT, body, value)?;
        let written = alone.answer(&request)?;
        alone.succeeded(written)
    })?;
    let load = Load { operation, connection: 0 };
    let requests = (0..CALLS).map(|n| load.request(n)).map(|(body, value)| alone.signed(operation, &body, &value));
    let requests = requests.collect::<Result<Vec<_>>>()?;
    let (mut times, mut written) = (Vec::new(), 0);
    for request in &requests {
        let begun = Instant::now();
        written = alone.answer(request)?;
        times.push(begun.elapsed());
    }
    alone.succeeded(written)?;
    times.sort_unstable();
    Ok(quantile(&times, 50))
}
