//! `ridgeladle serve`: the box over TCP, a thread for each connection.

use crate::arguments::Arguments;
use crate::failure::{Failure, Result};
use crate::image::Image;
use crate::keeper::Keeper;
use crate::library::{self, CONNECTION, MORE, MOST_FRAME};
use crate::log::{Kind, Level, Log};
use crate::peers::{Peers, Seat, Stage};
use crate::place::Place;
use crate::random;
use crate::readings_file::ReadingsFile;
use crate::system::{self, EndSignals};
use crate::text::print;
use std::ffi::OsString;
use std::io::{self, ErrorKind, Read, Write};
use std::net::{Shutdown, SocketAddr, TcpListener, TcpStream};
use std::sync::Arc;
use std::thread;
use std::time::{Duration, Instant};

pub const LISTEN: &str = "127.0.0.1:8123";
const CONNECTIONS: i64 = 64;
const IDLE: i64 = 120;
const FIRST_REQUEST: i64 = 5;
/// Peers that wait to be accepted.
const QUEUE: i32 = 4096;
const OPTIONS: [&str; 8] = ["image", "listen", "protected-listen", "readings", "connections", "idle", "first-request", "log-level"];
/// How long a closing reply may take to reach a peer that is still sending, and the last replies of a server that ends.
const FAREWELL: Duration = Duration::from_secs(2);
/// Of a connection's thread: the library takes under 10 KB, the input and a reply under 30.
const STACK: usize = 256 << 10;

struct Server {
    keeper: Keeper,
    log: Arc<Log>,
    peers: Arc<Peers>,
    idle: Duration,
    first_request: Duration,
}

pub fn run(words: &[OsString]) -> Result<()> {
    let arguments = Arguments::read(words, &OPTIONS, &[])?;
    let [] = arguments.plain_bytes([])?;
    let path = arguments.path("image")?;
    let most = arguments.number("connections", 1, 4096, CONNECTIONS)? as usize;
    let seconds = |name, missing| arguments.number(name, 1, 86400, missing).map(|seconds| Duration::from_secs(seconds as u64));
    let (idle, first_request) = (seconds("idle", IDLE)?, seconds("first-request", FIRST_REQUEST)?);
    let level = Level::of(arguments.words("log-level")?)?;
    let signals = EndSignals::hold_back().map_err(Failure::system)?;
    let place = Place::take(&path)?;
    let image = Image::open(&path)?;
    let used = format!("{} of {} blocks used", image.used(), image.blocks());
    let plain = listener(arguments.words("listen")?.unwrap_or(LISTEN))?;
    let protected = arguments.words("protected-listen")?.map(listener).transpose()?;
    let log = Log::start(level)?;
    let keeper = Keeper::new(place, image, log.clone());
    let server = Arc::new(Server { keeper, log, peers: Peers::new(most), idle, first_request });
    if let Some(path) = arguments.option("readings") {
        let (server, mut file) = (server.clone(), ReadingsFile::new(path.into()));
        file.look(&server.keeper, &server.log);
        start(move || file.follow(&server.keeper, &server.log))?;
    }
    print(format!("serving {} on {}, {used}\n", path.display(), local(&plain)?))?;
    server.clone().listen(plain, false)?;
    if let Some(listener) = protected {
        print(format!("serving protected on {}\n", local(&listener)?))?;
        server.clone().listen(listener, true)?;
    }
    server.log.say(Level::Info, "the end", format!("ends by {}", signals.wait()));
    server.end();
    Ok(())
}

fn listener(address: &str) -> Result<TcpListener> {
    let bound = TcpListener::bind(address).and_then(|listener| system::queue(&listener, QUEUE).map(|()| listener));
    bound.map_err(|why| Failure::system(format!("can't listen on {address}: {why}")))
}

fn local(listener: &TcpListener) -> Result<SocketAddr> {
    listener.local_addr().map_err(Failure::system)
}

fn start(work: impl FnOnce() + Send + 'static) -> Result<()> {
    thread::Builder::new().stack_size(STACK).spawn(work).map(|_| ()).map_err(|why| Failure::system(format!("can't start a thread: {why}")))
}

const REFUSED: Kind = "closed by the box";
const MADE_ROOM: Kind = "closed to make room";

/// How a connection ended.
enum End {
    Left,
    /// The box closed it.
    Closed,
    Said(Level, Kind, String),
}

impl Server {
    fn listen(self: Arc<Server>, listener: TcpListener, protected: bool) -> Result<()> {
        start(move || self.accept(&listener, protected))
    }

    /// What was answered goes to disk, and its replies to those who take them.
    fn end(&self) {
        self.peers.end();
        self.keeper.end();
        self.peers.wait(FAREWELL);
        self.log.end();
    }

    fn accept(self: &Arc<Server>, listener: &TcpListener, protected: bool) -> ! {
        loop {
            match listener.accept() {
                Ok((stream, peer)) => self.admit(stream, peer, protected),
                Err(why) => {
                    self.log.say(Level::Error, "can't accept a connection", format!("can't accept a connection: {why}"));
                    thread::sleep(Duration::from_millis(100));
                }
            }
        }
    }

    fn admit(self: &Arc<Server>, stream: TcpStream, peer: SocketAddr, protected: bool) {
        let Some(seat) = self.peers.admit(stream) else {
            let words = format!("{peer}: closed, there is no place for it");
            return self.log.say(Level::Warning, "no place for a connection", words);
        };
        let server = self.clone();
        let work = move || server.account(peer, server.converse(&seat, protected), seat.given_up());
        if let Err(failure) = start(work) {
            self.log.say(Level::Error, "can't start a thread", format!("{peer}: closed, {}", failure.message));
        }
    }

    /// Says how a connection ended, if it did not just leave.
    fn account(&self, peer: SocketAddr, ended: io::Result<End>, given_up: bool) {
        let (level, kind, words): (Level, Kind, String) = match ended {
            Ok(End::Closed) => (Level::Warning, REFUSED, format!("{REFUSED}: no frame, or no message that is signed right")),
            _ if given_up => (Level::Info, MADE_ROOM, format!("{MADE_ROOM} for another: no request so far that is signed right")),
            Ok(End::Left) => return,
            Ok(End::Said(level, kind, words)) => (level, kind, words),
            Err(why) => (Level::Info, "a connection failed", why.to_string()),
        };
        self.log.say(level, kind, format!("{peer}: {words}"));
    }

    fn converse(&self, seat: &Seat, protected: bool) -> io::Result<End> {
        let (stream, begun) = (&seat.stream, Instant::now());
        stream.set_nodelay(true)?;
        let mut connection = library::connect(random::number()? as i64, protected);
        let (mut input, mut filled, mut replies) = ([0; 2 * MOST_FRAME], 0, Vec::new());
        let mut deadline = self.deadline(&connection, begun);
        loop {
            match read_until(stream, &mut input[filled..], deadline)? {
                None => return Ok(self.late(&connection, "no whole request")),
                Some(0) if filled == 0 => return Ok(End::Left),
                Some(0) => return Ok(End::Said(Level::Info, "left amid a request", format!("left after {filled} bytes of a request"))),
                Some(more) => filled += more,
            }
            replies.clear();
            let taken = match self.turn(seat, &mut connection, &input[..filled], &mut replies) {
                Ok(taken) => taken,
                Err(end) => return Ok(end),
            };
            if !write_until(stream, &replies, self.deadline(&connection, begun))? {
                return Ok(self.late(&connection, "it took no reply"));
            }
            self.keeper.tidy();
            if library::closed(&connection) {
                return farewell(stream).map(|()| End::Closed);
            }
            if taken > 0 {
                input.copy_within(taken..filled, 0);
                filled -= taken;
                deadline = self.deadline(&connection, begun);
            }
        }
    }

    /// Until when a peer that began then has time, from now on.
    fn deadline(&self, connection: &[u8; CONNECTION], begun: Instant) -> Instant {
        let idle = Instant::now() + self.idle;
        if library::accepted(connection) { idle } else { idle.min(begun + self.first_request) }
    }

    fn late(&self, connection: &[u8; CONNECTION], why: &str) -> End {
        let words = if library::accepted(connection) {
            format!("closed, {why} in {} s", self.idle.as_secs())
        } else {
            format!("closed, no request that is signed right in {} s", self.idle.min(self.first_request).as_secs())
        };
        End::Said(Level::Info, "closed, its time was over", words)
    }

    /// Answers what has come whole; the replies may be sent when this returns, and so many bytes of the input are taken.
    fn turn(&self, seat: &Seat, connection: &mut [u8; CONNECTION], input: &[u8], replies: &mut Vec<u8>) -> std::result::Result<usize, End> {
        let accepted = library::accepted(connection);
        let answers = self.keeper.answer(connection, input, replies).ok_or(End::Left)?;
        if library::closed(connection) {
            seat.now(Stage::Refused);
        } else if library::accepted(connection) && !accepted {
            seat.now(Stage::Signed);
        }
        if answers.refusal != MORE && !library::closed(connection) {
            let words = format!("closed, the box refuses to answer ({})", answers.refusal);
            return Err(End::Said(Level::Error, "the box refuses to answer", words));
        }
        if !self.keeper.settle(&answers) {
            return Err(End::Said(Level::Warning, "closed with no reply", "closed with no reply, the disk refused".into()));
        }
        Ok(answers.taken)
    }
}

/// None where nothing came by the deadline, 0 where the peer will send no more. A read with a time limit is interrupted where the server is stopped and goes on.
fn read_until(mut stream: &TcpStream, into: &mut [u8], deadline: Instant) -> io::Result<Option<usize>> {
    while let Some(left) = remaining(deadline) {
        stream.set_read_timeout(Some(left))?;
        match stream.read(into) {
            Err(why) if why.kind() == ErrorKind::Interrupted => (),
            Err(why) if timed_out(&why) => return Ok(None),
            Err(why) if why.kind() == ErrorKind::ConnectionReset => return Ok(Some(0)),
            read => return read.map(Some),
        }
    }
    Ok(None)
}

/// False where the peer did not take all of it by the deadline.
fn write_until(mut stream: &TcpStream, mut bytes: &[u8], deadline: Instant) -> io::Result<bool> {
    while !bytes.is_empty() {
        let Some(left) = remaining(deadline) else { return Ok(false) };
        stream.set_write_timeout(Some(left))?;
        match stream.write(bytes) {
            Err(why) if timed_out(&why) => return Ok(false),
            Err(why) if why.kind() == ErrorKind::Interrupted => (),
            written => bytes = &bytes[written?..],
        }
    }
    Ok(true)
}

fn remaining(deadline: Instant) -> Option<Duration> {
    deadline.checked_duration_since(Instant::now()).filter(|left| !left.is_zero())
}

fn timed_out(why: &io::Error) -> bool {
    matches!(why.kind(), ErrorKind::WouldBlock | ErrorKind::TimedOut)
}

/// Reads on until the peer has closed too: to close with bytes unread would take the last reply back from it.
fn farewell(stream: &TcpStream) -> io::Result<()> {
    let (mut bin, deadline) = ([0; 4096], Instant::now() + FAREWELL);
    stream.shutdown(Shutdown::Write)?;
    while read_until(stream, &mut bin, deadline)?.is_some_and(|read| read > 0) {}
    Ok(())
}
