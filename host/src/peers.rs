//! Who is connected, so many at most, and who makes room for whom: those that were refused, then those that have signed nothing yet, for one that comes.

use std::net::{Shutdown, TcpStream};
use std::sync::{Arc, Condvar, Mutex, MutexGuard, PoisonError};
use std::time::Duration;

pub struct Peers {
    most: usize,
    open: Mutex<Open>,
    left: Condvar,
}

#[derive(Default)]
struct Open {
    /// In the order in which they came.
    peers: Vec<Peer>,
    /// How many came so far.
    came: u64,
    ended: bool,
}

struct Peer {
    number: u64,
    stage: Stage,
    stream: Arc<TcpStream>,
}

#[derive(Clone, Copy, PartialEq)]
pub enum Stage {
    /// No request on this connection was signed right so far.
    Unsigned,
    Signed,
    /// The box has closed it, and it may still take the closing reply.
    Refused,
}

/// A peer's place, until it is dropped.
pub struct Seat {
    peers: Arc<Peers>,
    number: u64,
    pub stream: Arc<TcpStream>,
}

impl Peers {
    pub fn new(most: usize) -> Arc<Peers> {
        Arc::new(Peers { most, open: Mutex::default(), left: Condvar::new() })
    }

    fn lock(&self) -> MutexGuard<'_, Open> {
        self.open.lock().unwrap_or_else(PoisonError::into_inner)
    }

    /// None where all places are taken by peers that have signed, or the server ends.
    pub fn admit(self: &Arc<Peers>, stream: TcpStream) -> Option<Seat> {
        let mut open = self.lock();
        if open.ended || open.peers.len() >= self.most && !open.make_room() {
            return None;
        }
        open.came += 1;
        let (number, stream) = (open.came, Arc::new(stream));
        open.peers.push(Peer { number, stage: Stage::Unsigned, stream: stream.clone() });
        Some(Seat { peers: self.clone(), number, stream })
    }

    /// Admits nobody from here on, and has those who are here finish with what they have sent.
    pub fn end(&self) {
        let mut open = self.lock();
        open.ended = true;
        for peer in &open.peers {
            // A peer that is gone already is what is wanted.
            let _ = peer.stream.shutdown(Shutdown::Read);
        }
    }

    /// Waits until all have left, but not longer than a time.
    pub fn wait(&self, most: Duration) {
        let all_left = self.left.wait_timeout_while(self.lock(), most, |open| !open.peers.is_empty());
        drop(all_left.unwrap_or_else(PoisonError::into_inner));
    }
}

impl Open {
    /// Closes the longest-waiting of those who must make room; false where there is none.
    fn make_room(&mut self) -> bool {
        let first = |stage| self.peers.iter().position(|peer| peer.stage == stage);
        let Some(place) = first(Stage::Refused).or_else(|| first(Stage::Unsigned)) else { return false };
        let _ = self.peers.remove(place).stream.shutdown(Shutdown::Both);
        true
    }
}

impl Seat {
    pub fn now(&self, stage: Stage) {
        if let Some(peer) = self.peers.lock().peers.iter_mut().find(|peer| peer.number == self.number) {
            peer.stage = stage;
        }
    }

    /// Whether it had to make room for another.
    pub fn given_up(&self) -> bool {
        self.peers.lock().peers.iter().all(|peer| peer.number != self.number)
    }
}

impl Drop for Seat {
    fn drop(&mut self) {
        self.peers.lock().peers.retain(|peer| peer.number != self.number);
        self.peers.left.notify_all();
    }
}
