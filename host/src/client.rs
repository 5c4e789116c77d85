//! A client of a box: signed requests over TCP, and replies that are believed only where they are signed right.

use crate::failure::{Failure, Result};
use crate::library;
use crate::random;
use crate::wire::{self, Fields, Frame, Message};
use std::io::{ErrorKind, Read, Write};
use std::net::{TcpStream, ToSocketAddrs};
use std::time::{Duration, Instant};

pub const NOOP: i64 = 30;

const HMACAUTH: i64 = 1;
const UNSOLICITEDSTATUS: i64 = 3;

const SUCCESS: i64 = 1;
const HMAC_FAILURE: i64 = 2;
const CONNECTION_TERMINATED: i64 = 20;

/// Who asks, and of which cluster version the box is meant to be.
pub struct Account {
    pub identity: i64,
    pub key: Vec<u8>,
    pub cluster_version: i64,
}

/// What a believed reply says. A closing one is not signed: it is the last of its connection, and never a success.
pub struct Reply {
    pub connection: i64,
    pub closing: bool,
    pub status: i64,
    pub body: Vec<u8>,
    pub value: Vec<u8>,
}

impl Account {
    /// The bytes of a request; one without a body has none at all.
    pub fn request(&self, connection: i64, sequence: i64, message_type: i64, body: &[u8], value: &[u8]) -> Result<Vec<u8>> {
        let header = Message::default().number(1, self.cluster_version).number(3, connection).number(4, sequence).number(7, message_type);
        let command = Message::default().message(1, header).bytes(2, (!body.is_empty()).then_some(body)).done();
        let auth = Message::default().number(1, self.identity).bytes(2, self.hmac(&command)?.as_slice());
        let message = Message::default().number(4, HMACAUTH).message(5, auth).bytes(7, command.as_slice()).done();
        wire::frame(&message, value).map_err(Failure::data)
    }

    /// What the reply to a request says; the connection is none where the client has yet to learn it.
    pub fn reply(&self, frame: Frame, connection: Option<i64>, sequence: i64) -> Result<Reply> {
        let (reply, acknowledged) = self.signed(frame)?;
        if connection.is_some_and(|number| number != reply.connection) {
            return Err(Failure::data("the reply is of another connection"));
        }
        if !reply.closing && acknowledged != Some(sequence) {
            return Err(Failure::data("the reply is to another request"));
        }
        Ok(reply)
    }

    /// A reply that is signed right, or closing, and its ackSequence.
    fn signed(&self, frame: Frame) -> Result<(Reply, Option<i64>)> {
        let (auth_type, auth, command) = parts(&frame.message).map_err(unreadable)?;
        let closing = auth_type == UNSOLICITEDSTATUS;
        let signed = auth_type == HMACAUTH && self.signs(auth, command)?;
        if !closing && !signed {
            return Err(Failure::data("the reply is not signed under this identity and key"));
        }
        let (mut reply, acknowledged) = read_command(command).map_err(unreadable)?;
        if closing && ![HMAC_FAILURE, CONNECTION_TERMINATED].contains(&reply.status) {
            return Err(Failure::data(format!("a reply that is not signed says status {}", reply.status)));
        }
        (reply.closing, reply.value) = (closing, frame.value);
        Ok((reply, acknowledged))
    }

    fn signs(&self, auth: &[u8], command: &[u8]) -> Result<bool> {
        let auth = Fields::read(auth).map_err(unreadable)?;
        let identity = auth.number(1).map_err(unreadable)?;
        let digest = auth.bytes(2).map_err(unreadable)?.unwrap_or_default();
        Ok(identity == Some(self.identity) && equal(digest, &self.hmac(command)?))
    }

    fn hmac(&self, command: &[u8]) -> Result<[u8; 20]> {
        library::hmac(&self.key, command).ok_or_else(|| Failure::data("the key or the request is too long to sign"))
    }

    /// A status other than SUCCESS, for a technician.
    pub fn refusal(&self, status: i64) -> Failure {
        let identity = self.identity;
        let (name, words) = match status {
            HMAC_FAILURE => ("HMAC_FAILURE", format!("the box does not know identity {identity}, or its key is another")),
            3 => ("NOT_AUTHORIZED", format!("identity {identity} may not do this here")),
            4 => ("VERSION_FAILURE", format!("the cluster version of the box is not {} (--cluster-version)", self.cluster_version)),
            6 => ("HEADER_REQUIRED", "the box found no connection number or sequence in the request".into()),
            7 => ("NOT_FOUND", "nothing stands there under that key, or of that kind".into()),
            8 => ("VERSION_MISMATCH", "the stored version is another (--db-version, or --force)".into()),
            14 => ("NO_SPACE", "every block is used".into()),
            15 => ("NO_SUCH_HMAC_ALGORITHM", "the box signs with HMAC-SHA1 alone".into()),
            16 => ("INVALID_REQUEST", "something in the request is missing, too long, too many or not offered by the box".into()),
            CONNECTION_TERMINATED => ("CONNECTION_TERMINATED", "the box could not read the request, and closed the connection".into()),
            _ => return Failure::data(format!("the box answered with status {status}, which is none of its own")),
        };
        Failure { code: status as u8, message: format!("{name} ({status}): {words}") }
    }
}

/// authType, HMACauth and commandBytes of a message.
fn parts(message: &[u8]) -> std::result::Result<(i64, &[u8], &[u8]), String> {
    let fields = Fields::read(message)?;
    let auth_type = fields.number(4)?.ok_or("authType is missing")?;
    Ok((auth_type, fields.bytes(5)?.unwrap_or_default(), fields.bytes(7)?.ok_or("commandBytes are missing")?))
}

/// The reply in a command, and its ackSequence.
fn read_command(command: &[u8]) -> std::result::Result<(Reply, Option<i64>), String> {
    let fields = Fields::read(command)?;
    let header = fields.message(1)?;
    let connection = header.number(3)?.ok_or("connectionID is missing")?;
    let status = fields.message(3)?.number(1)?.ok_or("the status code is missing")?;
    let body = fields.bytes(2)?.unwrap_or_default().to_vec();
    Ok((Reply { connection, closing: false, status, body, value: Vec::new() }, header.number(6)?))
}

/// A failure for a reply that does not decode.
pub fn unreadable(why: String) -> Failure {
    Failure::data(format!("the reply can't be read: {why}"))
}

/// Whether two digests are equal, in a time that does not depend on where they differ.
fn equal(one: &[u8], other: &[u8; 20]) -> bool {
    one.len() == other.len() && one.iter().zip(other).fold(0, |differ, (a, b)| differ | (a ^ b)) == 0
}

pub struct Client {
    stream: TcpStream,
    received: Vec<u8>,
    timeout: Duration,
    pub account: Account,
    pub connection: i64,
    sequence: i64,
}

impl Client {
    /// Connects, and learns the connection's number from the reply to a first NOOP. The box refuses that NOOP, since its number is wrong.
    /// Sequences start anywhere, so that replies of an earlier connection that somebody plays back are to other requests.
    pub fn connect(server: &str, account: Account, timeout: Duration) -> Result<Client> {
        let stream = reached(server, timeout)?;
        let sequence = random::number().map_err(Failure::system)? as i64 >> 2;
        let mut client = Client { stream, received: Vec::new(), timeout, account, connection: 0, sequence };
        client.send(&client.account.request(0, sequence, NOOP, &[], &[])?)?;
        let frame = client.receive()?;
        let reply = client.account.reply(frame, None, sequence)?;
        if reply.closing {
            return Err(client.account.refusal(reply.status));
        }
        client.connection = reply.connection;
        Ok(client)
    }

    /// The reply to a request, if the box did what was asked.
    pub fn ask(&mut self, message_type: i64, body: &[u8], value: &[u8]) -> Result<Reply> {
        self.sequence += 1;
        self.send(&self.account.request(self.connection, self.sequence, message_type, body, value)?)?;
        let frame = self.receive()?;
        let reply = self.account.reply(frame, Some(self.connection), self.sequence)?;
        if reply.status == SUCCESS { Ok(reply) } else { Err(self.account.refusal(reply.status)) }
    }

    pub fn send(&self, bytes: &[u8]) -> Result<()> {
        (&self.stream).write_all(bytes).map_err(lost)
    }

    /// The next whole frame, waited for as long as the timeout in all.
    pub fn receive(&mut self) -> Result<Frame> {
        let deadline = Instant::now() + self.timeout;
        let mut bytes = [0; library::REPLY];
        loop {
            if let Some((frame, length)) = wire::read_frame(&self.received).map_err(unreadable)? {
                self.received.drain(..length);
                return Ok(frame);
            }
            let left = deadline.saturating_duration_since(Instant::now());
            if left.is_zero() {
                return Err(lost(ErrorKind::TimedOut.into()));
            }
            self.stream.set_read_timeout(Some(left)).map_err(lost)?;
            match self.stream.read(&mut bytes) {
                Ok(0) => return Err(Failure::unreachable("the box closed the connection before its reply")),
                Ok(count) => self.received.extend_from_slice(&bytes[..count]),
                Err(why) if why.kind() == ErrorKind::Interrupted => {}
                Err(why) => return Err(lost(why)),
            }
        }
    }
}

fn lost(why: std::io::Error) -> Failure {
    match why.kind() {
        ErrorKind::WouldBlock | ErrorKind::TimedOut => Failure::unreachable("no reply from the box in time (--timeout)"),
        _ => Failure::unreachable(format!("the connection was lost: {why}")),
    }
}

/// A connection to the first of the server's addresses that takes one.
fn reached(server: &str, timeout: Duration) -> Result<TcpStream> {
    let no_box = |why: std::io::Error| match why.kind() {
        ErrorKind::InvalidInput => Failure::usage(format!("--server {server}: {why}")),
        _ => Failure::unreachable(format!("no box at {server}: {why}")),
    };
    let mut failed = Failure::unreachable(format!("no box at {server}: the name has no address"));
    for address in server.to_socket_addrs().map_err(no_box)? {
        match TcpStream::connect_timeout(&address, timeout) {
            Ok(stream) => {
                stream.set_nodelay(true).and_then(|()| stream.set_write_timeout(Some(timeout))).map_err(lost)?;
                return Ok(stream);
            }
            Err(why) => failed = no_box(why),
        }
    }
    Err(failed)
}

#[cfg(test)]
mod tests {
    use super::*;

    /// Document 01, W1: SUCCESS for identity 1 on connection 1, sequence 2; and its HMAC-SHA1 under the key "asdfasdf", from Python's hmac.
    const COMMAND: [u8; 12] = [0x0a, 0x06, 0x18, 0x01, 0x30, 0x02, 0x38, 0x1d, 0x1a, 0x02, 0x08, 0x01];
    const DIGEST: [u8; 20] =
        [0x01, 0x53, 0xfd, 0x74, 0x8c, 0xb6, 0xb8, 0xba, 0x73, 0x06, 0xe2, 0xe4, 0x9a, 0x25, 0xce, 0x17, 0x87, 0x43, 0x92, 0x52];

    fn signed() -> Vec<u8> {
        [b"\x20\x01\x2a\x18\x08\x01\x12\x14".as_slice(), &DIGEST, b"\x3a\x0c", &COMMAND].concat()
    }

    fn believed(message: &[u8], connection: i64, sequence: i64) -> Option<Reply> {
        let account = Account { identity: 1, key: b"asdfasdf".to_vec(), cluster_version: 0 };
        account.reply(Frame { message: message.to_vec(), value: b"value".to_vec() }, Some(connection), sequence).ok()
    }

    #[test]
    fn a_signed_reply_is_believed_to_its_own_request_alone() {
        let message = signed();
        let reply = believed(&message, 1, 2).unwrap();
        assert_eq!((reply.connection, reply.closing, reply.status, reply.value.as_slice()), (1, false, 1, b"value".as_slice()));
        assert!(believed(&message, 2, 2).is_none() && believed(&message, 1, 1).is_none());
    }

    #[test]
    fn no_change_of_a_byte_of_a_signed_reply_is_believed() {
        let message = signed();
        for change in 0..message.len() * 255 {
            let mut changed = message.clone();
            changed[change / 255] ^= (change % 255 + 1) as u8;
            assert!(believed(&changed, 1, 2).is_none(), "{changed:x?}");
        }
    }

    /// Document 01, W2, and the same with each other status.
    #[test]
    fn a_closing_reply_is_never_a_success() {
        for status in 0..128 {
            let reply = believed(&[0x20, 0x03, 0x3a, 0x08, 0x0a, 0x02, 0x18, 0x01, 0x1a, 0x02, 0x08, status], 1, 2);
            assert_eq!(reply.map(|reply| (reply.closing, reply.status)), [2, 20].contains(&status).then_some((true, status.into())));
        }
    }
}
