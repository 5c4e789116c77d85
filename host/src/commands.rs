//! The client commands: a request from the words of each, and what its reply prints.

use crate::arguments::Arguments;
use crate::client::{self, Account, Client, Reply, unreadable};
use crate::failure::{Failure, Result};
use crate::key::key_of;
use crate::library::MOST_STORED;
use crate::rows::{self, Cell};
use crate::server::LISTEN;
use crate::text::{ALGORITHMS, algorithm, print, shown};
use crate::wire::{Fields, Message};
use crate::{input, table_file, tag};
use std::ffi::OsString;
use std::path::Path;
use std::time::Duration;

pub const OPTIONS: [&str; 5] = ["server", "identity", "key-file", "cluster-version", "timeout"];
const LOG_TYPES: [&str; 8] = ["utilizations", "temperatures", "capacities", "configuration", "statistics", "messages", "limits", "device"];

/// Document 003's limits that a box shows.
const LIMITS: [(u64, &str); 7] = [
    (1, "maxKeySize"),
    (2, "maxValueSize"),
    (3, "maxVersionSize"),
    (4, "maxTagSize"),
    (8, "maxMessageSize"),
    (9, "maxKeyRangeCount"),
    (10, "maxIdentityCount"),
];

/// More of a value's file is not read, so that a message can say how long one is that is over its limit.
const MOST_VALUE_FILE: usize = 1 << 20;

/// Body and value part of a request.
type Parts = (Vec<u8>, Vec<u8>);

struct Command {
    name: &'static str,
    message_type: i64,
    options: &'static [&'static str],
    flags: &'static [&'static str],
    parts: fn(&Arguments) -> Result<Parts>,
    printed: fn(&Arguments, &Reply) -> Printed,
}

const PUT_OPTIONS: &[&str] = &["value-file", "new-version", "db-version", "tag", "algorithm"];
const GET_FLAGS: &[&str] = &["metadata-only", "raw", "unchecked"];
const RANGE_FLAGS: &[&str] = &["start-inclusive", "end-inclusive", "reverse", rows::FLAGS[0], rows::FLAGS[1]];

const COMMANDS: [Command; 12] = [
    Command { name: "noop", message_type: client::NOOP, options: &[], flags: &[], parts: nothing, printed: success },
    Command { name: "put", message_type: 4, options: PUT_OPTIONS, flags: &["force", "no-tag"], parts: put, printed: success },
    Command { name: "get", message_type: 2, options: &[], flags: GET_FLAGS, parts: get, printed: entry },
    Command { name: "version", message_type: 16, options: &[], flags: &[], parts: get, printed: version },
    Command { name: "next", message_type: 8, options: &[], flags: GET_FLAGS, parts: get, printed: entry },
    Command { name: "previous", message_type: 10, options: &[], flags: GET_FLAGS, parts: get, printed: entry },
    Command { name: "range", message_type: 12, options: &["max-returned"], flags: RANGE_FLAGS, parts: range, printed: keys },
    Command { name: "delete", message_type: 6, options: &["db-version"], flags: &["force"], parts: delete, printed: success },
    Command { name: "flush", message_type: 32, options: &[], flags: &[], parts: nothing, printed: success },
    Command { name: "setup", message_type: 22, options: &["new-cluster-version"], flags: &[], parts: setup, printed: success },
    Command { name: "security", message_type: 26, options: &[], flags: &["without-me"], parts: security, printed: success },
    Command { name: "log", message_type: 24, options: &[], flags: &[], parts: log, printed: readings },
];

/// Whether a command is one of the client's.
pub fn known(name: &str) -> bool {
    COMMANDS.iter().any(|command| command.name == name)
}

pub fn run(name: &str, words: &[OsString]) -> Result<()> {
    let command = COMMANDS.iter().find(|command| command.name == name).ok_or_else(|| Failure::usage("there is no such command"))?;
    let arguments = Arguments::read(words, &[&OPTIONS, command.options].concat(), command.flags)?;
    let (body, value) = (command.parts)(&arguments)?;
    let reply = connect(&arguments)?.ask(command.message_type, &body, &value)?;
    compare(&arguments, &reply)?;
    let printed = (command.printed)(&arguments, &reply).map_err(unreadable)?;
    print(printed)
}

/// A reply signs the tag and not the value: where the tag is a SHA-1, the value must be the one that it is of.
fn compare(arguments: &Arguments, reply: &Reply) -> Result<()> {
    let pair = Fields::read(&reply.body).and_then(|body| body.message(1)).map_err(unreadable)?;
    let (tag, algorithm) = tag_in(&pair).map_err(unreadable)?;
    let wrong = tag::right(tag, algorithm, &reply.value) == Some(false);
    if wrong && !left_out(arguments, reply) && !arguments.flag("unchecked") {
        let words = "its SHA-1 is not the tag (--unchecked prints it all the same)";
        return Err(Failure::data(format!("the value is not the one that was put: {words}")));
    }
    Ok(())
}

/// Tag and algorithm of a keyValue; 0 where it has none.
fn tag_in<'a>(pair: &Fields<'a>) -> std::result::Result<(&'a [u8], i64), String> {
    Ok((pair.bytes(5)?.unwrap_or_default(), pair.number(6)?.unwrap_or_default()))
}

/// Whether the value was not asked for.
fn left_out(arguments: &Arguments, reply: &Reply) -> bool {
    arguments.flag("metadata-only") && reply.value.is_empty()
}

fn identity_of(arguments: &Arguments) -> Result<i64> {
    arguments.number("identity", i64::MIN, i64::MAX, 1)
}

pub fn connect(arguments: &Arguments) -> Result<Client> {
    let identity = identity_of(arguments)?;
    let cluster_version = arguments.number("cluster-version", i64::MIN, i64::MAX, 0)?;
    let timeout = Duration::from_secs(arguments.number("timeout", 1, 86400, 10)?.unsigned_abs());
    let server = match arguments.words("server")? {
        Some(address) => address.to_string(),
        None => std::env::var("RIDGELADLE_SERVER").unwrap_or_else(|_| LISTEN.to_string()),
    };
    Client::connect(&server, Account { identity, key: key_of(arguments)?, cluster_version }, timeout)
}

/// A body with a part alone.
fn body(field: u64, part: Message) -> Vec<u8> {
    Message::default().message(field, part).done()
}

fn set(arguments: &Arguments, flag: &str) -> Option<i64> {
    arguments.flag(flag).then_some(1)
}

/// A number within limits, or none where the option is missing.
fn number(arguments: &Arguments, name: &str, least: i64, most: i64) -> Result<Option<i64>> {
    arguments.option(name).map(|_| arguments.number(name, least, most, 0)).transpose()
}

fn nothing(arguments: &Arguments) -> Result<Parts> {
    arguments.plain_bytes([])?;
    Ok((Vec::new(), Vec::new()))
}

fn put(arguments: &Arguments) -> Result<Parts> {
    let (key, value) = match arguments.option("value-file") {
        Some(path) => {
            let [key] = arguments.plain_bytes(["KEY"])?;
            (key, value_in(Path::new(path))?)
        }
        None => arguments.plain_bytes(["KEY", "VALUE"])?.into(),
    };
    if value.len() > MOST_STORED {
        return Err(Failure::data(format!("the value is {} bytes, where a box takes at most {MOST_STORED}", value.len())));
    }
    let (tag, algorithm) = tag_for(arguments, &value)?;
    let [new_version, db_version] = [arguments.bytes("new-version")?, arguments.bytes("db-version")?];
    let named = Message::default().bytes(2, new_version.as_deref()).bytes(3, key.as_slice()).bytes(4, db_version.as_deref());
    let tagged = named.bytes(5, tag.as_deref()).number(6, algorithm).number(8, set(arguments, "force"));
    Ok((body(1, tagged), value))
}

/// Tag and algorithm as told, else the value's SHA-1.
fn tag_for(arguments: &Arguments, value: &[u8]) -> Result<(Option<Vec<u8>>, Option<i64>)> {
    let tag = arguments.bytes("tag")?;
    let algorithm = arguments.words("algorithm")?.map(|name| place(&ALGORITHMS, name)).transpose()?;
    match (tag, algorithm, arguments.flag("no-tag")) {
        (None, None, false) => Ok((Some(tag::of(value).to_vec()), Some(tag::SHA1))),
        (None, None, true) => Ok((None, None)),
        (_, _, true) => Err(Failure::usage("--no-tag is there with --tag or --algorithm")),
        (tag, algorithm, false) => Ok((tag, algorithm.map(|place| place + 1))),
    }
}

/// A file's bytes as they are; `-` is standard input.
fn value_in(path: &Path) -> Result<Vec<u8>> {
    if path == Path::new("-") {
        input::all(std::io::stdin(), Path::new("standard input"), MOST_VALUE_FILE)
    } else {
        input::file(path, MOST_VALUE_FILE)
    }
}

fn get(arguments: &Arguments) -> Result<Parts> {
    let [key] = arguments.plain_bytes(["KEY"])?;
    Ok((body(1, Message::default().bytes(3, key.as_slice()).number(7, set(arguments, "metadata-only"))), Vec::new()))
}

fn delete(arguments: &Arguments) -> Result<Parts> {
    let [key] = arguments.plain_bytes(["KEY"])?;
    let version = arguments.bytes("db-version")?;
    let part = Message::default().bytes(3, key.as_slice()).bytes(4, version.as_deref()).number(8, set(arguments, "force"));
    Ok((body(1, part), Vec::new()))
}

fn range(arguments: &Arguments) -> Result<Parts> {
    let [start, end] = arguments.plain_bytes(["START", "END"])?;
    rows::writer(arguments)?;
    let most = number(arguments, "max-returned", i32::MIN.into(), i32::MAX.into())?;
    let keys = Message::default().bytes(1, start.as_slice()).bytes(2, end.as_slice());
    let ends = keys.number(3, set(arguments, "start-inclusive")).number(4, set(arguments, "end-inclusive"));
    Ok((body(2, ends.number(5, most).number(6, set(arguments, "reverse"))), Vec::new()))
}

fn setup(arguments: &Arguments) -> Result<Parts> {
    arguments.plain_bytes([])?;
    let version = number(arguments, "new-cluster-version", i64::MIN, i64::MAX)?;
    Ok((body(3, Message::default().number(1, version)), Vec::new()))
}

fn security(arguments: &Arguments) -> Result<Parts> {
    let [file] = arguments.plain.as_slice() else { return Err(Failure::usage("wanted: FILE")) };
    let (table, identities) = table_file::security(Path::new(file))?;
    let sender = identity_of(arguments)?;
    if !identities.contains(&sender) && !arguments.flag("without-me") {
        let words = "which sends it and would be locked out (--without-me sends it all the same)";
        return Err(Failure::data(format!("{}: the table lacks identity {sender}, {words}", Path::new(file).display())));
    }
    Ok((Message::default().bytes(7, table.as_slice()).done(), Vec::new()))
}

fn log(arguments: &Arguments) -> Result<Parts> {
    let types = arguments.plain.iter().map(|word| place(&LOG_TYPES, &word.to_string_lossy())).collect::<Result<Vec<_>>>()?;
    if types.is_empty() {
        return Err(Failure::usage(format!("wanted: some of {}", LOG_TYPES.join(", "))));
    }
    Ok((body(6, types.into_iter().fold(Message::default(), |part, number| part.number(1, number))), Vec::new()))
}

/// The place of a name among those that there are.
fn place(names: &[&str], name: &str) -> Result<i64> {
    let place = (0..).zip(names).find(|(_, known)| **known == name).map(|(place, _)| place);
    place.ok_or_else(|| Failure::usage(format!("{name}: wanted: {}", names.join(", "))))
}

/// What is printed of a reply, or why it can't be read.
type Printed = std::result::Result<Vec<u8>, String>;

fn success(_: &Arguments, _: &Reply) -> Printed {
    Ok(b"SUCCESS\n".to_vec())
}

fn entry(arguments: &Arguments, reply: &Reply) -> Printed {
    if arguments.flag("raw") {
        return Ok(reply.value.clone());
    }
    let pair = Fields::read(&reply.body)?.message(1)?;
    let (tag, number) = tag_in(&pair)?;
    let verdict = if left_out(arguments, reply) { None } else { tag::verdict(tag, number, &reply.value) };
    let lines = [
        ("key", pair.bytes(3)?.map(shown)),
        ("version", pair.bytes(4)?.map(shown)),
        ("tag", verdict.or((!tag.is_empty()).then(|| shown(tag)))),
        ("algorithm", pair.number(6)?.map(algorithm)),
        ("value", (!reply.value.is_empty()).then(|| shown(&reply.value))),
    ];
    let there = lines.into_iter().filter_map(|(name, content)| content.map(|content| format!("{name} {content}\n")));
    Ok(there.collect::<String>().into_bytes())
}

fn version(_: &Arguments, reply: &Reply) -> Printed {
    let version = Fields::read(&reply.body)?.message(1)?.bytes(4)?.unwrap_or_default();
    Ok(format!("version {}\n", shown(version)).into_bytes())
}

fn keys(arguments: &Arguments, reply: &Reply) -> Printed {
    let keys: Vec<String> = Fields::read(&reply.body)?.message(2)?.each(8)?.into_iter().map(shown).collect();
    let written = match rows::writer(arguments).map_err(|why| why.message)? {
        Some(written) => written(&["key"], &keys.into_iter().map(|key| vec![Cell::Text(key)]).collect::<Vec<_>>()),
        None => keys.into_iter().map(|key| key + "\n").collect(),
    };
    Ok(written.into_bytes())
}

/// Utilizations and temperatures as a file of readings has them; the rest by document 003's names.
fn readings(_: &Arguments, reply: &Reply) -> Printed {
    let log = Fields::read(&reply.body)?.message(6)?;
    let mut lines = Vec::new();
    for (field, kind, unit) in [(2, "utilization", ""), (3, "temperature", " C")] {
        for reading in log.each(field)? {
            let (name, value) = reading_of(reading)?;
            lines.push(format!("{kind} {name} {}{unit}\n", value.map_or("-".to_string(), |value| value.to_string())));
        }
    }
    let capacity = log.message(4)?;
    lines.extend(capacity.number(4)?.map(|bytes| format!("nominalCapacityInBytes {bytes}\n")));
    lines.extend(capacity.float(5)?.map(|portion| format!("portionFull {portion}\n")));
    let limits = log.message(8)?;
    for (field, name) in LIMITS {
        lines.extend(limits.number(field)?.map(|limit| format!("{name} {limit}\n")));
    }
    Ok(lines.concat().into_bytes())
}

/// Name and value of a reading; a silent one has no value.
pub fn reading_of(reading: &[u8]) -> std::result::Result<(String, Option<f32>), String> {
    let fields = Fields::read(reading)?;
    Ok((shown(fields.bytes(1)?.unwrap_or_default()), fields.float(2)?))
}
