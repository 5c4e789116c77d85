//! What the server says on standard error. A thread of its own writes it, so that nobody who says something waits for whoever reads it.

use crate::failure::{Failure, Result};
use std::collections::HashMap;
use std::fmt::Display;
use std::io::Write;
use std::sync::Arc;
use std::sync::atomic::{AtomicU64, Ordering};
use std::sync::mpsc::{Receiver, RecvTimeoutError, SyncSender, TrySendError, sync_channel};
use std::thread;
use std::time::{Duration, Instant, SystemTime, UNIX_EPOCH};

/// Messages that wait to be written; more are dropped and counted.
const WAITING: usize = 256;
/// Of each kind so many are written in such a time; more are counted.
const MOST_OF_A_KIND: u64 = 20;
const TIME_OF_A_KIND: Duration = Duration::from_secs(10);
/// How long the end waits for what is still to be written.
const PATIENCE: Duration = Duration::from_secs(2);

#[derive(Clone, Copy, PartialEq, PartialOrd)]
pub enum Level {
    Error,
    Warning,
    Info,
}

const LEVELS: [(Level, &str); 3] = [(Level::Error, "error"), (Level::Warning, "warning"), (Level::Info, "info")];

impl Level {
    pub fn of(word: Option<&str>) -> Result<Level> {
        let Some(word) = word else { return Ok(Level::Info) };
        let found = LEVELS.into_iter().find(|(_, name)| *name == word);
        found.map(|(level, _)| level).ok_or_else(|| Failure::usage(format!("--log-level {word}: error, warning or info is wanted")))
    }

    fn name(self) -> &'static str {
        LEVELS[self as usize].1
    }
}

/// What a message is about, in words.
pub type Kind = &'static str;

pub struct Log {
    most: Level,
    items: SyncSender<Item>,
    dropped: Arc<AtomicU64>,
}

enum Item {
    Message(Level, Kind, String),
    /// All before it is to be written, and what is counted too.
    End(SyncSender<()>),
}

impl Log {
    /// Messages of lesser levels than this are not said.
    pub fn start(most: Level) -> Result<Arc<Log>> {
        let (items, waiting) = sync_channel(WAITING);
        let dropped = Arc::new(AtomicU64::new(0));
        let writer = Writer { waiting, dropped: dropped.clone(), kinds: Kinds::default() };
        thread::Builder::new().spawn(move || writer.run()).map_err(|why| Failure::system(format!("can't start a thread: {why}")))?;
        Ok(Arc::new(Log { most, items, dropped }))
    }

    /// Never waits.
    pub fn say(&self, level: Level, kind: Kind, words: impl Display) {
        if level <= self.most && self.items.try_send(Item::Message(level, kind, words.to_string())).is_err() {
            self.dropped.fetch_add(1, Ordering::Relaxed);
        }
    }

    /// Waits until all is written, if someone reads it.
    pub fn end(&self) {
        let (done, ended) = sync_channel(1);
        let (mut item, by) = (Item::End(done), Instant::now() + PATIENCE);
        while let Err(TrySendError::Full(again)) = self.items.try_send(item) {
            if Instant::now() > by {
                return;
            }
            item = again;
            thread::sleep(Duration::from_millis(10));
        }
        let _ = ended.recv_timeout(PATIENCE);
    }
}

struct Writer {
    waiting: Receiver<Item>,
    dropped: Arc<AtomicU64>,
    kinds: Kinds,
}

impl Writer {
    fn run(mut self) {
        loop {
            let item = self.waiting.recv_timeout(Duration::from_secs(1));
            self.counted(Instant::now());
            match item {
                Ok(Item::Message(level, kind, words)) if self.kinds.passes(level, kind, Instant::now()) => write(level, &words),
                Ok(Item::Message(..)) | Err(RecvTimeoutError::Timeout) => (),
                Ok(Item::End(done)) => {
                    self.counted(Instant::now() + TIME_OF_A_KIND);
                    let _ = done.send(());
                }
                Err(RecvTimeoutError::Disconnected) => return,
            }
        }
    }

    /// Says how many were dropped, and how many held back of the kinds whose time is over.
    fn counted(&mut self, now: Instant) {
        let dropped = self.dropped.swap(0, Ordering::Relaxed);
        if dropped > 0 {
            write(Level::Warning, &format!("{dropped} messages were dropped, since nobody read standard error"));
        }
        for (level, kind, more) in self.kinds.over(now) {
            write(level, &format!("{more} more messages within {} s: {kind}", TIME_OF_A_KIND.as_secs()));
        }
    }
}

/// What was said of each kind, since when.
#[derive(Default)]
struct Kinds(HashMap<Kind, (Instant, Level, u64)>);

impl Kinds {
    /// Whether one more is to be written.
    fn passes(&mut self, level: Level, kind: Kind, now: Instant) -> bool {
        let (_, _, count) = self.0.entry(kind).or_insert((now, level, 0));
        *count += 1;
        *count <= MOST_OF_A_KIND
    }

    /// Forgets the kinds whose time is over; gives those of which some were held back, and how many.
    fn over(&mut self, now: Instant) -> Vec<(Level, Kind, u64)> {
        let over = self.0.extract_if(|_, (since, ..)| now.duration_since(*since) >= TIME_OF_A_KIND);
        let more = over.map(|(kind, (_, level, count))| (level, kind, count.saturating_sub(MOST_OF_A_KIND)));
        more.filter(|(.., more)| *more > 0).collect()
    }
}

/// A server goes on also where standard error is closed.
fn write(level: Level, words: &str) {
    let now = SystemTime::now().duration_since(UNIX_EPOCH).unwrap_or_default();
    let _ = std::io::stderr().write_all(format!("{} ridgeladle {}: {words}\n", time(now), level.name()).as_bytes());
}

/// A time since 1970 as RFC 3339 writes it, in UTC. Years are counted from March, so that a leap day is the last of its year.
fn time(since: Duration) -> String {
    let (seconds, milliseconds) = (since.as_secs(), since.subsec_millis());
    let days = seconds / 86400 + 719_468;
    let (era, day) = (days / 146_097, days % 146_097);
    let year = (day - day / 1460 + day / 36524 - day / 146_096) / 365;
    let day = day - (365 * year + year / 4 - year / 100);
    let month = (5 * day + 2) / 153;
    let (day, number) = (day - (153 * month + 2) / 5 + 1, if month < 10 { month + 3 } else { month - 9 });
    let year = era * 400 + year + u64::from(number <= 2);
    let (hour, minute, second) = (seconds / 3600 % 24, seconds / 60 % 60, seconds % 60);
    format!("{year:04}-{number:02}-{day:02}T{hour:02}:{minute:02}:{second:02}.{milliseconds:03}Z")
}

#[cfg(test)]
mod tests {
    use super::*;

    #[test]
    fn times_are_as_date_gives_them() {
        // by 'date -u -d @N +%FT%T'
        let known = [
            (0, "1970-01-01T00:00:00.007Z"),
            (951_782_399, "2000-02-28T23:59:59.007Z"),
            (951_782_400, "2000-02-29T00:00:00.007Z"),
            (951_868_800, "2000-03-01T00:00:00.007Z"),
            (1_735_689_599, "2024-12-31T23:59:59.007Z"),
            (1_735_689_600, "2025-01-01T00:00:00.007Z"),
            (4_107_542_400, "2100-03-01T00:00:00.007Z"),
        ];
        for (seconds, text) in known {
            assert_eq!(time(Duration::new(seconds, 7_000_000)), text);
        }
    }

    #[test]
    fn of_each_kind_some_pass_and_the_rest_is_counted() {
        let (mut kinds, begun) = (Kinds::default(), Instant::now());
        let passed = (0..50).filter(|_| kinds.passes(Level::Info, "one", begun)).count();
        assert_eq!(passed as u64, MOST_OF_A_KIND);
        assert!(kinds.passes(Level::Info, "other", begun));
        assert!(kinds.over(begun + TIME_OF_A_KIND / 2).is_empty());
        let over = kinds.over(begun + TIME_OF_A_KIND);
        assert!(matches!(over[..], [(Level::Info, "one", 30)]));
        assert!(kinds.passes(Level::Info, "one", begun + TIME_OF_A_KIND));
    }
}
