//! The box in memory and on disk: every reply waits until the state that it was answered from is on disk, and changes that wait are written together.

use crate::image::Image;
use crate::library::{self, CONNECTION, NO_SPACE, READINGS, REPLY};
use crate::log::{Level, Log};
use crate::place::Place;
use std::sync::{Arc, Condvar, Mutex, MutexGuard, OnceLock, PoisonError};

/// Changes that go to disk together.
#[derive(Default)]
struct Turn {
    /// Whether they got there, once that is known.
    kept: OnceLock<bool>,
    /// Wakes who waits for that: one to write, when those before are written, and all in the end.
    called: Condvar,
}

struct Held {
    image: Image,
    /// The image as it was when a change was last seen: what differs from it is new.
    seen: Image,
    on_disk: Image,
    readings: [u8; READINGS],
    /// Changes that no one is writing yet, and those that someone is writing now.
    waiting: Option<Arc<Turn>>,
    writing: Option<Arc<Turn>>,
    ended: bool,
    warned: Warned,
}

/// What was said of the room that is left; said again once it was otherwise.
#[derive(Default)]
struct Warned {
    nearly: bool,
    full: bool,
}

pub struct Keeper {
    held: Mutex<Held>,
    place: Place,
    log: Arc<Log>,
}

/// What the box answered to some input.
pub struct Answers {
    pub taken: usize,
    /// What the replies wait for; none where all of it is on disk.
    turn: Option<Arc<Turn>>,
    /// The refusal that ended it, MORE for one.
    pub refusal: u32,
}

impl Keeper {
    pub fn new(place: Place, image: Image, log: Arc<Log>) -> Keeper {
        let (seen, on_disk, readings) = (image.clone(), image.clone(), [0; READINGS]);
        let mut held = Held { image, seen, on_disk, readings, waiting: None, writing: None, ended: false, warned: Warned::default() };
        let warning = held.room();
        let keeper = Keeper { held: Mutex::new(held), place, log };
        keeper.warn(warning);
        keeper
    }

    fn warn(&self, warning: Option<String>) {
        if let Some(words) = warning {
            self.log.say(Level::Warning, "the box is full, or nearly", words);
        }
    }

    /// A thread that panicked left the image as a call of the library left it, which is whole.
    fn lock(&self) -> MutexGuard<'_, Held> {
        self.held.lock().unwrap_or_else(PoisonError::into_inner)
    }

    pub fn lend(&self, readings: [u8; READINGS]) {
        self.lock().readings = readings;
    }

    /// Answers each whole request at the start of the input, and appends the replies. None where nothing is answered any more.
    pub fn answer(&self, connection: &mut [u8; CONNECTION], input: &[u8], replies: &mut Vec<u8>) -> Option<Answers> {
        let mut held = self.lock();
        if held.ended {
            return None;
        }
        let (answers, warning) = held.answer(connection, input, replies);
        drop(held);
        self.warn(warning);
        Some(answers)
    }

    /// Whether what was answered is on disk. Who waits first writes for all that wait; false where the disk refused, and the changes were taken back.
    pub fn settle(&self, answers: &Answers) -> bool {
        answers.turn.as_ref().is_none_or(|turn| self.written(turn))
    }

    /// For when the replies are sent: what was put off until then.
    pub fn tidy(&self) {
        self.place.tidy();
    }

    /// Nothing is answered from here on; when this returns, nothing waits for the disk.
    pub fn end(&self) {
        let mut held = self.lock();
        held.ended = true;
        let last = held.last_turn();
        drop(held);
        if let Some(turn) = last {
            self.written(&turn);
        }
    }

    fn written(&self, turn: &Turn) -> bool {
        let mut held = self.lock();
        loop {
            if let Some(kept) = turn.kept.get() {
                return *kept;
            }
            held = match held.writing {
                Some(_) => turn.called.wait(held).unwrap_or_else(PoisonError::into_inner),
                None => self.write(held),
            };
        }
    }

    fn write<'a>(&'a self, mut held: MutexGuard<'a, Held>) -> MutexGuard<'a, Held> {
        held.writing = held.waiting.take();
        let image = held.image.clone();
        drop(held);
        let outcome = self.place.write(&image);
        if let Err(why) = &outcome {
            let words = format!("the image can't be written: {why}; changes since the last good write are taken back");
            self.log.say(Level::Error, "the image can't be written", words);
        }
        let mut held = self.lock();
        held.finish(image, outcome.is_ok());
        held
    }
}

impl Held {
    /// Beside the answers a warning, where one is due.
    fn answer(&mut self, connection: &mut [u8; CONNECTION], input: &[u8], replies: &mut Vec<u8>) -> (Answers, Option<String>) {
        let (mut taken, mut out, mut no_space) = (0, [0; REPLY], false);
        let refusal = loop {
            let Image { record, store } = &mut self.image;
            match library::answer(store, record, connection, &self.readings, &input[taken..], &mut out) {
                Ok((more, written)) => {
                    taken += more;
                    replies.extend(&out[..written]);
                    no_space |= library::status(&out) == NO_SPACE;
                }
                Err(refusal) => break refusal,
            }
        };
        let mut warning = None;
        if self.seen.follow(&self.image) {
            self.waiting.get_or_insert_default();
            warning = self.room();
        }
        if no_space && !self.warned.full {
            self.warned.full = true;
            warning = Some(format!("a PUT was answered NO_SPACE: all {} blocks are used", self.image.blocks()));
        }
        (Answers { taken, turn: self.last_turn(), refusal }, warning)
    }

    fn last_turn(&self) -> Option<Arc<Turn>> {
        self.waiting.clone().or(self.writing.clone())
    }

    /// A warning where nine of ten blocks have come to be used.
    fn room(&mut self) -> Option<String> {
        let (used, blocks) = (self.image.used(), self.image.blocks());
        let before = std::mem::replace(&mut self.warned.nearly, 10 * used >= 9 * blocks);
        self.warned.full &= used == blocks;
        (self.warned.nearly && !before).then(|| format!("{used} of {blocks} blocks are used: 90 % or more"))
    }

    /// What was changed on top of changes that the disk refused is taken back with them.
    fn finish(&mut self, image: Image, kept: bool) {
        let done = [self.writing.take(), if kept { None } else { self.waiting.take() }];
        if kept {
            self.on_disk = image;
        } else {
            self.image.follow(&self.on_disk);
            self.seen.follow(&self.on_disk);
        }
        if let Some(next) = &self.waiting {
            next.called.notify_one();
        }
        for turn in done.into_iter().flatten() {
            let _ = turn.kept.set(kept);
            turn.called.notify_all();
        }
    }
}
