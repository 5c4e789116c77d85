//! The image: the device record and the store in one file (docs/OPERATING.md, "The image"), as bytes, read and judged.

use crate::failure::{Failure, Result};
use crate::input;
use crate::library::{self, BLOCK, MOST_BLOCKS, RECORD};
use std::path::Path;

/// The layout's number is the eighth byte. Layout 1, which is only read, has zeros for the number of used blocks and for the seal.
const MAGIC: [u8; 7] = *b"RLADLE\0";
const LAYOUT: u8 = 2;
/// The first bytes of the digest of the head before it.
const SEAL: usize = 56;
const HEAD: usize = 64;
const STORE: usize = HEAD + RECORD;
/// A store is compared in pieces of so many bytes.
const PIECE: usize = 8 * BLOCK;

#[derive(Clone)]
pub struct Image {
    pub record: [u8; RECORD],
    pub store: Vec<u8>,
}

/// What a file holds that should be an image.
pub struct Found {
    pub image: Image,
    /// Whether the record is what was written; a wrong bit may be a key or a permission.
    pub record_sound: bool,
    /// How many readings were written, where the head says so and is what was written.
    pub used: Option<usize>,
    /// What is wrong with the file, in words.
    pub damage: Vec<String>,
}

/// What a head says that is one.
struct Head {
    blocks: usize,
    /// None in layout 1.
    used: Option<usize>,
}

impl Image {
    /// A blank box: identity 1 has the key and every permission.
    pub fn formatted(blocks: usize, key: &[u8]) -> Result<Image> {
        let mut image = Image { record: [0; RECORD], store: vec![0; blocks * BLOCK] };
        library::format(&mut image.store, &mut image.record, key)
            .map_err(|number| Failure::usage(format!("the box refuses this format ({number}): 1 to 128 blocks, a key of 1 to 64 bytes")))?;
        Ok(image)
    }

    /// A whole image, or words on why it is none.
    pub fn open(path: &Path) -> Result<Image> {
        let found = Found::read(path)?;
        if found.damage.is_empty() {
            return Ok(found.image);
        }
        let (name, damage) = (path.display(), found.damage.join("; "));
        Err(Failure::data(format!("{name} is damaged: {damage}. 'ridgeladle rescue --image {name}' makes a new image of what is left")))
    }

    pub fn blocks(&self) -> usize {
        self.store.len() / BLOCK
    }

    /// Used blocks come first.
    pub fn used(&self) -> usize {
        self.store.chunks(BLOCK).take_while(|block| block[0] != 0).count()
    }

    /// Becomes another image of as many blocks, and copies no more than what differs; whether anything did.
    pub fn follow(&mut self, other: &Image) -> bool {
        let mut differs = self.record != other.record;
        if differs {
            self.record = other.record;
        }
        for (mine, theirs) in self.store.chunks_mut(PIECE).zip(other.store.chunks(PIECE)) {
            if mine != theirs {
                mine.copy_from_slice(theirs);
                differs = true;
            }
        }
        differs
    }
}

/// The bytes of the last image that was written, into which the next one is put.
#[derive(Default)]
pub struct Written(Vec<u8>);

impl Written {
    /// The bytes of an image. Few changes are of the record: where it stands here already, so does its digest.
    pub fn next(&mut self, image: &Image) -> &[u8] {
        let known = self.0.get(HEAD..STORE).is_some_and(|record| record == image.record);
        self.0.resize(STORE + image.store.len(), 0);
        let (head, rest) = self.0.split_at_mut(HEAD);
        if !known {
            head[16..36].copy_from_slice(&digest(&image.record));
            rest[..RECORD].copy_from_slice(&image.record);
        }
        rest[RECORD..].copy_from_slice(&image.store);
        head[..7].copy_from_slice(&MAGIC);
        head[7] = LAYOUT;
        head[8..12].copy_from_slice(&(image.blocks() as u32).to_be_bytes());
        head[12..16].copy_from_slice(&(image.used() as u32).to_be_bytes());
        head[36..SEAL].copy_from_slice(&digest(&image.store));
        let seal = seal(head);
        head[SEAL..].copy_from_slice(&seal);
        &self.0
    }
}

/// No text here is as long as the library refuses.
fn digest(text: &[u8]) -> [u8; 20] {
    library::sha1(text).unwrap_or_default()
}

fn seal(head: &[u8]) -> [u8; HEAD - SEAL] {
    let mut seal = [0; HEAD - SEAL];
    seal.copy_from_slice(&digest(&head[..SEAL])[..HEAD - SEAL]);
    seal
}

impl Head {
    fn read(bytes: &[u8; HEAD]) -> Option<Head> {
        let number = |at: usize| bytes[at..at + 4].iter().fold(0, |number, byte| number << 8 | usize::from(*byte));
        let (blocks, used) = (number(8), number(12));
        let used = match bytes[7] {
            LAYOUT if bytes[SEAL..] == seal(bytes) && used <= blocks => Some(used),
            1 if bytes[SEAL..] == [0; HEAD - SEAL] && used == 0 => None,
            _ => return None,
        };
        (bytes[..7] == MAGIC && (1..=MOST_BLOCKS).contains(&blocks)).then_some(Head { blocks, used })
    }
}

impl Found {
    pub fn read(path: &Path) -> Result<Found> {
        let (bytes, length) = input::regular_start(path, STORE + MOST_BLOCKS * BLOCK)?;
        Found::judge(&bytes, length).ok_or_else(|| Failure::data(format!("{} is not an image of a box", path.display())))
    }

    /// None where neither the head nor the length is that of an image. A head of layout 1 may say a wrong number of blocks: of those that it says and those
    /// that are there, none is left out.
    fn judge(bytes: &[u8], length: u64) -> Option<Found> {
        let (head, rest) = bytes.split_first_chunk::<HEAD>()?;
        let (record, store) = rest.split_first_chunk::<RECORD>()?;
        let (said, there) = (Head::read(head), store.len().div_ceil(BLOCK));
        let blocks = match said {
            Some(Head { blocks, used: Some(_) }) => blocks,
            Some(Head { blocks, used: None }) => blocks.max(there),
            None if length == (STORE + there * BLOCK) as u64 && there > 0 => there,
            None => return None,
        };
        let used = said.as_ref().and_then(|head| head.used);
        let wanted = said.map(|head| (STORE + head.blocks * BLOCK) as u64);
        let mut image = Image { record: *record, store: store.to_vec() };
        image.store.resize(blocks * BLOCK, 0);
        let record_sound = digest(record) == head[16..36] && library::record_good(record);
        let store_sound = digest(&image.store) == head[36..56];
        let faults = [
            (wanted.is_none(), "its head is not an image's".to_string()),
            (wanted.is_some_and(|wanted| wanted != length), format!("it has {length} bytes of {}", wanted.unwrap_or_default())),
            (!record_sound, "the device record is not what was written".to_string()),
            (wanted.is_some() && !store_sound, "the store is not what was written".to_string()),
            (store_sound && used.is_some_and(|used| used != image.used()), "its head has another number of used blocks".to_string()),
            (!library::store_good(&image.store), "a block breaks a rule".to_string()),
        ];
        let damage = faults.into_iter().filter(|(is, _)| *is).map(|(_, words)| words).collect();
        Some(Found { image, record_sound, used, damage })
    }
}

#[cfg(test)]
mod tests {
    use super::*;

    fn image(blocks: usize) -> Image {
        Image { record: [1; RECORD], store: vec![2; blocks * BLOCK] }
    }

    #[test]
    fn what_is_written_does_not_depend_on_what_was_before() {
        let [mut other_record, mut other_store] = [image(9), image(9)];
        other_record.record[RECORD - 1] = 0;
        other_store.store[8 * BLOCK] = 0;
        let mut written = Written::default();
        for next in [image(9), other_record, image(9), other_store, image(1), image(128), image(9)] {
            assert!(written.next(&next) == Written::default().next(&next));
        }
    }

    #[test]
    fn an_image_follows_another_wherever_they_differ() {
        for blocks in [1, 8, 9, 128] {
            let places =
                [0, RECORD - 1].into_iter().chain((0..blocks).flat_map(|block| [0, BLOCK - 1].map(|at| RECORD + block * BLOCK + at)));
            for place in places {
                let (mut mine, mut other) = (image(blocks), image(blocks));
                *if place < RECORD { &mut other.record[place] } else { &mut other.store[place - RECORD] } = 3;
                assert!(mine.follow(&other) && mine.record == other.record && mine.store == other.store);
                assert!(!mine.follow(&other));
            }
        }
    }
}
