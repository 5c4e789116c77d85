//! `ridgeladle show`: the entries of an image, as a table for people, as CSV or as JSON lines.

use crate::arguments::Arguments;
use crate::failure::Result;
use crate::image::Image;
use crate::library::{BLOCK, RECORD};
use crate::rows::{self, Cell, Row};
use crate::tag;
use crate::text::{algorithm, print, shown, table};
use std::ffi::OsString;

const HEAD: [&str; 6] = ["place", "key", "version", "tag", "algorithm", "value"];
const TAG: usize = 3;

/// More of a text than this is cut in the table; CSV and JSON have all.
const MOST_SHOWN: usize = 48;

pub fn run(words: &[OsString]) -> Result<()> {
    let arguments = Arguments::read(words, &["image"], &rows::FLAGS)?;
    let [] = arguments.plain_bytes([])?;
    let writer = rows::writer(&arguments)?;
    let image = Image::open(&arguments.path("image")?)?;
    let used: Vec<&[u8]> = image.store.chunks(BLOCK).take(image.used()).collect();
    let all: Vec<Row> = used.iter().enumerate().map(|(place, block)| row(place, block)).collect();
    if let Some(written) = writer {
        return print(written(&HEAD, &all));
    }
    let rows: Vec<Vec<String>> = all.iter().zip(used).map(|(row, block)| for_people(row, block)).collect();
    let (cluster, identities) = (cluster_version(&image.record), identities(&image.record).join(", "));
    let closing = format!("{} of {} blocks used, cluster version {cluster}, identities {identities}\n", image.used(), image.blocks());
    print(table(&HEAD, &rows) + &closing)
}

/// The entry of a block that meets the rules.
fn row(place: usize, block: &[u8]) -> Row {
    let algorithm = if block[6] == 0 { String::new() } else { algorithm(block[6].into()) };
    let texts =
        [key_of_block(block), shown(&block[72..72 + usize::from(block[2])]), shown(tag_of(block)), algorithm, shown(value_of(block))];
    [Cell::Number(place)].into_iter().chain(texts.map(Cell::Text)).collect()
}

/// A row of the table: what is long is cut, and of a SHA-1 it says whether it is the value's.
fn for_people(row: &Row, block: &[u8]) -> Vec<String> {
    let mut words: Vec<String> = row.iter().map(|cell| shortened(cell.to_string())).collect();
    if let Some(verdict) = tag::verdict(tag_of(block), block[6].into(), value_of(block)) {
        words[TAG] = verdict;
    }
    words
}

fn tag_of(block: &[u8]) -> &[u8] {
    &block[88..88 + usize::from(block[3])]
}

fn value_of(block: &[u8]) -> &[u8] {
    &block[120..120 + usize::from(u16::from_be_bytes([block[4], block[5]]))]
}

/// The key of a block, where its length is one.
pub fn key_of_block(block: &[u8]) -> String {
    shown(&block[8..8 + usize::from(block[1]).min(64)])
}

fn shortened(word: String) -> String {
    if word.chars().count() > MOST_SHOWN { word.chars().take(MOST_SHOWN - 1).chain(['…']).collect() } else { word }
}

pub fn cluster_version(record: &[u8; RECORD]) -> i64 {
    number_at(record, 0)
}

fn number_at(record: &[u8; RECORD], at: usize) -> i64 {
    record[at..at + 8].iter().fold(0, |number, byte| number << 8 | i64::from(*byte))
}

fn identities(record: &[u8; RECORD]) -> Vec<String> {
    (0..usize::from(record[8])).map(|place| number_at(record, 16 + 368 * place).to_string()).collect()
}
