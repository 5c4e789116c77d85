//! `ridgeladle rescue`: a new image of what is left of a damaged one.

use crate::arguments::Arguments;
use crate::failure::{Failure, Result};
use crate::image::{Found, Image};
use crate::key::key_of;
use crate::library::{self, BLOCK};
use crate::place::Place;
use crate::show::key_of_block;
use crate::text::{print, table};
use std::ffi::OsString;
use std::path::Path;

/// What the library's report says of a place, by its number.
const BECAME: [&str; 5] =
    ["blank", "kept", "lost: its check is wrong", "lost: it breaks a rule of blocks", "lost: its key is that of an earlier place"];

pub fn run(words: &[OsString]) -> Result<()> {
    let arguments = Arguments::read(words, &["image", "key-file"], &["in-place"])?;
    let [] = arguments.plain_bytes([])?;
    let path = arguments.path("image")?;
    let place = Place::take(&path)?;
    let found = Found::read(&path)?;
    if found.damage.is_empty() {
        return print(format!("{} is whole: nothing to rescue, and nothing was written\n", path.display()));
    }
    let (image, report) = rescued(&found, &arguments)?;
    let written = if arguments.flag("in-place") { replace(&place, &image)? } else { put_beside(&place, &image)? };
    print(account(&path, &found, &report) + &written)
}

fn rescued(found: &Found, arguments: &Arguments) -> Result<(Image, Vec<u8>)> {
    let mut image = found.image.clone();
    if !found.record_sound {
        image.record = new_record(arguments)?;
    }
    let report = library::rescue(&mut image.store).map_err(|number| Failure::data(format!("the rescue was refused ({number})")))?;
    Ok((image, report))
}

fn new_record(arguments: &Arguments) -> Result<[u8; library::RECORD]> {
    let key = key_of(arguments).map_err(|why| {
        Failure::data(format!(
            "the device record is not what was written, so its keys and permissions can't be trusted: a new one is made with identity 1 alone, and {}",
            why.message
        ))
    })?;
    Ok(Image::formatted(1, &key)?.record)
}

fn put_beside(place: &Place, image: &Image) -> Result<String> {
    let new = place.write_beside(image, ".rescued")?;
    Ok(format!("The new image is {new} beside it; the old one was not touched.\n"))
}

fn replace(place: &Place, image: &Image) -> Result<String> {
    let kept = place.exchange(image, ".damaged")?;
    Ok(format!("The new image stands in its place; the old one is {kept} beside it.\n"))
}

/// What was found, what became of each place that was not blank, and how many readings were kept, lost, and gone without trace.
fn account(path: &Path, found: &Found, report: &[u8]) -> String {
    let used = report.iter().enumerate().filter(|(_, became)| **became != 0);
    let row = |(place, became): (usize, &u8)| {
        let words = if never_one(found, place, *became) { "no reading: the box had none here" } else { BECAME[usize::from(*became)] };
        vec![place.to_string(), words.to_string(), key_of_block(&found.image.store[place * BLOCK..][..BLOCK])]
    };
    let rows: Vec<Vec<String>> = used.map(row).collect();
    let record = if found.record_sound {
        ""
    } else {
        "The device record was made new: identity 1 may do everything, all others are gone; send the table again.\n"
    };
    let damage = format!("{}: {}\n\n", path.display(), found.damage.join("; "));
    damage + &table(&["place", "what became of it", "key"], &rows) + &counts(found, report) + record
}

/// Whether a place that is not sound is past all readings that were written.
fn never_one(found: &Found, place: usize, became: u8) -> bool {
    became > 1 && found.used.is_some_and(|used| place >= used)
}

fn counts(found: &Found, report: &[u8]) -> String {
    let kept = report.iter().filter(|became| **became == 1).count();
    let lost = report.iter().enumerate().filter(|(place, became)| **became > 1 && !never_one(found, *place, **became)).count();
    let named = format!("\n{} kept, {} lost", readings(kept), readings(lost));
    match found.used.map(|used| used.saturating_sub(kept + lost)) {
        Some(0) => named + ".\n",
        Some(gone) => format!("{named}, {} gone without trace.\n", readings(gone)),
        None => named + ".\nWhether more are gone without trace is not known: the image does not say how many it had.\n",
    }
}

fn readings(count: usize) -> String {
    if count == 1 { "1 reading".into() } else { format!("{count} readings") }
}
