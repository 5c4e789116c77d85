//! `ridgeladle reset-table`: a new table of identities for a box whose office is locked out.

use crate::arguments::Arguments;
use crate::failure::Result;
use crate::image::Image;
use crate::key::key_of;
use crate::place::Place;
use crate::text::print;
use std::ffi::OsString;

/// The cluster version is no part of the table (include/ridgeladle.h has the record's layout).
const CLUSTER_VERSION: usize = 8;

pub fn run(words: &[OsString]) -> Result<()> {
    let arguments = Arguments::read(words, &["image", "key-file"], &[])?;
    let [] = arguments.plain_bytes([])?;
    let path = arguments.path("image")?;
    let fresh = Image::formatted(1, &key_of(&arguments)?)?;
    let place = Place::take(&path)?;
    let mut image = Image::open(&path)?;
    image.record[CLUSTER_VERSION..].copy_from_slice(&fresh.record[CLUSTER_VERSION..]);
    place.rewrite(&image)?;
    print(format!(
        "{}: identity 1 may do everything, all others are gone; {} of {} blocks used, as before\n",
        path.display(),
        image.used(),
        image.blocks()
    ))
}
