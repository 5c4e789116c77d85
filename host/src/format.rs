//! `ridgeladle format`: a new image.

use crate::arguments::Arguments;
use crate::failure::{Failure, Result};
use crate::image::Image;
use crate::key::key_of;
use crate::library::MOST_BLOCKS;
use crate::place::Place;
use crate::text::print;
use std::ffi::OsString;

pub fn run(words: &[OsString]) -> Result<()> {
    let arguments = Arguments::read(words, &["image", "key-file", "blocks"], &["replace"])?;
    let [] = arguments.plain_bytes([])?;
    let path = arguments.path("image")?;
    let blocks = arguments.number("blocks", 1, MOST_BLOCKS as i64, MOST_BLOCKS as i64)? as usize;
    let image = Image::formatted(blocks, &key_of(&arguments)?)?;
    Place::make(&path, arguments.flag("replace"))?.write(&image).map_err(|why| Failure::file(&path, why))?;
    print(format!("made {}: {blocks} blocks, identity 1 may do everything\n", path.display()))
}
