//! `ridgeladle status`: how full a box is, its cluster version and its readings, with an exit code for a monitor.

use crate::arguments::Arguments;
use crate::client::unreadable;
use crate::commands::{OPTIONS, connect, reading_of};
use crate::failure::{Failure, Result};
use crate::image::Image;
use crate::library::BLOCK;
use crate::show::cluster_version;
use crate::text::print;
use crate::wire::{Fields, Message};
use std::ffi::OsString;
use std::path::Path;

const GETLOG: i64 = 24;
const TEMPERATURES: i64 = 1;
const CAPACITIES: i64 = 2;
const MOST_USED: i64 = 90;

struct Status {
    used: usize,
    blocks: usize,
    cluster_version: i64,
    temperatures: Vec<(String, Option<f32>)>,
}

pub fn run(words: &[OsString]) -> Result<()> {
    let arguments = Arguments::read(words, &[&OPTIONS[..], &["image", "most-used", "most-degrees"]].concat(), &[])?;
    let [] = arguments.plain_bytes([])?;
    let most_used = arguments.number("most-used", 1, 100, MOST_USED)?.unsigned_abs() as usize;
    let most_degrees = arguments.words("most-degrees")?.map(degrees).transpose()?;
    let status = match arguments.option("image") {
        Some(path) => of_image(Path::new(path))?,
        None => of_box(&arguments)?,
    };
    print(status.lines())?;
    let reached = status.reached(most_used, most_degrees);
    if reached.is_empty() { Ok(()) } else { Err(Failure::limit(reached.join("; "))) }
}

fn degrees(text: &str) -> Result<f32> {
    let number = text.parse().ok().filter(|number: &f32| number.is_finite());
    number.ok_or_else(|| Failure::usage(format!("--most-degrees {text}: a number is wanted")))
}

/// An image has no readings: they are the server's.
fn of_image(path: &Path) -> Result<Status> {
    let image = Image::open(path)?;
    Ok(Status { used: image.used(), blocks: image.blocks(), cluster_version: cluster_version(&image.record), temperatures: Vec::new() })
}

/// A box that answers has the cluster version that was asked with.
fn of_box(arguments: &Arguments) -> Result<Status> {
    let mut client = connect(arguments)?;
    let types = Message::default().number(1, TEMPERATURES).number(1, CAPACITIES);
    let reply = client.ask(GETLOG, &Message::default().message(6, types).done(), &[])?;
    read(&reply.body, client.account.cluster_version).map_err(unreadable)
}

fn read(body: &[u8], cluster_version: i64) -> std::result::Result<Status, String> {
    let log = Fields::read(body)?.message(6)?;
    let capacity = log.message(4)?;
    let bytes = capacity.number(4)?.ok_or("the capacity is missing")?;
    let portion = capacity.float(5)?.ok_or("the portion that is full is missing")?;
    let blocks = bytes as usize / BLOCK;
    let temperatures = log.each(3)?.into_iter().map(reading_of).collect::<std::result::Result<_, _>>()?;
    Ok(Status { used: (portion * blocks as f32).round() as usize, blocks, cluster_version, temperatures })
}

impl Status {
    fn lines(&self) -> String {
        let temperature = |(name, value): &(String, Option<f32>)| match value {
            Some(degrees) => format!("temperature {name} {degrees} C\n"),
            None => format!("temperature {name} - C\n"),
        };
        let readings: String = self.temperatures.iter().map(temperature).collect();
        format!("{} of {} blocks used\ncluster version {}\n{readings}", self.used, self.blocks, self.cluster_version)
    }

    /// The limits that are reached, in words. A sensor that is silent may be at any.
    fn reached(&self, most_used: usize, most_degrees: Option<f32>) -> Vec<String> {
        let full = self.used * 100 >= self.blocks * most_used;
        let blocks = full.then(|| format!("{} of {} blocks are used, {most_used} % or more", self.used, self.blocks));
        let hot = |(name, value): &(String, Option<f32>)| match (value, most_degrees?) {
            (None, _) => Some(format!("{name} is silent")),
            (Some(degrees), most) if *degrees >= most => Some(format!("{name} is at {degrees} C, {most} or more")),
            _ => None,
        };
        blocks.into_iter().chain(self.temperatures.iter().filter_map(hot)).collect()
    }
}
