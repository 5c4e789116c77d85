//! `ridgeladle help`, and of it what `COMMAND --help` prints.

pub const ALL: &str = include_str!("help.txt");

pub const VERSION: &str = concat!("ridgeladle ", env!("CARGO_PKG_VERSION"), ", Kinetic 3.1.0\n");

/// The paragraph of a command, with the options of every client where it is one.
pub fn of(command: &str) -> Option<String> {
    let (_, clients) = ALL.split_once("its clients, each ")?;
    let (common, _) = clients.split_once("\n  ridgeladle ")?;
    let paragraph = ALL.split("\n  ridgeladle ").skip(1).find(|words| words.split_whitespace().next() == Some(command))?;
    let (paragraph, _) = paragraph.split_once("\n\n").unwrap_or((paragraph, ""));
    let common: Vec<&str> = if clients.contains(paragraph) { common.split_whitespace().collect() } else { Vec::new() };
    Some(format!("ridgeladle {paragraph}\n{}", common.join(" ")).trim_end().to_string() + "\n")
}
