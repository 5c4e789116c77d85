use ridgeladle::failure::{Failure, Result};
use ridgeladle::{commands, format, help, rescue, reset, say, server, show, status, system, text};
use std::ffi::OsString;
use std::process::ExitCode;

fn main() -> ExitCode {
    system::outlive_size_limit();
    let words: Vec<OsString> = std::env::args_os().skip(1).collect();
    let name = words.first().map_or("help".into(), |word| word.to_string_lossy());
    match command(&name, words.get(1..).unwrap_or_default()) {
        Ok(()) => ExitCode::SUCCESS,
        Err(Failure { code, message }) => {
            say(format!("{name}: {message}"));
            ExitCode::from(code)
        }
    }
}

fn command(name: &str, words: &[OsString]) -> Result<()> {
    let asked = words.iter().take_while(|word| *word != "--").any(|word| word == "--help");
    if let Some(paragraph) = help::of(name).filter(|_| asked) {
        return text::print(paragraph);
    }
    match name {
        "serve" => server::run(words),
        "format" => format::run(words),
        "show" => show::run(words),
        "rescue" => rescue::run(words),
        "status" => status::run(words),
        "reset-table" => reset::run(words),
        "help" | "--help" | "-h" => text::print(help::ALL),
        "--version" => text::print(help::VERSION),
        _ if commands::known(name) => commands::run(name, words),
        _ => Err(Failure::usage("no such command; 'ridgeladle help' lists them")),
    }
}
