//! The library's calls from a shell: `barrowtide --help` lists them.
#![deny(unsafe_code)]

mod answer;
mod batch;
mod bundle;
mod bundles;
mod commands;
mod cursor;
mod draw;
mod help;
mod input;
mod json;
mod leaves;
mod looks;
mod standard;
mod svg;
mod tsc;
mod value;
mod words;

use std::env;
use std::process::ExitCode;

use answer::{print, Answer, Failure, Style, Told};
use help::{Command, COMMANDS};
use input::Word;

fn main() -> ExitCode {
    let mut words = Word::line(env::args_os().skip(1));
    let mut taken = |option: &str| {
        let before = words.len();
        words.retain(|word| !word.is_option(option));
        words.len() < before
    };
    let json = taken("--json");
    let binary = taken("--binary");
    let help = taken("--help") | taken("-h");
    let version = taken("--version");
    let mut style = Style { usage: "COMMAND ..", json, binary, ..Style::default() };

    let Some((name, words)) = words.split_first() else {
        let answer = if version {
            Ok(concat!("barrowtide ", env!("CARGO_PKG_VERSION"), "\n").to_string())
        } else if help {
            Ok(help::of_program())
        } else {
            Err(Failure::unusable(help::of_program().trim_end()))
        };
        return print(answer.map(plain), style);
    };
    if name.text() == Some("help") {
        let about = match words {
            [] => Ok(help::of_program()),
            [name, ..] => command(name).map(help::of_command),
        };
        return print(about.map(plain), style);
    }
    let command = match command(name) {
        Ok(command) => command,
        Err(failure) => return print(Err(failure), style),
    };
    if help {
        return print(Ok(plain(help::of_command(command))), style);
    }
    style = Style {
        usage: command.usage,
        for_file: command.gives_bytes || command.gives_picture,
        ..style
    };
    print(run(command, words, style), style)
}

/// The command of a name.
fn command(name: &Word) -> Result<&'static Command, Failure> {
    COMMANDS.iter().find(|command| name.text() == Some(command.name)).ok_or_else(|| {
        Failure::unusable(format!("no command {}; barrowtide --help lists them", name.name()))
    })
}

/// Text that is no answer of the library.
fn plain(text: String) -> Told {
    let fields = vec![("text", text.as_str().into())];
    Told::text(text, fields)
}

fn run(command: &Command, words: &[Word], style: Style) -> Answer {
    let known = |word: &Word| command.options.iter().any(|option| word.is_option(option));
    let unknown = |word: &&Word| matches!(word, Word::Option(_)) && !known(word);
    if let Some(option) = words.iter().find(unknown) {
        let option = option.name();
        return Err(Failure::unusable(format!("no option {option}; --help lists them")));
    }
    if style.binary && (style.json || !command.gives_bytes) {
        return Err(Failure::unusable("--binary is for a proof that is made, and not with --json"));
    }
    if words.iter().filter(|word| word.is_standard_input()).count() > 1 {
        return Err(Failure::unusable("standard input can be read once only"));
    }
    (command.run)(words)
}
