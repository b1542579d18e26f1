//! What a command answers, and how it is printed.

use std::io::{self, Write};
use std::process::ExitCode;

use barrowtide::hex;

use crate::json::{Fields, Json};
use crate::standard;
use crate::words::Refused;

/// What a command prints.
pub enum Output {
    /// Lines to read.
    Text(String),
    /// A proof: hex on one line, or as it stands with `--binary`.
    Bytes(Vec<u8>),
    /// A picture.
    Svg(String),
    /// Nothing more: it is printed already.
    Printed,
}

/// What a command has found.
pub struct Told {
    /// Whether all of it was accepted.
    pub accepted: bool,
    /// What goes to standard output.
    pub output: Output,
    /// What goes to standard error, to be read beside bytes or a picture.
    pub note: String,
    /// The same for scripts, without bytes and picture.
    pub fields: Fields,
}

impl Told {
    /// An acceptance in lines.
    pub fn text(text: String, fields: Fields) -> Self {
        Self { accepted: true, output: Output::Text(text), note: String::new(), fields }
    }

    /// Another line, and the same for scripts.
    pub fn add(&mut self, line: &str, field: (&'static str, Json)) {
        if let Output::Text(text) = &mut self.output {
            text.push_str(line);
        }
        self.fields.push(field);
    }

    /// An acceptance by a proof.
    pub fn bytes(bytes: Vec<u8>, note: String, fields: Fields) -> Self {
        Self { accepted: true, output: Output::Bytes(bytes), note, fields }
    }
}

/// Why a command has found nothing.
pub enum Failure {
    /// The input was refused. The words go to standard error if bytes or a picture were asked for,
    /// so that no file is made of them.
    Refused(Refused),
    /// What was given can't be used.
    Unusable(String),
    /// The command is not used like that.
    Misused,
}

impl Failure {
    /// A message for who called.
    pub fn unusable(message: impl Into<String>) -> Self {
        Failure::Unusable(message.into())
    }
}

/// What a command answers.
pub type Answer = Result<Told, Failure>;

/// How to print.
#[derive(Clone, Copy, Default)]
pub struct Style {
    /// How the command is used.
    pub usage: &'static str,
    /// For scripts.
    pub json: bool,
    /// Bytes as they stand.
    pub binary: bool,
    /// Whether the command gives bytes or a picture.
    pub for_file: bool,
}

const REFUSED: u8 = 1;
const UNUSABLE: u8 = 2;

/// Prints an answer; the exit status is 0 if all was accepted, 1 if something was refused, and 2 if
/// nothing could be asked or written.
pub fn print(answer: Answer, style: Style) -> ExitCode {
    let (status, out, err) = match answer {
        Ok(Told { output: Output::Printed, accepted, .. }) => {
            (status(accepted), Vec::new(), String::new())
        }
        answer if style.json => {
            let (status, fields) = fields(answer, style.usage);
            (status, format!("{}\n", Json::Object(fields)).into_bytes(), String::new())
        }
        Ok(told) => {
            let out = match told.output {
                Output::Text(text) | Output::Svg(text) => text.into_bytes(),
                Output::Bytes(bytes) if style.binary => bytes,
                Output::Bytes(bytes) => format!("{}\n", hex::encode(&bytes)).into_bytes(),
                Output::Printed => Vec::new(),
            };
            (status(told.accepted), out, told.note)
        }
        Err(Failure::Refused(refused)) if style.for_file => {
            (REFUSED, Vec::new(), format!("{refused}\n"))
        }
        Err(Failure::Refused(refused)) => {
            (REFUSED, format!("{refused}\n").into_bytes(), String::new())
        }
        Err(Failure::Unusable(message)) => (UNUSABLE, Vec::new(), format!("{message}\n")),
        Err(Failure::Misused) => (UNUSABLE, Vec::new(), format!("{}\n", usage(style.usage))),
    };
    // A message that nobody reads is no fault.
    let _ = io::stderr().write_all(err.as_bytes());
    match standard::write(&out) {
        // A reader that has seen enough, as `head`, is none either.
        Err(error) if error.kind() != io::ErrorKind::BrokenPipe => {
            let _ = writeln!(io::stderr(), "standard output: {error}");
            ExitCode::from(UNUSABLE)
        }
        _ => ExitCode::from(status),
    }
}

fn status(accepted: bool) -> u8 {
    if accepted {
        0
    } else {
        REFUSED
    }
}

fn usage(usage: &str) -> String {
    format!("usage: barrowtide {usage}")
}

/// An answer for scripts, with its exit status.
pub fn fields(answer: Answer, used: &str) -> (u8, Fields) {
    match answer {
        Ok(told) => {
            let mut fields: Fields = vec![("accepted", told.accepted.into())];
            fields.extend(told.fields);
            match told.output {
                Output::Text(_) | Output::Printed => {}
                Output::Bytes(bytes) => fields.push(("hex", hex::encode(&bytes).into())),
                Output::Svg(svg) => fields.push(("svg", svg.into())),
            }
            (status(told.accepted), fields)
        }
        Err(Failure::Refused(refused)) => {
            (REFUSED, vec![("accepted", false.into()), ("refusal", refused.json())])
        }
        Err(Failure::Unusable(message)) => (UNUSABLE, vec![("unusable", message.into())]),
        Err(Failure::Misused) => (UNUSABLE, vec![("unusable", usage(used).into())]),
    }
}
