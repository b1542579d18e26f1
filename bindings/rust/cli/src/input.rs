//! Words of a command, and the files that they name.

use std::ffi::{OsStr, OsString};
use std::fmt::Display;
use std::fs::{self, File};
use std::io::{self, Read};
use std::path::Path;
use std::sync::{Arc, Mutex, PoisonError};
use std::time::SystemTime;

use barrowtide::{Hash, MAX_INPUT, MAX_PARTS};

use crate::answer::Failure;
use crate::standard;

/// The most that is read of a file: hex with two characters of white space after each byte.
const MOST: u64 = 4 * (MAX_INPUT as u64 + 1);

/// A word of a command.
#[derive(Clone, PartialEq, Eq)]
pub enum Word {
    /// An option.
    Option(String),
    /// Anything else: a file's name, an id, a number.
    Plain(OsString),
    /// What a file would hold, given in its place, and what it is called; text is hex or a list.
    Content { name: String, bytes: Vec<u8>, text: bool },
}

impl Word {
    /// The words of a command line. After `--` no word is an option, and neither is a number below 0.
    pub fn line(words: impl Iterator<Item = OsString>) -> Vec<Self> {
        let mut ended = false;
        let mut line = Vec::new();
        for word in words {
            if !ended && word == "--" {
                ended = true;
            } else {
                line.push(Self::of(word, ended));
            }
        }
        line
    }

    /// A word, before or after the end of the options.
    pub fn of(word: OsString, ended: bool) -> Self {
        if !ended && looks_like_option(&word) {
            Word::Option(word.to_string_lossy().into_owned())
        } else {
            Word::Plain(word)
        }
    }

    /// Lines in place of a file.
    pub fn lines(name: String, lines: &[String]) -> Self {
        Word::Content { name, bytes: lines.join("\n").into_bytes(), text: true }
    }

    /// Bytes in place of a file, given in hex.
    pub fn hex(name: String, digits: &str) -> Result<Self, Failure> {
        let text = Word::Content { name, bytes: Vec::new(), text: true };
        let mut read = Digits::NONE;
        let bytes = read.decode(&text, digits.as_bytes())?;
        read.end(&text)?;
        Ok(Word::Content { name: text.name(), bytes, text: false })
    }

    /// The word as text; what is given in a file's place has none.
    pub fn text(&self) -> Option<&str> {
        match self {
            Word::Option(text) => Some(text),
            Word::Plain(word) => word.to_str(),
            Word::Content { .. } => None,
        }
    }

    pub fn is_option(&self, name: &str) -> bool {
        matches!(self, Word::Option(text) if text == name)
    }

    pub fn is_standard_input(&self) -> bool {
        matches!(self, Word::Plain(word) if word == "-")
    }

    /// What a person calls it.
    pub fn name(&self) -> String {
        match self {
            Word::Plain(word) if word == "-" => "standard input".to_string(),
            Word::Plain(word) => visible(&word.to_string_lossy()),
            Word::Option(text) => visible(text),
            Word::Content { name, .. } => name.clone(),
        }
    }

    fn open(&self) -> io::Result<Box<dyn Read + '_>> {
        Ok(match self {
            Word::Plain(word) if word == "-" => Box::new(standard::input()?.lock()),
            Word::Plain(word) => Box::new(File::open(word)?),
            Word::Option(text) => Box::new(File::open(text)?),
            Word::Content { bytes, .. } => Box::new(&bytes[..]),
        })
    }

    /// Why it can't be used.
    fn unusable(&self, why: impl Display) -> Failure {
        Failure::unusable(format!("{}: {why}", self.name()))
    }
}

fn looks_like_option(word: &OsStr) -> bool {
    match word.as_encoded_bytes() {
        [b'-', rest @ ..] => !rest.is_empty() && !rest.iter().all(u8::is_ascii_digit),
        _ => false,
    }
}

/// How much of a file is read at once.
const PART: u64 = 1 << 16;

/// A file that is read part by part.
struct Parts<'a> {
    word: &'a Word,
    file: Box<dyn Read + 'a>,
    /// How many bytes came, and how many may.
    came: u64,
    most: u64,
}

impl<'a> Parts<'a> {
    fn open(word: &'a Word, most: u64) -> Result<Self, Failure> {
        let file = word.open().map_err(|error| word.unusable(error))?;
        Ok(Self { word, file, came: 0, most })
    }

    /// The next part; there is none if it is empty.
    fn next(&mut self) -> Result<Vec<u8>, Failure> {
        let mut part = Vec::new();
        let done = self.file.by_ref().take(PART).read_to_end(&mut part);
        done.map_err(|error| self.word.unusable(error))?;
        if self.came == 0 && part.is_empty() && self.word.is_standard_input() {
            let why = "nothing came; perhaps the command before it failed";
            return Err(self.word.unusable(why));
        }
        self.came += part.len() as u64;
        if self.came > self.most {
            return Err(self.word.unusable(format_args!("over {} bytes", self.most)));
        }
        Ok(part)
    }
}

/// The bytes of a file, in hex or as it stands, beside which nothing is kept but the part that is
/// read. What looks like text must be hex: no proof, transaction or bundle looks so.
pub fn bytes(word: &Word) -> Result<Vec<u8>, Failure> {
    let mut bytes = Vec::new();
    decoded(word, MOST, |part| {
        bytes.extend_from_slice(part);
        true
    })?;
    Ok(bytes)
}

/// The most characters of a file that is handed over part by part.
const MOST_IN_PARTS: u64 = 4 * (MAX_PARTS + 1);

/// Hands the bytes of a file over part by part, as long as more are wanted.
pub fn in_parts(word: &Word, wants_more: impl FnMut(&[u8]) -> bool) -> Result<(), Failure> {
    decoded(word, MOST_IN_PARTS, wants_more)
}

/// The same. Hex is decoded as it comes; a file is in hex if its first part looks like text.
fn decoded(
    word: &Word,
    most: u64,
    mut wants_more: impl FnMut(&[u8]) -> bool,
) -> Result<(), Failure> {
    let mut parts = Parts::open(word, most)?;
    let mut part = parts.next()?;
    let mut digits = Digits::of(word, &part)?;
    while !part.is_empty() {
        if let Some(digits) = &mut digits {
            part = digits.decode(word, &part)?;
        }
        if !wants_more(&part) {
            return Ok(());
        }
        part = parts.next()?;
    }
    digits.map_or(Ok(()), |digits| digits.end(word))
}

/// Hex digits as they come, white space between them left out.
struct Digits {
    /// The first digit of a byte whose second is to come.
    high: Option<u32>,
    /// The line that the next one is in, and how many came of it.
    line: u64,
    column: u64,
}

impl Digits {
    /// No digits yet.
    const NONE: Self = Self { high: None, line: 1, column: 0 };

    /// The same, if the first bytes of a file look like text.
    fn of(word: &Word, bytes: &[u8]) -> Result<Option<Self>, Failure> {
        let is_text = match word {
            Word::Content { text, .. } => *text,
            _ => is_text(bytes),
        };
        if !is_text {
            return Ok(None);
        }
        plain_text(word, bytes)?;
        Ok(Some(Self::NONE))
    }

    /// The bytes that these characters complete.
    fn decode(&mut self, word: &Word, text: &[u8]) -> Result<Vec<u8>, Failure> {
        let mut bytes = Vec::with_capacity(text.len() / 2 + 1);
        for (index, &byte) in text.iter().enumerate() {
            self.column += 1;
            if byte == b'\n' {
                self.line += 1;
                self.column = 0;
            }
            if byte.is_ascii_whitespace() {
                continue;
            }
            let Some(digit) = char::from(byte).to_digit(16) else {
                let (name, other) = (word.name(), seen(&text[index..]));
                let (line, at) = (self.line, self.column);
                return Err(Failure::unusable(format!(
                    "{name}, line {line}: text that is not hex: {other} at character {at}"
                )));
            };
            match self.high.take() {
                None => self.high = Some(digit),
                Some(high) => bytes.push((high << 4 | digit) as u8),
            }
        }
        Ok(bytes)
    }

    /// Asks that the last byte is whole.
    fn end(&self, word: &Word) -> Result<(), Failure> {
        match self.high {
            Some(_) => Err(word.unusable("an odd number of hex digits, so one is lost")),
            None => Ok(()),
        }
    }
}

/// Whether the first bytes of a file look like text: without control characters, or mostly hex
/// digits, from the start on.
fn is_text(bytes: &[u8]) -> bool {
    let visible = |text: &str| !text.contains(|c: char| c.is_control() && !c.is_whitespace());
    // The last character may be cut.
    let whole = match std::str::from_utf8(bytes) {
        Err(error) if error.error_len().is_none() => &bytes[..error.valid_up_to()],
        _ => bytes,
    };
    std::str::from_utf8(whole).is_ok_and(visible)
        || mostly_digits(bytes) && mostly_digits(&bytes[..bytes.len().min(32)])
        || utf16(bytes)
}

fn mostly_digits(bytes: &[u8]) -> bool {
    let digit = |byte: &&u8| byte.is_ascii_hexdigit() || byte.is_ascii_whitespace();
    4 * bytes.iter().filter(digit).count() > 3 * bytes.len()
}

/// Whether bytes look like text in UTF-16: after a byte order mark, which may be left out, mostly
/// characters that have a byte of their own and another that is 0.
fn utf16(bytes: &[u8]) -> bool {
    let text = |byte: u8| byte.is_ascii_graphic() || byte.is_ascii_whitespace();
    let narrow = |pair: &&[u8]| match **pair {
        [one, 0] | [0, one] => text(one),
        _ => false,
    };
    bytes.len() >= 16 && 8 * bytes.chunks(2).filter(narrow).count() > 3 * bytes.len()
}

/// Asks that text is in a plain encoding, as some editors don't save it.
fn plain_text(word: &Word, bytes: &[u8]) -> Result<(), Failure> {
    let what = if utf16(bytes) {
        "text in UTF-16"
    } else if bytes.starts_with("\u{feff}".as_bytes()) {
        "a byte order mark before the text"
    } else {
        return Ok(());
    };
    let save = "save it as UTF-8 without a byte order mark, or as ASCII";
    Err(word.unusable(format_args!("{what}; {save}")))
}

/// The first character of a text that is not empty, as a person can see it.
fn seen(text: &[u8]) -> String {
    let start = &text[..text.len().min(4)];
    match String::from_utf8_lossy(start).chars().next() {
        None | Some(char::REPLACEMENT_CHARACTER) => format!("the byte {:02x}", text[0]),
        Some(other @ ' '..='~') => format!("'{other}'"),
        Some(other) => format!("U+{:04X}", u32::from(other)),
    }
}

/// The first character of a line that is not a hex digit, and which of the line it is, counted
/// from 1.
fn stray(line: &[u8]) -> Option<(usize, String)> {
    // All before it are of one byte.
    let at = line.iter().position(|byte| !byte.is_ascii_hexdigit())?;
    Some((at + 1, seen(&line[at..])))
}

/// Hands the lines of a file of plain text over, with their numbers from 1 on; empty ones and those
/// that start with `#` are passed over. Of a line that is too long for a list its beginning is handed
/// over, and that is the last.
fn lines(
    word: &Word,
    mut take: impl FnMut(u64, &[u8]) -> Result<(), Failure>,
) -> Result<(), Failure> {
    let mut hand_over = |number: u64, line: &[u8]| match line.trim_ascii() {
        [] | [b'#', ..] => Ok(()),
        _ => take(number, line),
    };
    let mut parts = Parts::open(word, MOST)?;
    let mut part = parts.next()?;
    plain_text(word, &part)?;
    let (mut number, mut line) = (1, Vec::new());
    while !part.is_empty() {
        let mut pieces = part.split(|byte| *byte == b'\n');
        line.extend_from_slice(pieces.next().unwrap_or_default());
        for piece in pieces {
            hand_over(number, &line)?;
            number += 1;
            line.clear();
            line.extend_from_slice(piece);
        }
        if line.len() as u64 > PART {
            break;
        }
        part = parts.next()?;
    }
    hand_over(number, &line)
}

/// A list of a file, by its name, length and time.
struct List {
    path: OsString,
    seen: (u64, Option<SystemTime>),
    hashes: Arc<[Hash]>,
}

/// The list that was read last: a batch names one list in many requests.
static LAST: Mutex<Option<List>> = Mutex::new(None);

/// The ids or roots of a file, one on a line in printed order, behind which a comment may stand;
/// empty lines and those that start with `#` are passed over. A file that is named again at once and
/// has not changed is not read again.
pub fn hashes(word: &Word) -> Result<Arc<[Hash]>, Failure> {
    let last = || LAST.lock().unwrap_or_else(PoisonError::into_inner);
    let file = match word {
        Word::Plain(path) if path != "-" => {
            fs::metadata(path).ok().filter(fs::Metadata::is_file).map(|file| {
                let seen = (file.len(), file.modified().ok());
                (path, seen)
            })
        }
        _ => None,
    };
    let Some((path, seen)) = file else { return read_hashes(word).map(Arc::from) };
    if let Some(list) = last().as_ref().filter(|list| (&list.path, list.seen) == (path, seen)) {
        return Ok(Arc::clone(&list.hashes));
    }
    let hashes: Arc<[Hash]> = read_hashes(word)?.into();
    *last() = Some(List { path: path.clone(), seen, hashes: Arc::clone(&hashes) });
    Ok(hashes)
}

fn read_hashes(word: &Word) -> Result<Vec<Hash>, Failure> {
    // Who has one root only may well give it in the file's place.
    if let Word::Plain(path) = word {
        let is_hash = word.text().is_some_and(|text| text.trim().parse::<Hash>().is_ok());
        if is_hash && !Path::new(path).exists() {
            return Err(word.unusable("no such file; roots or ids stand in a file, one on a line"));
        }
    }
    let mut hashes = Vec::new();
    lines(word, |number, line| {
        let before = line.split(|byte| *byte == b'#').next().unwrap_or_default().trim_ascii();
        let text = String::from_utf8_lossy(before);
        let Ok(hash) = text.parse() else {
            let at = format!("{}, line {number}", word.name());
            let stray = stray(before)
                .map_or_else(String::new, |(at, other)| format!(", but {other} at character {at}"));
            let message = format!("{at}: not 64 hex digits{stray}: {}", shown(&text));
            return Err(Failure::unusable(message));
        };
        hashes.push(hash);
        Ok(())
    })?;
    Ok(hashes)
}

/// Transactions: of several files one each, or of one file in hex one on each line, where empty
/// lines and those that start with `#` are passed over.
pub fn transactions(words: &[&Word]) -> Result<Vec<Vec<u8>>, Failure> {
    let [word] = words else {
        return words.iter().map(|word| bytes(word)).collect();
    };
    let mut parts = Parts::open(word, MOST)?;
    let mut part = parts.next()?;
    let Some(digits) = Digits::of(word, &part)? else {
        let mut content = Vec::new();
        while !part.is_empty() {
            content.extend(part);
            part = parts.next()?;
        }
        return Ok(vec![content]);
    };
    let mut transactions = Vec::new();
    let mut line = HexLine { digits, bytes: Vec::new(), kind: None };
    while !part.is_empty() {
        for (index, piece) in part.split(|byte| *byte == b'\n').enumerate() {
            if index > 0 {
                transactions.extend(line.end(word)?);
            }
            line.take(word, piece)?;
        }
        part = parts.next()?;
    }
    transactions.extend(line.end(word)?);
    Ok(transactions)
}

/// A line of hex as it comes.
struct HexLine {
    digits: Digits,
    bytes: Vec<u8>,
    /// Whether it is a comment; nothing is known while only blanks came.
    kind: Option<bool>,
}

impl HexLine {
    fn take(&mut self, word: &Word, piece: &[u8]) -> Result<(), Failure> {
        let first = piece.trim_ascii_start().first();
        let comment = *match self.kind {
            None => self.kind.insert(match first {
                None => {
                    self.digits.column += piece.len() as u64;
                    return Ok(());
                }
                Some(first) => *first == b'#',
            }),
            Some(ref comment) => comment,
        };
        if !comment {
            self.bytes.extend(self.digits.decode(word, piece)?);
        }
        Ok(())
    }

    /// What the line holds; the next one begins.
    fn end(&mut self, word: &Word) -> Result<Option<Vec<u8>>, Failure> {
        self.digits.end(word)?;
        self.digits = Digits { line: self.digits.line + 1, ..Digits::NONE };
        let bytes = std::mem::take(&mut self.bytes);
        Ok((self.kind.take() == Some(false)).then_some(bytes))
    }
}

/// An id given on the command line.
pub fn id(word: &Word) -> Result<Hash, Failure> {
    let text = word.text().unwrap_or_default();
    text.trim().parse().map_err(|_| {
        let shown = shown(&word.name());
        Failure::unusable(format!("not an id, which is 64 hex digits: {shown}"))
    })
}

/// The value of an option, if it is given, and the other words.
pub fn option<'a>(
    name: &str,
    words: impl IntoIterator<Item = &'a Word>,
) -> Result<(Option<&'a Word>, Vec<&'a Word>), Failure> {
    let (mut value, mut others) = (None, Vec::new());
    let mut words = words.into_iter();
    while let Some(word) = words.next() {
        if !word.is_option(name) {
            others.push(word);
        } else if value.is_some() {
            return Err(Failure::Misused);
        } else {
            value = Some(words.next().ok_or(Failure::Misused)?);
        }
    }
    Ok((value, others))
}

/// Whether an option without a value is given, which is taken out.
pub fn flag(name: &str, words: &mut Vec<&Word>) -> bool {
    let before = words.len();
    words.retain(|word| !word.is_option(name));
    words.len() < before
}

/// A number given on the command line.
pub fn number(what: &str, word: &Word) -> Result<u64, Failure> {
    number_of(what, &word.name())
}

fn number_of(what: &str, text: &str) -> Result<u64, Failure> {
    let digits = text.trim();
    let number = if digits.starts_with('+') { None } else { digits.parse().ok() };
    number.ok_or_else(|| {
        Failure::unusable(format!("not a {what}: {}; it is a number from 0 on", shown(text)))
    })
}

/// Numbers given in a word, with commas between them; an empty word has none.
pub fn numbers(what: &str, word: &Word) -> Result<Vec<u64>, Failure> {
    let text = word.name();
    if text.is_empty() {
        return Ok(Vec::new());
    }
    text.split(',').map(|one| number_of(what, one)).collect()
}

/// The beginning of a text, fit for a line of a message.
fn shown(text: &str) -> String {
    let mut shown: String = visible(text).chars().take(70).collect();
    if text.chars().nth(70).is_some() {
        shown.push_str("..");
    }
    shown
}

/// A text without what would move a terminal's cursor, colour its lines or turn them round.
pub fn visible(text: &str) -> String {
    let hidden = |c: char| {
        c.is_control()
            || matches!(c, '\u{200e}' | '\u{200f}' | '\u{2028}'..='\u{202e}' | '\u{2066}'..='\u{2069}')
    };
    text.chars().map(|c| if hidden(c) { '?' } else { c }).collect()
}
