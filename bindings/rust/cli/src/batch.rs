//! Many requests, a line of JSON each, answered in order over all cores.

use std::collections::BTreeMap;
use std::ffi::OsString;
use std::fs::File;
use std::io::{self, BufRead, BufReader, IsTerminal, Read, Write};
use std::panic::{self, AssertUnwindSafe};
use std::sync::{Condvar, Mutex, MutexGuard, PoisonError};
use std::thread;
use std::time::{Duration, Instant};

use crate::answer::{self, Answer, Failure, Output, Style, Told};
use crate::help::Command;
use crate::input::{self, Word};
use crate::json::{Fields, Json};
use crate::standard;
use crate::value::Value;

/// The most bytes of a line: three inputs of the greatest size in hex, and more.
const LONGEST: u64 = 1 << 27;

/// How many answers wait for an earlier one, and how many bytes they may take together.
const WAITING: u64 = 1 << 12;
const WAITING_BYTES: usize = 1 << 26;

/// The stack of a thread; the library takes a part of it at most.
const STACK: usize = 1 << 23;

/// How often the progress is shown.
const PAUSE: Duration = Duration::from_millis(500);

pub fn run(words: &[Word]) -> Answer {
    let (jobs, words) = input::option("--jobs", words)?;
    let jobs = match jobs {
        None => thread::available_parallelism().map_or(1, usize::from),
        Some(word) => match input::number("number of jobs", word)? {
            0 => return Err(Failure::unusable("there must be one job at least")),
            jobs => jobs.min(1 << 10) as usize,
        },
    };
    let from = match words[..] {
        [] => None,
        [word] => Some(word).filter(|word| !word.is_standard_input()),
        _ => return Err(Failure::Misused),
    };
    let name = from.map_or("standard input".to_string(), Word::name);
    let unusable = |error: io::Error| Failure::unusable(format!("{name}: {error}"));
    let file: Box<dyn Read + Send> = match from {
        None => Box::new(standard::input().map_err(unusable)?),
        Some(Word::Plain(path)) => Box::new(File::open(path).map_err(unusable)?),
        Some(_) => return Err(Failure::Misused),
    };
    let requests = Mutex::new(Requests { lines: BufReader::new(file), count: 0 });
    let answers = Answers {
        state: Mutex::new(State {
            next: 0,
            waiting: BTreeMap::new(),
            bytes: 0,
            tally: [0; 3],
            shown: io::stderr().is_terminal().then(Instant::now),
            failed: None,
        }),
        printed: Condvar::new(),
    };
    let read = thread::scope(|scope| {
        let work = || work(&requests, &answers);
        let worker = || thread::Builder::new().stack_size(STACK).spawn_scoped(scope, work);
        let workers: Vec<_> = (0..jobs).map(|_| worker()).collect();
        // With fewer threads than asked for it takes longer; with none nothing would be done.
        let some = workers.iter().any(Result::is_ok);
        let alone = if some { Ok(()) } else { work() };
        let ended = workers.into_iter().flatten().filter_map(|worker| worker.join().ok());
        ended.fold(alone, Result::and)
    });
    let state = answers.lock();
    if state.shown.is_some() {
        state.show("\n");
    }
    match &state.failed {
        // A reader that has seen enough is no fault.
        Some(error) if error.kind() != io::ErrorKind::BrokenPipe => {
            return Err(Failure::unusable(format!("standard output: {error}")));
        }
        _ => read.map_err(unusable)?,
    }
    Ok(Told { output: Output::Printed, ..Told::text(String::new(), Vec::new()) })
}

/// Answers one request after the other, until there are no more or nobody reads the answers.
fn work(requests: &Mutex<Requests>, answers: &Answers) -> io::Result<()> {
    loop {
        if answers.lock().failed.is_some() {
            return Ok(());
        }
        let next = requests.lock().unwrap_or_else(PoisonError::into_inner).next()?;
        let Some((number, line)) = next else { return Ok(()) };
        let (status, answer) = answer_to(number, line);
        answers.put(number, status, format!("{answer}\n").into_bytes());
    }
}

/// The lines as they are read.
struct Requests {
    lines: BufReader<Box<dyn Read + Send>>,
    count: u64,
}

impl Requests {
    /// The next line with its number, counted from 0; of one that is too long nothing is kept.
    fn next(&mut self) -> io::Result<Option<(u64, Option<Vec<u8>>)>> {
        let mut line = Vec::new();
        self.lines.by_ref().take(LONGEST + 1).read_until(b'\n', &mut line)?;
        if line.is_empty() {
            return Ok(None);
        }
        let mut whole = true;
        if line.last() == Some(&b'\n') {
            line.pop();
        } else if line.len() as u64 > LONGEST {
            whole = false;
            self.pass_over()?;
        }
        // A number that is given is answered, or those behind it would wait for ever.
        self.count += 1;
        Ok(Some((self.count - 1, whole.then_some(line))))
    }

    /// Passes over the rest of a line.
    fn pass_over(&mut self) -> io::Result<()> {
        loop {
            let part = self.lines.fill_buf()?;
            let end = part.iter().position(|byte| *byte == b'\n');
            let (passed, ended) = (end.map_or(part.len(), |end| end + 1), part.is_empty());
            self.lines.consume(passed);
            if ended || end.is_some() {
                return Ok(());
            }
        }
    }
}

/// The answers that wait for earlier ones, and those that wait for room.
struct Answers {
    state: Mutex<State>,
    printed: Condvar,
}

struct State {
    /// The number of the answer that is printed next.
    next: u64,
    waiting: BTreeMap<u64, Vec<u8>>,
    bytes: usize,
    /// How many were accepted, refused and unusable.
    tally: [u64; 3],
    /// When the progress was shown last, if somebody sees it.
    shown: Option<Instant>,
    failed: Option<io::Error>,
}

impl Answers {
    fn lock(&self) -> MutexGuard<'_, State> {
        self.state.lock().unwrap_or_else(PoisonError::into_inner)
    }

    /// Prints an answer and those that waited for it, or has it wait in its turn.
    fn put(&self, number: u64, status: u8, answer: Vec<u8>) {
        let mut state = self.lock();
        // The one that comes next never waits, so that the others do not wait for ever.
        while state.failed.is_none()
            && number != state.next
            && (number >= state.next + WAITING || state.bytes >= WAITING_BYTES)
        {
            state = self.printed.wait(state).unwrap_or_else(PoisonError::into_inner);
        }
        if let Some(count) = state.tally.get_mut(usize::from(status)) {
            *count += 1;
        }
        state.bytes += answer.len();
        state.waiting.insert(number, answer);
        state.print();
        drop(state);
        self.printed.notify_all();
    }
}

impl State {
    /// Prints what is in turn.
    fn print(&mut self) {
        let mut ready = Vec::new();
        while let Some(answer) = self.waiting.remove(&self.next) {
            self.next += 1;
            self.bytes -= answer.len();
            ready.extend(answer);
        }
        if let Err(error) = standard::write(&ready) {
            self.failed.get_or_insert(error);
        }
        if self.shown.is_some_and(|shown| shown.elapsed() >= PAUSE) {
            self.show("");
            self.shown = Some(Instant::now());
        }
    }

    fn show(&self, end: &str) {
        let [accepted, refused, unusable] = self.tally;
        let lines = accepted + refused + unusable;
        let _ = write!(
            io::stderr(),
            "\r{lines} lines: {accepted} accepted, {refused} refused, {unusable} unusable{end}"
        );
    }
}

/// The answer to a line, and its exit status if it were a command's.
fn answer_to(number: u64, line: Option<Vec<u8>>) -> (u8, Json) {
    let bad = |what: String| Failure::unusable(format!("line {}: {what}", number + 1));
    let request = match line {
        None => Err(bad(format!("over {LONGEST} bytes"))),
        Some(line) => match String::from_utf8(line) {
            Err(_) => Err(bad("not UTF-8".to_string())),
            Ok(line) => Request::read(&line).map_err(bad),
        },
    };
    let (tag, usage, answer) = match request {
        Err(failure) => (None, "", Err(failure)),
        Ok(Request { tag, command, words }) => {
            let style = Style { json: true, ..Style::default() };
            let run = || words.and_then(|words| crate::run(command, &words, style));
            let answer = panic::catch_unwind(AssertUnwindSafe(run));
            let failed = |_| Err(Failure::unusable("the program failed on this request"));
            (tag, command.usage, answer.unwrap_or_else(failed))
        }
    };
    let (status, told) = answer::fields(answer, usage);
    let mut fields: Fields = tag.map(|tag| ("tag", tag)).into_iter().collect();
    fields.extend(told);
    (status, Json::Object(fields))
}

/// A request.
struct Request {
    /// What comes back with the answer.
    tag: Option<Json>,
    command: &'static Command,
    /// The words, or why one of them can't be used.
    words: Result<Vec<Word>, Failure>,
}

impl Request {
    fn read(line: &str) -> Result<Self, String> {
        let value = Value::read(line).map_err(|what| format!("not JSON: {what}"))?;
        let Value::Object(fields) = value else { return Err("no object".to_string()) };
        let (mut tag, mut command, mut arguments) = (None, None, None);
        for (name, value) in fields {
            let place = match name.as_str() {
                "tag" => &mut tag,
                "command" => &mut command,
                "arguments" => &mut arguments,
                _ => {
                    let name = input::visible(&name);
                    return Err(format!("{name} is none of command, arguments and tag"));
                }
            };
            if place.replace(value).is_some() {
                return Err(format!("{name} stands twice"));
            }
        }
        let tag = match tag {
            None => None,
            Some(Value::Text(text)) => Some(Json::Text(text)),
            Some(Value::Number(number)) => Some(Json::Written(number)),
            Some(_) => return Err("the tag is no text and no number".to_string()),
        };
        let Some(Value::Text(command)) = command else {
            return Err("no command, which is a text".to_string());
        };
        let command = crate::command(&Word::Plain(OsString::from(command)));
        let command = command.map_err(|failure| match failure {
            Failure::Unusable(message) => message,
            _ => String::new(),
        })?;
        if command.name == "batch" {
            return Err("a batch in a batch".to_string());
        }
        let arguments = match arguments {
            None => Vec::new(),
            Some(Value::List(arguments)) => arguments,
            Some(_) => return Err("the arguments are no list".to_string()),
        };
        Ok(Self { tag, command, words: words(arguments) })
    }
}

/// The words of a request, as in the shell, with content where files would be named.
fn words(arguments: Vec<Value>) -> Result<Vec<Word>, Failure> {
    let mut words = Vec::new();
    let mut ended = false;
    for (number, argument) in (1..).zip(arguments) {
        let name = format!("argument {number}");
        let word = match argument {
            Value::Text(text) if text == "--" && !ended => {
                ended = true;
                continue;
            }
            Value::Text(text) if text == "-" => {
                return Err(Failure::unusable(format!("{name}: standard input has the requests")));
            }
            Value::Text(text) => Word::of(OsString::from(text), ended),
            Value::Number(text) => Word::Plain(OsString::from(text)),
            Value::List(lines) => {
                let line = |line: Value| match line {
                    Value::Text(line) => Some(line),
                    _ => None,
                };
                let lines: Option<Vec<String>> = lines.into_iter().map(line).collect();
                let lines = lines.ok_or_else(|| {
                    Failure::unusable(format!("{name}: a list of other than texts"))
                })?;
                Word::lines(name, &lines)
            }
            Value::Object(mut fields) => match (fields.pop(), fields.is_empty()) {
                (Some((key, Value::Text(digits))), true) if key == "hex" => {
                    Word::hex(name, &digits)?
                }
                _ => return Err(Failure::unusable(format!("{name}: an object without hex alone"))),
            },
            Value::Null | Value::Bool(_) => {
                return Err(Failure::unusable(format!("{name}: no text, number, list or object")));
            }
        };
        words.push(word);
    }
    Ok(words)
}
