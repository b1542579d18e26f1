//! Running the program `barrowtide` as a person does.
#![allow(dead_code, reason = "each file of tests takes what it needs")]

use std::fs;
use std::io::Write;
use std::path::PathBuf;
use std::process::{Command, Output, Stdio};
use std::thread;

use reference::hex::decode;

pub const PROGRAM: &str = env!("CARGO_BIN_EXE_barrowtide");
pub const DATA: &str = concat!(env!("CARGO_MANIFEST_DIR"), "/../tests/data");
pub const ID: &str = "3ecead27a44d013ad1aae40038acbb1883ac9242406808bb4667c15b4f164eac";
pub const ROOT: &str = "bb6f640cc4ee56bf38eb5a1969ac0c16caa2d3d202b22bf3735d10eec0ca6e00";
/// Exit status, standard output and standard error.
pub type Ran = (Option<i32>, String, String);

pub fn ran(output: Output) -> Ran {
    let text = |bytes| String::from_utf8(bytes).expect("text");
    (output.status.code(), text(output.stdout), text(output.stderr))
}

pub fn command(arguments: &[&str]) -> Command {
    let mut command = Command::new(PROGRAM);
    command.args(arguments).current_dir(DATA);
    command
}

/// Runs the program on files of the test data, or on given paths.
pub fn run(arguments: &[&str]) -> Ran {
    ran(command(arguments).output().expect("the program starts"))
}

/// Runs it with standard input, which it may leave unread.
pub fn run_on(input: &[u8], arguments: &[&str]) -> Ran {
    let mut command = command(arguments);
    command.stdin(Stdio::piped()).stdout(Stdio::piped()).stderr(Stdio::piped());
    let mut child = command.spawn().expect("the program starts");
    let mut stdin = child.stdin.take().expect("piped");
    // Beside reading, as it may answer before it has read all.
    thread::scope(|scope| {
        scope.spawn(move || stdin.write_all(input));
        ran(child.wait_with_output().expect("it ends"))
    })
}

/// Runs it by a shell, which is told of its standard input and output.
pub fn in_shell(words: &str) -> Ran {
    let mut shell = Command::new("sh");
    shell.args(["-c", &format!("\"$PROGRAM\" {words}")]).env("PROGRAM", PROGRAM);
    ran(shell.current_dir(DATA).output().expect("the shell starts"))
}

/// Neither read nor written: of a standard input or output that is closed.
pub fn bad_descriptor(name: &str) -> Ran {
    (Some(2), String::new(), format!("{name}: Bad file descriptor (os error 9)\n"))
}

/// A file of its own for a test.
pub fn file(name: &str, content: impl AsRef<[u8]>) -> String {
    let path = PathBuf::from(env!("CARGO_TARGET_TMPDIR")).join(name);
    fs::write(&path, content).expect("a file for the test");
    path.to_str().expect("a plain path").to_string()
}

pub fn data(name: &str) -> Vec<u8> {
    decode(&fs::read_to_string(format!("{DATA}/{name}")).expect("test data"))
}

#[track_caller]
pub fn accepts(arguments: &[&str], text: &str) {
    assert_eq!(run(arguments), (Some(0), text.to_string(), String::new()), "{arguments:?}");
}

#[track_caller]
pub fn refuses(arguments: &[&str], text: &str) {
    assert_eq!(run(arguments), (Some(1), format!("{text}\n"), String::new()), "{arguments:?}");
}

/// Refused where bytes or a picture were asked for: nothing goes to standard output.
#[track_caller]
pub fn refuses_beside(arguments: &[&str], text: &str) {
    assert_eq!(run(arguments), (Some(1), String::new(), format!("{text}\n")), "{arguments:?}");
}

#[track_caller]
pub fn cannot_use(arguments: &[&str], text: &str) {
    let (status, out, error) = run(arguments);
    assert_eq!((status, out.as_str()), (Some(2), ""), "{arguments:?}");
    assert!(error.contains(text), "{arguments:?}: {error}");
}
