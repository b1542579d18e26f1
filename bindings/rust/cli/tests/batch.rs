//! Many requests at once: every command as by itself, in order, whatever the lines hold.

#[path = "common/program.rs"]
mod program;

use std::fs;
use std::io::{BufRead, BufReader, Read, Write};
use std::process::{Child, Command, Stdio};
use std::sync::atomic::{AtomicU64, Ordering};
use std::thread;
use std::time::Duration;

use program::{bad_descriptor, cannot_use, command, data, file, in_shell, run, run_on};
use program::{Ran, DATA, ID, PROGRAM, ROOT};
use reference::hex::encode;

/// Runs a batch over lines.
fn batch(lines: &str, words: &[&str]) -> Ran {
    run_on(lines.as_bytes(), &[&["batch"][..], words].concat())
}

fn texts(words: &[&str]) -> String {
    let words: Vec<String> = words.iter().map(|word| format!("\"{word}\"")).collect();
    words.join(",")
}

/// A request with words as in the shell.
fn request(words: &[&str]) -> String {
    format!("{{\"command\":\"{}\",\"arguments\":[{}]}}\n", words[0], texts(&words[1..]))
}

/// Each command with files, accepted, refused or unusable.
const SAMPLES: [&[&str]; 21] = [
    &["judge", "004-bundle.hex", "004-roots.txt"],
    &["judge", "004-bundle.hex", "004-roots.txt", "--fee", "2", "--cost"],
    &["prove", "bump", "004-bump.hex", ID],
    &["prove", "tsc", "000-proof.hex"],
    &["prove", "beef", "004-bundle.hex", ID],
    &["clients", "004-bump-gap.hex"],
    &["list", "beef", "004-bundle.hex"],
    &["list", "transaction", "004-transaction.hex"],
    &["extract", "tx", "1", "004-bundle.hex"],
    &["index", "004-bump.hex"],
    &["compare", "tsc", "000-proof.hex", "tsc", "000-proof.hex"],
    &["write", "814435", "ids.txt", "1", "4"],
    &["page", "ids-bump.hex", "ids.txt"],
    &["convert", "to-tsc", "004-bump.hex", ID],
    &["order", "004-set.hex", "--check", "0,1"],
    &["diff", "004-bump.hex", "004-bump-gap.hex"],
    &["shorter", "004-bump-surplus.hex", "004-bump.hex", ID],
    &["merge", "004-bump.hex", "004-bump.hex"],
    &["draw", "004-bump.hex", ID],
    &["list", "bump", "no such file"],
    &["write", "814435", "ids.txt", "-1"],
];

/// Every command says what it says with --json, one line after the other, however many threads.
#[test]
fn as_one_by_one() {
    let single: Vec<String> =
        SAMPLES.iter().map(|words| run(&[&["--json"][..], words].concat()).1).collect();
    let rounds = 40;
    let lines = SAMPLES.map(request).concat().repeat(rounds);
    let expected = single.concat().repeat(rounds);
    for jobs in ["1", "2", "7"] {
        let (status, text, error) = batch(&lines, &["--jobs", jobs]);
        assert!(text == expected, "{jobs} jobs: other answers, or in another order");
        assert_eq!((status, error.as_str()), (Some(0), ""));
    }
    let path = file("batch.jsonl", &lines);
    assert!(run(&["batch", &path]).1 == expected);
    assert!(batch(&lines, &["-"]).1 == expected);
    // The last line may lack its end.
    assert!(batch(lines.trim_end(), &[]).1 == expected);
}

/// Inputs in hex and lists of lines say what files say.
#[test]
fn content_in_place_of_files() {
    let hex = |name: &str| format!("{{\"hex\":\"{}\"}}", encode(&data(name)));
    let lines = |name: &str| {
        let text = fs::read_to_string(format!("{DATA}/{name}")).expect("test data");
        format!("[{}]", texts(&text.lines().collect::<Vec<_>>()))
    };
    let (bundle, bump, roots) =
        (hex("004-bundle.hex"), hex("004-bump.hex"), lines("004-roots.txt"));
    let ids = lines("ids.txt");
    let set = lines("004-set.hex");
    for (command, arguments, words) in [
        ("judge", format!("{bundle},{roots}"), &["004-bundle.hex", "004-roots.txt"][..]),
        (
            "judge",
            format!("\"--fee\",1,{bundle},\"004-roots.txt\""),
            &["004-bundle.hex", "004-roots.txt", "--fee", "1"],
        ),
        ("prove", format!("\"bump\",{bump},\"{ID}\""), &["bump", "004-bump.hex", ID]),
        ("write", format!("814435,{ids},1,4"), &["814435", "ids.txt", "1", "4"]),
        ("order", set.clone(), &["004-set.hex"]),
        ("merge", format!("{bump},\"004-bump.hex\""), &["004-bump.hex", "004-bump.hex"]),
        (
            "list",
            format!("\"beef\",[\"{}\"]", encode(&data("004-bundle.hex"))),
            &["beef", "004-bundle.hex"],
        ),
        ("list", "\"--\",\"bump\",\"004-bump.hex\"".to_string(), &["bump", "004-bump.hex"]),
    ] {
        let line = format!(" {{ \"arguments\" : [{arguments}], \"command\": \"{command}\" }}\r\n");
        let expected = run(&[&["--json", command], words].concat());
        assert_eq!(batch(&line, &[]), (Some(0), expected.1, String::new()), "{line}");
    }
    // Bytes given in hex are not taken for text, though these look like hex once more.
    let (_, text, _) =
        batch("{\"command\":\"list\",\"arguments\":[\"bump\",{\"hex\":\"3030\"}]}", &[]);
    assert!(text.starts_with("{\"accepted\":false,\"refusal\":{\"number\":2,"), "{text}");
}

#[test]
fn lines_that_are_no_requests() {
    let good = request(&["clients", "004-bump.hex"]);
    let told = format!("{{\"accepted\":true,\"clients\":1,\"root\":\"{ROOT}\"}}\n");
    let clients =
        |arguments: &str| format!("{{\"command\":\"clients\",\"arguments\":{arguments}}}");
    for (line, words) in [
        (String::new(), "line 2: not JSON: no JSON value at byte 1"),
        ("nonsense".to_string(), "line 2: not JSON: no JSON value at byte 1"),
        ("[]".to_string(), "line 2: no object"),
        ("{}".to_string(), "line 2: no command, which is a text"),
        ("{\"command\":7}".to_string(), "line 2: no command, which is a text"),
        ("{\"command\":\"clients\",\"file\":\"x\"}".to_string(), "file is none of command,"),
        ("{\"command\":\"clients\",\"command\":\"list\"}".to_string(), "command stands twice"),
        ("{\"command\":\"frob\\u001b\"}".to_string(), "line 2: no command frob?; barrowtide"),
        ("{\"command\":\"batch\"}".to_string(), "line 2: a batch in a batch"),
        ("{\"command\":\"clients\",\"tag\":[]}".to_string(), "the tag is no text and no number"),
        (clients("{}"), "line 2: the arguments are no list"),
        (clients("[]"), "usage: barrowtide clients BUMP"),
        (clients("[null]"), "argument 1: no text, number, list or object"),
        (clients("[{\"hex\":7}]"), "argument 1: an object without hex alone"),
        (clients("[{\"hex\":\"00\",\"text\":\"\"}]"), "argument 1: an object without hex alone"),
        (
            clients("[{\"hex\":\"0g\"}]"),
            "argument 1, line 1: text that is not hex: 'g' at character 2",
        ),
        (clients("[{\"hex\":\"012\"}]"), "argument 1: an odd number of hex digits"),
        (clients("[[7]]"), "argument 1: a list of other than texts"),
        (clients("[\"-\"]"), "argument 1: standard input has the requests"),
        (clients("[\"--jobs\",\"2\"]"), "no option --jobs"),
        (clients("[\"--json\",\"004-bump.hex\"]"), "no option --json"),
    ] {
        let (status, text, error) = batch(&format!("{good}{line}\n{good}"), &[]);
        let lines: Vec<&str> = text.lines().collect();
        assert_eq!((status, error.as_str(), lines.len()), (Some(0), "", 3), "{text}");
        assert_eq!([lines[0], lines[2]], [told.trim_end(); 2], "{text}");
        let start = lines[1].starts_with("{\"unusable\":\"");
        assert!(start && lines[1].contains(words), "{line}: {}", lines[1]);
    }
    let mixed = [good.as_bytes(), b"\xff\xfe\n", good.as_bytes()].concat();
    let (_, text, _) = run_on(&mixed, &["batch"]);
    assert_eq!(text, format!("{told}{{\"unusable\":\"line 2: not UTF-8\"}}\n{told}"));

    assert_eq!(batch("", &[]), (Some(0), String::new(), String::new()));
    cannot_use(&["batch", "no such file"], "no such file: ");
    cannot_use(&["batch", DATA], "directory");
    cannot_use(&["batch", "--jobs", "0"], "one job at least");
    cannot_use(&["batch", "--jobs", "many"], "not a number of jobs: many");
    cannot_use(&["batch", "one", "two"], "usage: barrowtide batch");
}

/// A tag comes back, whatever the answer is.
#[test]
fn tags() {
    let tagged = |tag: &str, name: &str| {
        format!("{{\"tag\":{tag},\"command\":\"clients\",\"arguments\":[\"{name}\"]}}\n")
    };
    let lines = [
        tagged("\"a \\\"b\\\"\"", "004-bump.hex"),
        tagged("18446744073709551615", "004-bump-gap.hex"),
        tagged("-1.5e3", "no such file"),
    ];
    let (_, text, _) = batch(&lines.concat(), &[]);
    let starts = [
        "{\"tag\":\"a \\\"b\\\"\",\"accepted\":true,",
        "{\"tag\":18446744073709551615,\"accepted\":false,",
        "{\"tag\":-1.5e3,\"unusable\":\"no such file: ",
    ];
    for (line, start) in text.lines().zip(starts) {
        assert!(line.starts_with(start), "{line}");
    }
    assert_eq!(text.lines().count(), 3);
}

fn spawn(command: &mut Command) -> Child {
    command.stdin(Stdio::piped()).stdout(Stdio::piped()).stderr(Stdio::piped());
    command.spawn().expect("the program starts")
}

/// An answer comes as soon as it is there, so that a program can wait for it.
#[test]
fn one_question_after_the_other() {
    let mut child = spawn(&mut command(&["batch"]));
    let mut stdin = child.stdin.take().expect("piped");
    let mut answers = BufReader::new(child.stdout.take().expect("piped")).lines();
    for tag in 0..20 {
        writeln!(stdin, "{{\"tag\":{tag},\"command\":\"list\",\"arguments\":[]}}")
            .expect("it reads");
        let answer = answers.next().expect("an answer").expect("text");
        assert!(answer.starts_with(&format!("{{\"tag\":{tag},\"unusable\":\"usage")), "{answer}");
    }
    drop(stdin);
    assert!(answers.next().is_none());
    assert_eq!(child.wait().expect("it ends").code(), Some(0));
}

/// The first request waits for a pipe. The others are answered meanwhile, but only so many of them;
/// then all come in order.
#[test]
fn a_window_of_lines() {
    let pipe = format!("{}/slow-pipe-{}", env!("CARGO_TARGET_TMPDIR"), std::process::id());
    assert!(Command::new("mkfifo").arg(&pipe).status().expect("mkfifo").success());
    let count = 30_000;
    let mut child = spawn(&mut command(&["batch", "--jobs", "3"]));
    let mut stdin = child.stdin.take().expect("piped");
    let mut stdout = child.stdout.take().expect("piped");
    let written = AtomicU64::new(0);
    let (taken, text) = thread::scope(|scope| {
        scope.spawn(|| {
            stdin.write_all(request(&["clients", &pipe]).as_bytes()).expect("it reads");
            for tag in 0..count {
                let line = format!("{{\"tag\":{tag},\"command\":\"list\",\"arguments\":[]}}\n");
                stdin.write_all(line.as_bytes()).expect("it reads");
                written.fetch_add(1, Ordering::Relaxed);
            }
            drop(stdin);
        });
        let reader = scope.spawn(|| {
            let mut text = String::new();
            stdout.read_to_string(&mut text).expect("text");
            text
        });
        // Until no more lines are taken, for a second.
        let (mut taken, mut same) = (0, 0);
        while same < 10 {
            thread::sleep(Duration::from_millis(100));
            let now = written.load(Ordering::Relaxed);
            same = if now > 0 && now == taken { same + 1 } else { 0 };
            taken = now;
        }
        fs::write(&pipe, data("004-bump.hex")).expect("the pipe is read");
        (taken, reader.join().expect("the answers are read"))
    });
    fs::remove_file(&pipe).expect("it was made");
    assert!((4_096..count).contains(&taken), "{taken} lines are taken");
    assert_eq!(child.wait().expect("it ends").code(), Some(0));
    let mut lines = text.lines();
    assert!(lines.next().expect("an answer").starts_with("{\"accepted\":true,\"clients\":1,"));
    for tag in 0..count {
        let line = lines.next().expect("an answer");
        assert!(line.starts_with(&format!("{{\"tag\":{tag},")), "{line}");
    }
    assert_eq!(lines.next(), None);
}

/// Runs a command of the program in a shell that lends it so many KiB of memory.
fn limited(kilobytes: u32, words: &str) -> Child {
    let script = format!("ulimit -v {kilobytes}; exec \"$PROGRAM\" {words}");
    let mut shell = Command::new("sh");
    shell.args(["-c", &script]).env("PROGRAM", PROGRAM).env("MALLOC_ARENA_MAX", "2");
    spawn(shell.current_dir(DATA))
}

/// More bytes than there is memory, and a line that is too long.
#[test]
fn bounded_memory() {
    let mut child = limited(600_000, "batch --jobs 2");
    let mut stdin = child.stdin.take().expect("piped");
    let good = request(&["clients", "004-bump.hex"]);
    let long = format!(
        "{{\"command\":\"clients\",\"arguments\":[{{\"hex\":\"{}\"}}]}}\n",
        "00".repeat(500_000)
    );
    let reader = thread::spawn(move || child.wait_with_output().expect("it ends"));
    for _ in 0..700 {
        stdin.write_all(long.as_bytes()).expect("it reads");
    }
    let part = vec![b'x'; 1 << 20];
    for _ in 0..129 {
        stdin.write_all(&part).expect("it reads");
    }
    stdin.write_all(format!("\n{good}").as_bytes()).expect("it reads");
    drop(stdin);
    let output = reader.join().expect("it ends");
    let text = String::from_utf8(output.stdout).expect("text");
    let lines: Vec<&str> = text.lines().collect();
    assert_eq!((output.status.code(), lines.len()), (Some(0), 702));
    assert!(
        lines[..700].iter().all(|line| line.contains("\"name\":\"BAD_HEIGHT\"")),
        "{}",
        lines[0]
    );
    assert_eq!(lines[700], "{\"unusable\":\"line 701: over 134217728 bytes\"}");
    assert!(lines[701].starts_with("{\"accepted\":true,\"clients\":1,"), "{}", lines[701]);
}

/// Hex takes no more memory than the bytes.
#[test]
fn hex_in_constant_memory() {
    let mut child = limited(50_000, "list beef -");
    let mut stdin = child.stdin.take().expect("piped");
    stdin.write_all(b"0100beef\n").expect("it reads");
    let part = "00".repeat(1 << 16);
    for _ in 0..255 {
        stdin.write_all(part.as_bytes()).expect("it reads");
    }
    drop(stdin);
    let output = child.wait_with_output().expect("it ends");
    let text = String::from_utf8_lossy(&output.stdout);
    assert!(text.starts_with("refused 12 EMPTY at byte 5: "), "{text}");
}

/// A reader that has seen enough ends the run, without a word.
#[test]
fn closed_output() {
    let mut child = spawn(&mut command(&["batch"]));
    drop(child.stdout.take());
    let mut stdin = child.stdin.take().expect("piped");
    let line = request(&["clients", "004-bump.hex"]);
    let ended = (0..100_000).any(|_| stdin.write_all(line.as_bytes()).is_err());
    assert!(ended, "it still reads");
    let output = child.wait_with_output().expect("it ends");
    assert_eq!((output.status.code(), output.stderr.as_slice()), (Some(0), &b""[..]));
    let full = fs::File::options().write(true).open("/dev/full").expect("a full device");
    let mut child = command(&["batch"]);
    let child = child.stdin(Stdio::piped()).stdout(full).stderr(Stdio::piped());
    let mut child = child.spawn().expect("the program starts");
    child.stdin.take().expect("piped").write_all(line.as_bytes()).expect("it reads");
    let output = child.wait_with_output().expect("it ends");
    assert_eq!(output.status.code(), Some(2));
    assert!(output.stderr.starts_with(b"standard output: "));

    let requests = file("one-request.jsonl", line);
    let closed = in_shell(&format!("batch '{requests}' >&-"));
    assert_eq!(closed, bad_descriptor("standard output"));
    for words in ["batch <&-", "batch - <&-", "batch - 0>/dev/null"] {
        assert_eq!(in_shell(words), bad_descriptor("standard input"));
    }
    assert_eq!(in_shell("batch </dev/null >&-"), (Some(0), String::new(), String::new()));
}

/// A list that is named in many requests is read anew if it changes.
#[test]
fn a_list_that_changes() {
    let list = file("changing.txt", "# none\n");
    let mut child = spawn(&mut command(&["batch"]));
    let mut stdin = child.stdin.take().expect("piped");
    let mut answers = BufReader::new(child.stdout.take().expect("piped")).lines();
    let mut ask = || {
        let line = request(&["judge", "004-bundle.hex", &list]);
        stdin.write_all(line.as_bytes()).expect("it reads");
        answers.next().expect("an answer").expect("text")
    };
    for _ in 0..2 {
        assert!(ask().contains("\"name\":\"UNTRUSTED\""));
    }
    fs::write(&list, format!("{ROOT}\n")).expect("the file");
    for _ in 0..2 {
        assert!(ask().starts_with("{\"accepted\":true,"));
    }
    drop(stdin);
    assert_eq!(child.wait().expect("it ends").code(), Some(0));
}

/// README's line for an archive, with one process in place of parallel's many.
#[test]
fn as_readme_shows() {
    let readme = fs::read_to_string(format!("{DATA}/../../../../README.md")).expect("README.md");
    let line = readme.lines().find(|line| line.contains(" batch ")).expect("the line").trim();
    let line = line.replace("parallel -k --pipe ./barrowtide", "\"$PROGRAM\"");
    assert!(line.contains("\"$PROGRAM\""), "{line}");
    let folder = format!("{}/readme-{}", env!("CARGO_TARGET_TMPDIR"), std::process::id());
    fs::create_dir_all(format!("{folder}/archive/2023")).expect("a folder");
    for name in ["archive/a.beef", "archive/2023/b c.beef"] {
        fs::write(format!("{folder}/{name}"), data("004-bundle.hex")).expect("a bundle");
    }
    fs::write(format!("{folder}/roots.txt"), ROOT).expect("a list");
    let mut shell = Command::new("sh");
    shell.args(["-c", &line]).env("PROGRAM", PROGRAM).current_dir(&folder);
    assert!(shell.status().expect("the shell starts").success());
    let answers = fs::read_to_string(format!("{folder}/answers.jsonl")).expect("the answers");
    fs::remove_dir_all(&folder).expect("it was made");
    let mut tags: Vec<&str> =
        answers.lines().filter_map(|line| line.split(",\"accepted\":true,").next()).collect();
    tags.sort_unstable();
    let expected = ["{\"tag\":\"archive/2023/b c.beef\"", "{\"tag\":\"archive/a.beef\""];
    assert_eq!(tags, expected, "{answers}");
}

/// Numbers that floating point does not hold are texts.
#[test]
fn great_numbers() {
    let offset = |offset: u64| {
        let levels = vec![0; 62];
        [&[7, 63, 1, 0xff][..], &offset.to_le_bytes(), &[1], &levels].concat()
    };
    for (number, text) in [
        ((1 << 53) - 1, "9007199254740991"),
        ((1 << 53) + 1, "\"9007199254740993\""),
        ((1 << 62) + 1, "\"4611686018427387905\""),
    ] {
        let (status, json, _) = run_on(&offset(number), &["list", "bump", "-", "--json"]);
        assert!(json.contains(&format!("{{\"offset\":{text},\"leaf\"")), "{json}");
        assert_eq!(status, Some(0));
    }
}
