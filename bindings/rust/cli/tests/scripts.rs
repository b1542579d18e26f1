//! `./barrowtide`, `dist/renew` and the gate: which archive they take, and when they prove or build.

#[path = "common/place.rs"]
mod place;

use std::fs::{self, File};
use std::os::unix::fs::symlink;
use std::path::PathBuf;
use std::process::{Child, Command, Output, Stdio};
use std::thread::sleep;
use std::time::{Duration, SystemTime};

use place::{accepted, failed, text, Place};

const SOURCE: &str = "crates/hash/specs/Hash";
const KEPT: &str = "dist/x86_64-linux/libbarrowtide.a";

/// Waits for something that comes within seconds.
fn wait_for<T>(what: &str, mut look: impl FnMut() -> Option<T>) -> T {
    for _ in 0..300 {
        if let Some(found) = look() {
            return found;
        }
        sleep(Duration::from_millis(100));
    }
    panic!("{what} has not come");
}

/// Without the kit: what is kept is used as long as the sources are those that it was proved from,
/// whatever the times of files.
#[test]
fn kept_archive() {
    let place = Place::with_kept("kept");
    let answer = || accepted(&place.run("barrowtide", &["judge", "a b"]));
    let expected = format!("{}\njudge a b\n", place.0.join("elsewhere").display());
    assert_eq!(answer(), expected);
    assert_eq!((place.proved(), place.built()), (0, 1));
    // Cargo is not asked again.
    let tomorrow = SystemTime::now() + Duration::from_secs(86_400);
    for name in [SOURCE, "bindings/rust/barrowtide/src/lib.rs", KEPT] {
        let file = File::options().append(true).open(place.0.join(name)).expect("a file");
        file.set_modified(tomorrow).expect("its time can be set");
    }
    assert_eq!(answer(), expected);
    assert_eq!((place.proved(), place.built()), (0, 1));
    // Nor for what the program is not made of.
    place.write("bindings/rust/reference/src/lib.rs", "// changed");
    assert_eq!(answer(), expected);
    assert_eq!((place.proved(), place.built()), (0, 1));
    let parts =
        ["Cargo.toml", "barrowtide-sys/build.rs", "barrowtide/src/lib.rs", "cli/src/main.rs"];
    for (built, part) in (2..).zip(parts) {
        place.write(&format!("bindings/rust/{part}"), "// changed");
        assert_eq!(answer(), expected);
        assert_eq!((place.proved(), place.built()), (0, built));
    }
    let built = place.built();

    // The archive proved from other sources is used until these change; it is the same one here.
    for changed in [SOURCE, "crates.txt", "crates/format/src/lib"] {
        let before = place.read(changed);
        let proved = place.proved();
        place.write(changed, "barrowtide:\n");
        for _ in 0..2 {
            assert_eq!(answer(), expected);
            assert_eq!((place.proved(), place.built()), (proved + 1, built));
        }
        match before {
            Some(text) => place.write(changed, &text),
            None => place.remove("crates/format"),
        }
        assert_eq!(answer(), expected);
        assert_eq!((place.proved(), place.built()), (proved + 1, built));
    }

    // A kept archive that is damaged is not used.
    place.write(KEPT, "!<arch>\n");
    assert_eq!(answer(), expected);
    assert_eq!((place.proved(), place.built()), (4, built));
    place.script("bin/uname", "echo Linux aarch64");
    let said = failed(&place.run("barrowtide", &["judge"]));
    assert!(said.contains("for x86-64 Linux alone"), "{said}");
}

/// One line for each crate, and the prover's notes in a file.
#[test]
fn proving_said() {
    let place = Place::new("said");
    let output = place.run("bindings/archive.sh", &[]);
    let archive = place.0.join("target/staticlib/libbarrowtide.a");
    assert_eq!(accepted(&output), format!("{}\n", archive.display()));
    let said = text(&output.stderr);
    let said: Vec<&str> = said.lines().collect();
    assert!(
        said[0].contains("dist/ has no archive")
            && said[1].contains("proving the library: 3 crates"),
        "{said:?}"
    );
    let lines = ["1 of 3: hash proved", "2 of 3: format proved", "3 of 3: barrowtide proved"];
    assert_eq!(said[2..], lines.map(|line| format!("archive.sh: {line}")));
    let notes = place.read("target/prover.log").expect("the notes");
    assert!(notes.contains("note: of hash\n") && notes.contains("note: of format\n"), "{notes}");

    let place = Place::new("refused");
    let why = "the library hash did not build, so nothing above it was checked";
    place.script("bin/rt", &format!("echo 'rt: {why}' >&2; exit 1"));
    let said = failed(&place.run("barrowtide", &["--help"]));
    assert!(said.contains(&format!("barrowtide: {why}")), "{said}");
    assert!(said.contains("could not be proved") && said.contains("target/prover.log"), "{said}");
    place.remove("bin/rt");
    let said = failed(&place.run("barrowtide", &["--help"]));
    assert!(said.contains("rt is needed to build the library"), "{said}");
}

#[test]
fn prove_first() {
    let place = Place::with_kept("prove");
    let output = place.run("barrowtide", &["--prove", "judge"]);
    assert!(accepted(&output).ends_with("\njudge\n"));
    assert!(text(&output.stderr).contains("byte for byte"), "{}", text(&output.stderr));
    assert_eq!((place.proved(), place.built()), (1, 1));

    // Another version of the prover makes another archive, which is then linked.
    let place = Place::with_kept("prove-other");
    place.write("other", "!<arch>\n");
    let mut command = place.command("barrowtide", &["--prove"]);
    command.env("ARCHIVE", place.0.join("other"));
    let output = command.output().expect("the script starts");
    assert_eq!(accepted(&output), "");
    assert!(text(&output.stderr).contains("is not what was built"), "{}", text(&output.stderr));
    assert_eq!((place.proved(), place.built()), (1, 0));
    accepted(&place.run("barrowtide", &["judge"]));
    assert_eq!((place.proved(), place.built()), (1, 1));
    accepted(&place.run("barrowtide", &["--prove", "judge"]));
    assert_eq!((place.proved(), place.built()), (1, 2));
}

/// Two at once: one proves, the other waits and takes what it made.
#[test]
fn two_at_once() {
    let place = Place::new("two");
    let rt = place.read("bin/rt").expect("a script");
    place.write("bin/rt", &rt.replace("#!/bin/sh\n", "#!/bin/sh\nsleep 1\n"));
    let start = || {
        let mut command = place.command("bindings/archive.sh", &[]);
        command.stdout(Stdio::piped()).stderr(Stdio::piped());
        command.spawn().expect("the script starts")
    };
    let both = [start(), start()].map(|child| child.wait_with_output().expect("it ends"));
    let made = format!("{}\n", place.0.join("target/staticlib/libbarrowtide.a").display());
    assert_eq!(both.each_ref().map(accepted), [made.clone(), made]);
    assert_eq!(place.proved(), 1);
    let waiting = |output: &&Output| text(&output.stderr).contains("waiting for another");
    assert_eq!(both.iter().filter(waiting).count(), 1);
}

/// Through a symbolic link the repository is the one that the link leads to.
#[test]
fn symbolic_link() {
    let place = Place::with_kept("link");
    symlink("../barrowtide", place.0.join("elsewhere/till")).expect("a link");
    let expected = format!("{}\njudge a b\n", place.0.join("elsewhere").display());
    assert_eq!(accepted(&place.run("elsewhere/till", &["judge", "a b"])), expected);
    let built = place.read("built").expect("cargo was called");
    assert!(built.contains(&format!("{}/bindings/rust/Cargo.toml", place.0.display())), "{built}");
}

/// Where cargo puts its files, and where the archive is.
#[test]
fn directories() {
    let place = Place::with_kept("directories");
    let run = |variables: &[(&str, &str)]| {
        let mut command = place.command("barrowtide", &["judge"]);
        command.envs(variables.iter().copied());
        command.output().expect("the script starts")
    };
    let (target, build) = ("CARGO_TARGET_DIR", "CARGO_BUILD_TARGET_DIR");
    for (variables, folder) in [
        (&[][..], "bindings/rust/target"),
        (&[(build, "of build")], "elsewhere/of build"),
        (&[(target, "of target"), (build, "of neither")], "elsewhere/of target"),
    ] {
        accepted(&run(variables));
        let built = place.read("built").expect("cargo was called");
        let last = built.lines().last().expect("a line");
        let folder = place.0.join(folder);
        assert!(last.ends_with(&format!("--target-dir {}", folder.display())), "{built}");
        assert!(folder.join("release/barrowtide").is_file());
    }
    assert!(!place.0.join("elsewhere/of neither").exists());

    // A lent archive is another one than the program was built of.
    let built = place.built();
    place.write("elsewhere/lent/libbarrowtide.a", "!<arch>\n");
    accepted(&run(&[("BARROWTIDE_LIB_DIR", "lent")]));
    assert_eq!((place.proved(), place.built()), (0, built + 1));
    accepted(&run(&[("BARROWTIDE_LIB_DIR", "lent")]));
    assert_eq!(place.built(), built + 1);
    accepted(&run(&[]));
    assert_eq!(place.built(), built + 2);
    let said = failed(&run(&[("BARROWTIDE_LIB_DIR", "none")]));
    let none = place.0.join("elsewhere/none");
    assert!(said.ends_with(&format!("without libbarrowtide.a: {}\n", none.display())), "{said}");
}

fn terminate(child: &Child) {
    let status = Command::new("kill").args(["-TERM", &child.id().to_string()]).status();
    assert!(status.expect("kill starts").success());
}

/// What proving or building has started ends with the script.
#[test]
fn interrupted() {
    for name in ["rt", "cargo"] {
        let place = Place::with_kept(&format!("interrupted-{name}"));
        let work = "sleep 1000 & echo $! >\"$HERE/part\"; mv \"$HERE/part\" \"$HERE/worker\"; wait";
        place.script(&format!("bin/{name}"), work);
        let words = if name == "rt" { &["--prove"][..] } else { &["--help"] };
        let mut command = place.command("barrowtide", words);
        command.stdout(Stdio::null()).stderr(Stdio::null());
        let mut script = command.spawn().expect("the script starts");
        let worker = wait_for("the worker", || place.read("worker"));
        let worker = PathBuf::from("/proc").join(worker.trim());
        assert!(worker.exists());
        terminate(&script);
        let status = script.wait().expect("the script ends");
        assert_eq!(status.code(), Some(2));
        // One that has ended may wait for its parent to ask.
        wait_for("the worker's end", || match fs::read_to_string(worker.join("stat")) {
            Ok(stat) => stat.contains(") Z ").then_some(()),
            Err(_) => Some(()),
        });
    }
}

/// The gate compares first what is cheap to compare, then the archive, and ends with rt's own line.
#[test]
fn gate() {
    let place = Place::with_kept("gate");
    let run = |variables: &[(&str, &str)]| {
        let mut command = place.command(".ci/run", &[]);
        command.envs(variables.iter().copied()).output().expect("the gate starts")
    };
    let refused = |variables: &[(&str, &str)], said: &str| {
        let output = run(variables);
        let error = text(&output.stderr);
        let last = error.lines().last().unwrap_or_default();
        assert!(last.starts_with(".ci/run: ") && last.contains(said), "{error}");
        assert_eq!(output.status.code(), Some(1));
        place.read("proved")
    };
    let renew = "; dist/renew brings dist/ up to date";
    assert!(accepted(&run(&[])).ends_with("\n2 passed, 0 failed\n"));
    assert_eq!(place.read("proved"), Some("ci\nlib --cpu x86-64\nversion\n".into()));
    assert_eq!(place.built(), 2);

    place.remove("proved");
    let header = place.read("include/barrowtide.h").expect("the header");
    place.write("include/barrowtide.h", &(header.clone() + "\n"));
    assert_eq!(refused(&[], &format!("dist/SHA256SUMS{renew}")), None);
    place.write("include/barrowtide.h", &header);
    place.write(SOURCE, "-- changed");
    assert_eq!(refused(&[], &format!("dist/SOURCES{renew}")), None);
    place.write(SOURCE, "");
    assert_eq!(place.built(), 2);

    // What rt ci refuses, and an edit that it could not try.
    let output = run(&[("FAILED", "1")]);
    assert!(!output.status.success() && text(&output.stdout).ends_with("\n2 passed, 1 failed\n"));
    assert_eq!(place.read("proved"), Some("ci\n".into()));
    assert_eq!(refused(&[("BAD", ", 1 bad")], "edit is bad"), Some("ci\nci\n".into()));

    // Another archive from the same sources: what renew takes is the one just proved.
    place.write("other", "!<arch>\n");
    let other = place.0.join("other");
    let other = [("ARCHIVE", other.to_str().expect("a plain path"))];
    assert!(refused(&other, "the archive just proved and built").is_some());
    assert!(refused(&other, renew).is_some());
    accepted(&place.run("dist/renew", &[]));
    assert_eq!(place.read(KEPT).as_deref(), Some("!<arch>\n"));
    accepted(&run(&other));
}

/// Each wrong program of an edit has to be refused at a fact of its own function, and no other function.
#[test]
fn wrong_programs() {
    let place = Place::new("wrong_programs");
    place.write("crates/hash/src/lib", "a c");
    place.write(
        "crates/hash/must-fail/first.edit",
        "# one\n# program: exchanged in join\nfile: src/lib\nold: a\nnew: b\n\n\
         # two\n# program: turned in rounds::back\nfile: src/lib\nold: c\nnew: d\n",
    );
    let own = |function: &str| {
        format!("./proofs/{function}/Answers.antt:1:2: error: `returns`: `omega`: no\n")
    };
    let rests = |function: &str| {
        let why = "was not admitted (it has holes or undetermined implicits, or was rejected)";
        let path = format!("./proofs/{function}/Answers.antt:3:4");
        let depends =
            "error: 1 declaration that depends on `g`, which was not admitted, was not checked";
        format!("{path}: error: `spec`: `returns` {why}, so this cannot be checked\n")
            + &format!("{path}: {depends}: returns\n")
    };
    let shapes = |function: &str| {
        let path = format!("./proofs/{function}/Answers.antt:1:2");
        format!("{path}: error: `returns`: record `A` has no field `f`\n")
            + &format!("{path}: error: `g`: `goal.g`: module `A.Goals` has no `g` that can be named from here\n")
    };
    let calls = |function: &str| {
        format!("fn hash::{function}: no proof: it calls `hash::f`, which is not proved\n")
    };
    let open = |function: &str| {
        let why = "it is not proved that what the function ensures holds when it returns";
        format!(
            "note: src/lib.rt:1:2: {why} (`returns`)\nhelp: if\nfn hash::{function}: not proved\n"
        )
    };
    // What the prover says of both programs, and of each alone.
    let look = |both: &str, first: &str, second: &str| {
        for (source, said) in [("b d", both), ("b c", first), ("a d", second)] {
            place.write(&format!("said/{source}"), said);
        }
        let _ = fs::remove_dir_all(place.0.join("target"));
        let output = place.run(".ci/refusals", &[]);
        assert_eq!(output.status.code(), Some(i32::from(!output.status.success())));
        (output.status.success(), text(&output.stdout) + &text(&output.stderr))
    };
    let both = own("join") + &rests("join") + &own("rounds/back");
    let good = "2 wrong programs, each refused at a fact of its own\n";
    let found =
        "fn hash::join: no proof: expected answers in ./proofs/join/Answers.antt; `search` \
        did not prove `returns`\n";
    for log in [
        both.clone(),
        // A caller of a wrong program; a cycle of calls; a function that has no proof file.
        both.clone() + &rests("all") + &calls("all"),
        own("join") + &own("rounds/+back+forth"),
        own("+all+join") + &own("rounds/+back"),
        found.to_owned() + &own("rounds/back"),
        own("join").replace("Answers", "Invariants") + &own("rounds/back"),
        // A goal that is open.
        own("join") + &open("rounds::back") + &calls("all"),
    ] {
        assert_eq!(look(&log, "", ""), (true, good.into()));
    }
    // One that calls the other is asked for alone.
    assert_eq!(look(&(calls("join") + &own("rounds/back")), &own("join"), ""), (true, good.into()));
    assert_eq!(look(&own("join"), "", &own("rounds/back")), (true, good.into()));

    let none = "hash/turned: not refused at a fact of its own: rounds::back";
    for (log, alone, said) in [
        (own("join"), String::new(), none),
        (own("join") + &rests("rounds/back"), rests("rounds/back"), none),
        (own("join") + &shapes("rounds/back"), shapes("rounds/back"), none),
        // One that may be open only since an answer has a name that is gone.
        (
            own("join") + &shapes("rounds/back") + &open("rounds::back"),
            shapes("rounds/back") + &open("rounds::back"),
            none,
        ),
        (own("join"), calls("rounds::back"), none),
        (own("join") + &own("back"), own("back"), none),
        (
            own("join"),
            own("rounds/back") + &own("all"),
            "hash/turned: no program is said to be wrong there: all",
        ),
        (both.clone() + &own("all"), String::new(), "no program is said to be wrong there: all"),
        (both.clone() + &open("all"), String::new(), "no program is said to be wrong there: all"),
    ] {
        let (fine, words) = look(&log, "", &alone);
        assert!(!fine && words.contains(said), "{words}");
    }

    // What was tried is not tried again while the files are the same.
    let tries = || place.read("proved").map_or(0, |text| text.matches("check\n").count());
    assert_eq!(look(&both, "", ""), (true, good.into()));
    let before = tries();
    assert_eq!(accepted(&place.run(".ci/refusals", &["hash"])), good);
    assert_eq!(tries(), before);
    place.write(SOURCE, "-- changed");
    assert_eq!(accepted(&place.run(".ci/refusals", &["hash"])), good);
    assert_eq!(tries(), before + 1);

    // A check that ended otherwise, and an edit that fits no more.
    place.write(SOURCE, "");
    let mut command = place.command(".ci/refusals", &[]);
    let output = command.env("CHECKED", "2").output().expect("it starts");
    assert!(text(&output.stderr).contains("hash/first: a check ended with status 2"));
    assert_eq!(output.status.code(), Some(1));
    place.write("crates/hash/src/lib", "c");
    let output = place.run(".ci/refusals", &[]);
    assert!(text(&output.stderr).contains("hash/first does not fit src/lib: a"));
    assert_eq!(output.status.code(), Some(1));
}

/// A changed header takes no proof, changed sources do.
#[test]
fn renewed() {
    let place = Place::with_kept("renewed");
    let (sources, sums) = (place.read("dist/SOURCES"), place.read("dist/SHA256SUMS"));
    place.write("include/barrowtide.h", "/* changed */");
    accepted(&place.run("dist/renew", &[]));
    assert_eq!((place.proved(), place.read("dist/SOURCES")), (0, sources.clone()));
    assert_ne!(place.read("dist/SHA256SUMS"), sums);
    place.write(SOURCE, "-- changed");
    accepted(&place.run("dist/renew", &[]));
    assert_eq!(place.proved(), 1);
    assert_ne!(place.read("dist/SOURCES"), sources);
}
