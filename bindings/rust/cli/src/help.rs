//! The commands by name, with their help.

use crate::answer::Answer;
use crate::input::Word;
use crate::{batch, bundles, commands};

/// A command.
pub struct Command {
    /// Its name.
    pub name: &'static str,
    /// How it is used.
    pub usage: &'static str,
    /// What it does, in a line.
    pub brief: &'static str,
    /// What else there is to know.
    pub about: &'static str,
    /// An example, to be run at the top of the repository.
    pub example: &'static str,
    /// Options of its own.
    pub options: &'static [&'static str],
    /// Whether it gives bytes.
    pub gives_bytes: bool,
    /// Whether it gives a picture.
    pub gives_picture: bool,
    /// What it does.
    pub run: fn(&[Word]) -> Answer,
}

const PLAIN: Command = Command {
    name: "",
    usage: "",
    brief: "",
    about: "",
    example: "",
    options: &[],
    gives_bytes: false,
    gives_picture: false,
    run: bundles::judge,
};

/// All commands, in the order of the help.
pub const COMMANDS: [Command; 16] = [
    Command {
        name: "judge",
        usage: "judge BEEF ROOTS [--fee N] [--cost]",
        brief: "judge a BEEF bundle against trusted roots",
        about: "\
BEEF is a file with the bundle. ROOTS is a file with a trusted Merkle root on each
line. If every transaction is mined under one of them, or spends only earlier ones
of the bundle, the table of transactions is printed: where each starts, how long
it is, the BUMP and position in the block that anchor it, how many outputs it has
and what they come to, in satoshi. Then for each that is mined its BUMP's block
height, which is the sender's word, and the root. A refusal names the transaction's
id and its BUMP; of 17, the root and the block height to look up.

A transaction that is not mined must spend outputs that are there, none of them
spent already by itself or by another such one, and take in more than it pays out
and N satoshi of fee besides. N is 0 if it is not given: then one satoshi that is
left is enough.

With --cost the last line says how many SHA-256 compressions judging takes, whether
the bundle is accepted or refused: the hash work by which a terminal's battery is
planned. It is counted by rules, not by what the library saves: ids of all
transactions, and each join of each climb up to the verdict.

What acceptance does not say:
- Scripts and signatures are not run.
- What mined transactions spend is not looked at: a payment may spend it again.
- Until a block holds a transaction, what it spends can still be spent elsewhere.
- A BUMP's block height is the sender's word.
- Which transaction is the payment, and whom it pays, is not asked.",
        example: "    ./barrowtide judge bindings/rust/tests/data/004-bundle.hex bindings/rust/tests/data/004-roots.txt
    ./barrowtide judge bindings/rust/tests/data/004-bundle.hex bindings/rust/tests/data/004-roots.txt --fee 1 --cost",
        options: &["--fee", "--cost"],
        run: bundles::judge,
        ..PLAIN
    },
    Command {
        name: "prove",
        usage: "prove bump FILE ID | prove cmp FILE ID | prove tsc FILE | prove beef FILE ID",
        brief: "the root that a proof leads to",
        about: "\
FILE holds a BUMP, a compound path or a TSC proof, which has its id in it. Position
in the block, number of layers and the Merkle root are printed. Compare the root
with the block's header: the proof is worth as much as its root is trusted. A TSC
proof's target must hold the root if it is a root or a header; a block hash is
compared with nothing, and a header's own hash and work are not looked at.

Of a BEEF the BUMP is asked that the transaction with this id names, and of an id
that names none the first BUMP that lists it. Whether the bundle stands says judge.",
        example: "    ./barrowtide prove bump bindings/rust/tests/data/004-bump.hex \\
      3ecead27a44d013ad1aae40038acbb1883ac9242406808bb4667c15b4f164eac
    ./barrowtide prove tsc bindings/rust/tests/data/000-proof.hex
    ./barrowtide prove beef bindings/rust/tests/data/004-bundle.hex \\
      3ecead27a44d013ad1aae40038acbb1883ac9242406808bb4667c15b4f164eac",
        run: commands::prove,
        ..PLAIN
    },
    Command {
        name: "clients",
        usage: "clients BUMP",
        brief: "the one root that all clients of a BUMP lead to",
        about: "\
Climbs from every leaf of the BUMP that is marked as a client's.",
        example: "    ./barrowtide clients bindings/rust/tests/data/004-bump.hex",
        run: commands::clients,
        ..PLAIN
    },
    Command {
        name: "list",
        usage: "list bump|cmp|tsc|transaction|beef FILE",
        brief: "what a file holds",
        about: "\
Reads the file and says what it holds: of a BUMP or a compound path every leaf, by
level and offset, in the order in which they are written; of a BEEF every BUMP, with
the root if all its clients lead to one, and every transaction, with what it spends
and pays. If a BEEF is refused, what is whole before the place of the refusal is
listed below it. Nothing is proved.

A transaction is read in parts: it may have up to 4294967295 bytes, whatever the
memory. Its inputs and outputs are listed if it has no more than 16777216.",
        example: "    ./barrowtide list bump bindings/rust/tests/data/004-bump.hex
    ./barrowtide list beef bindings/rust/tests/data/004-bundle.hex
    ./barrowtide list transaction - < bindings/rust/tests/data/004-transaction.hex",
        run: commands::list,
        ..PLAIN
    },
    Command {
        name: "extract",
        usage: "extract bump|tx N BEEF",
        brief: "a BUMP or a transaction of a BEEF bundle",
        about: "\
Prints the BUMP or the raw transaction of this number, counted from 0 as list beef
has them. The bundle must be well formed; whether it stands is not asked.",
        example: "    ./barrowtide extract bump 0 bindings/rust/tests/data/004-bundle.hex | ./barrowtide clients -
    ./barrowtide extract tx 1 bindings/rust/tests/data/004-bundle.hex | ./barrowtide list transaction -",
        gives_bytes: true,
        run: bundles::extract,
        ..PLAIN
    },
    Command {
        name: "index",
        usage: "index BUMP",
        brief: "where each leaf of a BUMP stands",
        about: "\
Lists the leaves by level and offset, whatever the order in which they are written,
each with the place of its first byte in the file, counted from 0: of its offset,
after which come its flags and its hash. A program keeps such a list beside a BUMP
that it searches often. Nothing is proved.",
        example: "    ./barrowtide index bindings/rust/tests/data/004-bump.hex",
        run: commands::index,
        ..PLAIN
    },
    Command {
        name: "compare",
        usage: "compare PROOF PROOF [--transaction FILE], each proof: bump FILE ID, cmp FILE ID or tsc FILE",
        brief: "whether two proofs contradict each other",
        about: "\
Accepted are two proofs of different ids at one position under one root. Then one
of them is false, and double SHA-256 is broken: the two strings of 64 bytes that
show it are printed. Proofs that agree are refused with 24, unlike ones with 23.

With --transaction the proofs have different numbers of layers, in either order, and
FILE is the raw transaction that the shorter one proves. Accepted are two under one
root whose places lie one above the other: one has the payment where the other has a
node, and two strings of one hash show it, the shorter proof's first, which may be the
transaction itself. Any other two are refused with 23. A transaction of 64 bytes, which
could be two nodes, is refused with 11, here and wherever one is read.",
        example: "    ./barrowtide compare tsc bindings/rust/tests/data/000-proof.hex tsc bindings/rust/tests/data/000-proof.hex
    ./barrowtide compare tsc bindings/rust/tests/data/000-proof.hex \\
      bump bindings/rust/tests/data/004-bump.hex \\
      3ecead27a44d013ad1aae40038acbb1883ac9242406808bb4667c15b4f164eac \\
      --transaction bindings/rust/tests/data/004-transaction.hex",
        options: &["--transaction"],
        run: commands::compare,
        ..PLAIN
    },
    Command {
        name: "write",
        usage: "write HEIGHT IDS POSITION..",
        brief: "the BUMP of chosen ids of a block",
        about: "\
HEIGHT is the block's height, IDS a file with all ids of the block in their order,
one on a line. Positions count from 0. The shortest BUMP that proves the ids at
these positions is printed.",
        example: "    ./barrowtide write 814435 bindings/rust/tests/data/ids.txt 1 4
    ./barrowtide write 814435 bindings/rust/tests/data/ids.txt 1 4 | ./barrowtide clients -",
        gives_bytes: true,
        run: commands::write,
        ..PLAIN
    },
    Command {
        name: "page",
        usage: "page BUMP IDS",
        brief: "prove many ids by one BUMP",
        about: "\
IDS is a file with an id on each line. Each gets its own answer, in order. The exit
status is 0 only if all of them are proved.",
        example: "    ./barrowtide write 814435 bindings/rust/tests/data/ids.txt 0 1 2 3 4 |
      ./barrowtide page - bindings/rust/tests/data/ids.txt",
        run: commands::page,
        ..PLAIN
    },
    Command {
        name: "convert",
        usage: "convert to-bump TSC HEIGHT | convert to-tsc BUMP ID",
        brief: "a TSC proof as a BUMP, or the other way round",
        about: "\
The proof made proves the same. HEIGHT is the block's height, which a TSC proof
does not say. A TSC proof is of one id: other clients of the BUMP are left out.",
        example: "    ./barrowtide convert to-bump bindings/rust/tests/data/000-proof.hex 575191
    ./barrowtide convert to-tsc bindings/rust/tests/data/004-bump.hex \\
      3ecead27a44d013ad1aae40038acbb1883ac9242406808bb4667c15b4f164eac |
      ./barrowtide prove tsc -",
        gives_bytes: true,
        run: commands::convert,
        ..PLAIN
    },
    Command {
        name: "order",
        usage: "order TXS.. [--check ORDER]",
        brief: "transactions in an order with parents first",
        about: "\
TXS are files with a raw transaction each, or one file with a transaction on each
line, in hex. They are named by their numbers, counted from 0 as they are given.
Each time the first is taken, of those not yet placed, whose parents among them are
placed; parents that are not among them are not asked for. A BEEF has its
transactions in such an order.

With --check an order is not made but checked: ORDER are the numbers, with commas
between them. It is accepted if it holds every transaction once, after its parents.",
        example: "    ./barrowtide order bindings/rust/tests/data/004-set.hex
    ./barrowtide order bindings/rust/tests/data/004-set.hex --check 1,0",
        options: &["--check"],
        run: commands::order,
        ..PLAIN
    },
    Command {
        name: "diff",
        usage: "diff BUMP BUMP",
        brief: "every difference of two BUMPs",
        about: "\
Heights first, then the leaves that stand in one only, or in both with other flags
or another hash. The order of leaves is no difference. The exit status is 0 whether
there are differences or not.",
        example: "    ./barrowtide diff bindings/rust/tests/data/004-bump.hex bindings/rust/tests/data/004-bump-gap.hex",
        run: commands::diff,
        ..PLAIN
    },
    Command {
        name: "shorter",
        usage: "shorter BUMP BUMP ID",
        brief: "the shorter of two BUMPs that prove an id",
        about: "\
Both must prove the id to one root. The shorter is printed, the first if they are
equally long; standard error says which it is.",
        example: "    ./barrowtide shorter bindings/rust/tests/data/004-bump-surplus.hex bindings/rust/tests/data/004-bump.hex \\
      3ecead27a44d013ad1aae40038acbb1883ac9242406808bb4667c15b4f164eac",
        gives_bytes: true,
        run: commands::shorter,
        ..PLAIN
    },
    Command {
        name: "merge",
        usage: "merge BUMP BUMP",
        brief: "two BUMPs of one block as one",
        about: "\
Both must have one block height, one tree height and one root, which all their
clients lead to. The BUMP made has every leaf of either once, offsets rising, and
proves what either proves. Where both have a leaf they must agree; a client's mark is
kept, and a hash rather than the copy that stands for it.",
        example: "    ./barrowtide write 814435 bindings/rust/tests/data/ids.txt 1 |
      ./barrowtide merge - bindings/rust/tests/data/ids-bump.hex |
      ./barrowtide clients -",
        gives_bytes: true,
        run: commands::merge,
        ..PLAIN
    },
    Command {
        name: "draw",
        usage: "draw BUMP [ID] | draw BEEF ID",
        brief: "a BUMP as a picture (SVG)",
        about: "\
Draws the tree with what is written, and the climb of the id, or of the first client if
none is given: what was hashed at each level, and if it stops, the sibling that is
missing or a twin. What is not on the climb is small, and folded where there is much
of it; the picture is made even if the climb is refused. Of a BEEF the BUMP is drawn
that prove beef asks.",
        example: "    ./barrowtide draw bindings/rust/tests/data/004-bump.hex \\
      3ecead27a44d013ad1aae40038acbb1883ac9242406808bb4667c15b4f164eac > climb.svg",
        gives_picture: true,
        run: commands::draw,
        ..PLAIN
    },
    Command {
        name: "batch",
        usage: "batch [FILE] [--jobs N]",
        brief: "many requests, a line of JSON each",
        about: "\
Reads one request a line, from FILE or standard input, and answers each with a line
as --json prints it, in order. A request is an object: command is a command's name,
arguments a list of its words, and tag, if there is one, a text or a number that comes
back with the answer. In place of a file's name an argument may be {\"hex\": \"0100be..\"},
or a list of texts, which are the lines of a list of ids or roots.

A line that can't be used is answered as such ({\"unusable\": \"..\"}), and the run goes
on. The exit status is 0 if every line got an answer, whatever it says. All cores are
used, or N threads; a line has up to 134217728 bytes, and what is kept in memory does
not grow with the number of lines. If standard error is a terminal, it shows how far
the run is.",
        example: "    printf '%s\\n' bindings/rust/tests/data/004-bump*.hex |
      sed 's/.*/{\"command\":\"clients\",\"arguments\":[\"&\"]}/' | ./barrowtide batch
    echo '{\"tag\":7,\"command\":\"list\",\"arguments\":[\"bump\",{\"hex\":\"0701010101\"}]}' |
      ./barrowtide batch",
        options: &["--jobs"],
        run: batch::run,
        ..PLAIN
    },
];

/// What holds for all commands.
const COMMON: &str = "\
A file is in hex or binary; - is standard input. Ids and roots are 64 hex digits
in printed order, as block explorers show them; files of them have one on a line,
and what stands behind # is passed over. After -- no word is an option.

--json prints the answer as one line of JSON.
--binary prints a proof that is made as it stands, not in hex.

The exit status is 0 if the input is accepted, 1 if it is refused, 2 if it can't be
used or the answer can't be written. A refusal has a number; docs/REFUSALS.md says
what each means, who is to blame and what to ask the sender for. Where a proof or a
picture is made, the refusal goes to standard error.
";

/// The help of one command.
pub fn of_command(command: &Command) -> String {
    let Command { usage, about, example, .. } = command;
    format!(
        "usage: barrowtide {usage}\n\n{about}\n\n\
         For example, at the top of the repository:\n\n{example}\n\n{COMMON}"
    )
}

/// The help of the program.
pub fn of_program() -> String {
    let mut text = String::from(
        "usage: barrowtide COMMAND ..\n\n\
         Reads Merkle proofs of Bitcoin SV payments and judges BEEF bundles, by a proved library.\n\n",
    );
    for Command { name, brief, .. } in &COMMANDS {
        text += &format!("  {name:8}  {brief}\n");
    }
    text += "\nbarrowtide COMMAND --help says more, with an example.\n";
    text += "barrowtide --version says which version this is.\n\n";
    text + COMMON
}
