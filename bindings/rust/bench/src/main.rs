//! Benchmarks: the library beside plain C, OpenSSL and the reference, all in one run.
//!
//! ```text
//! cargo run --release --offline -p bench
//! ```

mod convert;
mod difference;
mod hash;
mod hostile;
mod inputs;
mod joins;
mod judge;
mod leaves;
mod measure;
mod merged;
mod order;
mod page;
mod parts;
mod prove;
mod read;
mod stack;
mod stored;
mod write;
mod yardstick;

const PREFACE: &str = "\
Times are processor times of one core, the least of several runs, the subjects in turn.
A ratio is the library's time over the other's: below 1 the library is faster.
Plain C is bench/plain.c by gcc -O3; OpenSSL may use the processor's own instructions.
Buffers are not cleared: neither the library nor plain C nor the reference wipes its working
memory after a hash (OpenSSL clears its context), and no caller here wipes what it lends.";

fn main() {
    println!("{PREFACE}");
    hash::run();
    read::run();
    parts::run();
    prove::run();
    page::run();
    judge::run();
    merged::run();
    hostile::run();
    order::run();
    write::run();
    convert::run();
    difference::run();
    leaves::run();
    stack::run();
}
