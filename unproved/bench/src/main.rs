//! Measures the parts of the store, each compared with the least time that it could take.

mod cores;
mod disks;
mod hashes;
mod keepings;
mod stashes;
mod stores;

use std::{env, io};

const USAGE: &str = "bench hash
bench core
bench disk FOLDER
bench keep FILE KIB TIMES
bench stash ACCESSES
bench store run FILE
bench store fill FILE DEPTH
bench store open FILE
bench store scatter FILE DEPTH STORES";

/// Measures what these words ask for; `None` stands for a word that is missing.
fn run(rt: &HostRuntime, words: [Option<&str>; 5]) -> io::Result<()> {
    match words {
        [Some("hash"), None, ..] => hashes::run(rt),
        [Some("core"), None, ..] => cores::run(rt),
        [Some("stash"), Some(accesses), None, ..] => stashes::run(rt, accesses),
        [Some("disk"), Some(folder), None, ..] => disks::measure(rt, folder),
        [Some("keep"), Some(file), Some(kib), Some(times), None] => keepings::measure(
            rt, file, kib, times,
        ),
        [Some("store"), Some("run"), Some(file), None, _] => stores::measure(rt, file),
        [Some("store"), Some("open"), Some(file), None, _] => stores::reopen(rt, file),
        [Some("store"), Some("fill"), Some(file), Some(depth), None] => stores::fill(
            rt, file, depth,
        ),
        [
            Some("store"),
            Some("scatter"),
            Some(file),
            Some(depth),
            Some(stores),
        ] => stores::scatter(rt, file, depth, stores),
        _ => println!(rt; "{USAGE}"),
    }
}

fn main(rt: HostRuntime) -> io::Result<()> {
    let mut words = env::args(&rt)?.skip(1);
    let words = [
        words.next(),
        words.next(),
        words.next(),
        words.next(),
        words.next(),
    ];
    run(&rt, words.each_ref().map(|word| word.as_deref()))
}
