//! How an entry is compared with its model: wrong entries first, each of which must be found out, then the line that is printed.
#![allow(dead_code)] // not every part needs all of it
use std::fmt::Display;

/// Fails with the name of the first wrong entry that isn't found out.
pub fn find_out<E>(wrong: &[(impl Display, E)], hunt: impl Fn(&E) -> Result<(), String>) -> Result<(), String> {
    match wrong.iter().find(|(_, entry)| hunt(entry).is_ok()) {
        Some((name, _)) => Err(format!("not found out: {name}")),
        None => Ok(()),
    }
}

/// Compares at the size and with the seed of the command line, and prints the figures or the first difference.
pub fn report(part: &str, size: u64, compare: impl Fn(u64, u64) -> Result<String, String>) {
    let mut words = std::env::args().skip(1).map(|n| n.parse().expect("a number"));
    match compare(words.next().unwrap_or(size), words.next().unwrap_or(1)) {
        Ok(figures) => println!("diff/{part}: {figures}"),
        Err(place) => {
            println!("diff/{part}: DIFFERENCE {place}");
            std::process::exit(1);
        }
    }
}
