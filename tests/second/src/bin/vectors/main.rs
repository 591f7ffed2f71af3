//! Makes the conformity kit's vectors from the second implementation.
//!
//!     vectors --write      writes conformity/vectors.txt and conformity/vectors-small.txt
//!     vectors --check      looks whether both are as they would be written
//!     vectors --table      prints what the vectors cover: how many cases of each outcome of each call
mod book;
mod drawn;
mod faults;
mod images;
mod inputs;
mod limits;
mod orders;
mod sheet;
mod sizes;
mod texts;

use book::{file, Book, Vector};
use second::outcome::outcomes;
use std::collections::{BTreeMap, BTreeSet};
use std::path::PathBuf;
use std::process::ExitCode;

/// The largest file, and the largest with every outcome once.
const MOST: usize = 2_000_000;
const MOST_SMALL: usize = 64_000;

fn book() -> Book {
    let mut book = Book::default();
    for part in [faults::add, sheet::add, images::add, limits::add, orders::add, sizes::add, texts::add, drawn::add] {
        part(&mut book);
    }
    book
}

/// The first case of each outcome that takes the least memory, in the order of the file.
fn small(vectors: &[Vector]) -> Vec<&Vector> {
    let mut least: BTreeMap<(&str, u8, u64), usize> = BTreeMap::new();
    for (k, vector) in vectors.iter().enumerate() {
        let cost = |vector: &Vector| vector.memory() + vector.block().len();
        let place = least.entry(vector.outcome()).or_insert(k);
        if cost(vector) < cost(&vectors[*place]) {
            *place = k;
        }
    }
    let places: BTreeSet<usize> = least.into_values().collect();
    places.into_iter().map(|place| &vectors[place]).collect()
}

/// The two files with their texts.
fn files() -> Result<Vec<(PathBuf, String)>, String> {
    let book = book();
    let met: BTreeSet<(&str, u8, u64)> = book.vectors.iter().map(Vector::outcome).collect();
    for outcome in outcomes() {
        if !met.contains(&outcome) {
            return Err(format!("no case gives {outcome:?}"));
        }
    }
    for outcome in &met {
        if !outcomes().contains(outcome) {
            return Err(format!("a case gives {outcome:?}, which is no outcome of the call"));
        }
    }
    let folder = PathBuf::from(env!("CARGO_MANIFEST_DIR")).join("../../conformity");
    let (all, few) = (file(book.vectors.iter()), file(small(&book.vectors).into_iter()));
    for (text, most) in [(&all, MOST), (&few, MOST_SMALL)] {
        if text.len() > most {
            return Err(format!("a file has {} bytes, more than {most}", text.len()));
        }
    }
    Ok(vec![(folder.join("vectors.txt"), all), (folder.join("vectors-small.txt"), few)])
}

fn table() {
    let mut counts: BTreeMap<(&str, u8, u64), usize> = BTreeMap::new();
    let book = book();
    for vector in &book.vectors {
        *counts.entry(vector.outcome()).or_default() += 1;
    }
    for ((call, result, value), count) in counts {
        println!("{call} {result} {value} {count}");
    }
    println!("{} cases", book.vectors.len());
}

fn done(arguments: &[String]) -> Result<(), String> {
    let [flag] = arguments else {
        return Err("usage: vectors --write | --check | --table".into());
    };
    match flag.as_str() {
        "--write" => {
            for (path, text) in files()? {
                std::fs::write(&path, &text).map_err(|what| format!("{} was not written: {what}", path.display()))?;
                println!("{}: {} bytes", path.file_name().unwrap_or_default().to_string_lossy(), text.len());
            }
            Ok(())
        }
        "--check" => {
            for (path, text) in files()? {
                let there = std::fs::read_to_string(&path).map_err(|what| format!("{} cannot be read: {what}", path.display()))?;
                if there != text {
                    return Err(format!("{} is not current: make it anew with --write", path.display()));
                }
            }
            Ok(())
        }
        "--table" => {
            table();
            Ok(())
        }
        _ => Err(format!("{flag} is no flag of this program")),
    }
}

fn main() -> ExitCode {
    let arguments: Vec<String> = std::env::args().skip(1).collect();
    match done(&arguments) {
        Ok(()) => ExitCode::SUCCESS,
        Err(what) => {
            eprintln!("{what}");
            ExitCode::FAILURE
        }
    }
}
