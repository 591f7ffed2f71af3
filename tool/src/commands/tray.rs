//! tray: any number of logs against one pattern, 64 at a time on all processors, a line for each in their order.
use super::explained;
use crate::arguments::{shown, Arguments};
use crate::end::{wrong, Done, AS_HOPED, OTHERWISE, WRONG};
use crate::files::{self, Table};
use crate::output::{quoted, Answer};
use braid::{Limits, Log, Verdict, MOST_LOGS};
use std::ffi::{OsStr, OsString};
use std::io::{IsTerminal, Write};
use std::sync::atomic::{AtomicUsize, Ordering};
use std::sync::mpsc;

/// A log's answer, or that its file cannot be read.
#[derive(Clone)]
enum Line {
    Told(Log),
    Refused(u8),
    Unreadable(String),
}

/// The regular files of a folder that are not hidden, by the bytes of their names, not deeper.
fn files_of(folder: &OsStr) -> Done<Vec<OsString>> {
    let listed = std::fs::read_dir(folder).and_then(|entries| entries.collect::<Result<Vec<_>, _>>());
    let entries = match listed {
        Ok(entries) => entries,
        Err(what) => return wrong(format!("{} cannot be read: {what}", shown(folder))),
    };
    let mut names: Vec<OsString> = entries.iter().filter(|entry| entry.path().is_file()).map(std::fs::DirEntry::file_name).collect();
    names.retain(|name| !name.as_encoded_bytes().starts_with(b"."));
    names.sort_by(|one, two| one.as_encoded_bytes().cmp(two.as_encoded_bytes()));
    Ok(names.into_iter().map(|name| std::path::Path::new(folder).join(name).into_os_string()).collect())
}

/// The logs that the operands name.
fn logs_of(operands: &[OsString]) -> Done<Vec<OsString>> {
    let mut logs = Vec::new();
    for operand in operands {
        let folder = !operand.as_encoded_bytes().starts_with(b"=") && operand != "-" && std::path::Path::new(operand).is_dir();
        if folder {
            logs.extend(files_of(operand)?);
        } else {
            logs.push(operand.clone());
        }
    }
    Ok(logs)
}

/// One tray: the logs that can be read go to the library together.
fn compared(table: &Table, pattern: &[u8], names: &[OsString], limits: Limits) -> Vec<Line> {
    let mut lines: Vec<Line> = Vec::new();
    let mut images: Vec<Vec<u8>> = Vec::new();
    let mut places = Vec::new();
    for (k, name) in names.iter().enumerate() {
        let given = files::given(name).map_err(|end| if let crate::end::End::Wrong(what) = end { what } else { String::new() });
        lines.push(match given.map(|given| files::imported(table, given)) {
            Err(what) => Line::Unreadable(what),
            Ok(Err((refusal, _))) => Line::Refused(refusal.number()),
            // A log of a tray has at most 65,535 bytes; a longer one is refused as its first bytes are, since no program image has as many.
            Ok(Ok(mut image)) => {
                image.truncate(usize::from(u16::MAX));
                places.push(k);
                images.push(image);
                Line::Refused(0)
            }
        });
    }
    let logs: Vec<&[u8]> = images.iter().map(Vec::as_slice).collect();
    let tray = braid::tray_of(&logs).expect("64 logs at most, of 65,535 bytes at most");
    match braid::tray(&table.image, &tray, pattern, limits) {
        Ok(answers) => {
            for (place, answer) in places.into_iter().zip(answers) {
                lines[place] = Line::Told(answer);
            }
        }
        // The table and the pattern were accepted before, with the same limits.
        Err(refusal) => lines.iter_mut().for_each(|line| *line = Line::Refused(refusal.number())),
    }
    lines
}

/// How many logs came to what.
#[derive(Default)]
struct Counts {
    same: usize,
    different: usize,
    refused: usize,
    unreadable: usize,
}

impl Counts {
    /// The line of a log, which is counted.
    fn line(&mut self, line: &Line, name: &OsStr, json: bool) -> String {
        let name = shown(name);
        let (said, number) = match line {
            Line::Told(Ok(compared)) if compared.verdict == Verdict::Same => {
                self.same += 1;
                ("same", Some(compared.steps))
            }
            Line::Told(Ok(compared)) => {
                self.different += 1;
                ("different", Some(compared.steps))
            }
            Line::Told(Err(reason)) => {
                self.refused += 1;
                ("refused", Some(*reason as u64))
            }
            Line::Refused(number) => {
                self.refused += 1;
                ("refused", Some(u64::from(*number)))
            }
            Line::Unreadable(what) => {
                self.unreadable += 1;
                eprintln!("{what}");
                ("unreadable", None)
            }
        };
        match (json, number) {
            (false, Some(number)) => format!("{said} {number} {name}\n"),
            (false, None) => format!("{said} {name}\n"),
            (true, None) => format!("{{\"log\":{},\"answer\":\"unreadable\"}}\n", quoted(&name)),
            (true, Some(number)) => {
                let label = if said == "refused" { "refused" } else { "steps" };
                format!("{{\"log\":{},\"answer\":\"{said}\",\"{label}\":{number}}}\n", quoted(&name))
            }
        }
    }
}

pub fn tray(arguments: &Arguments) -> Done<Answer> {
    let (table, [pattern]) = files::read(&arguments.operands[0], [&arguments.operands[1]])?;
    let limits = arguments.limits();
    let programs = [&pattern];
    // An empty tray says whether the table and the pattern serve.
    braid::tray(&table.image, &[0], &pattern.image, limits).map_err(explained(&table, &programs, arguments))?;
    let logs = logs_of(&arguments.operands[2..])?;
    let trays: Vec<&[OsString]> = logs.chunks(MOST_LOGS).collect();
    let next = AtomicUsize::new(0);
    let (sender, receiver) = mpsc::channel();
    let mut counts = Counts::default();
    let progress = std::io::stderr().is_terminal();
    let written = std::thread::scope(|scope| {
        for _ in 0..std::thread::available_parallelism().map_or(1, usize::from).min(trays.len()) {
            let (sender, table, pattern, trays, next) = (sender.clone(), &table, &pattern, &trays, &next);
            scope.spawn(move || loop {
                let k = next.fetch_add(1, Ordering::Relaxed);
                let Some(names) = trays.get(k) else {
                    return;
                };
                if sender.send((k, compared(table, &pattern.image, names, limits))).is_err() {
                    return;
                }
            });
        }
        drop(sender);
        let mut waiting = std::collections::BTreeMap::new();
        let mut told = 0;
        for (k, lines) in receiver {
            waiting.insert(k, lines);
            while let Some(lines) = waiting.remove(&told) {
                let text: String = lines.iter().zip(trays[told]).map(|(line, name)| counts.line(line, name, arguments.json)).collect();
                if let Err(what) = std::io::stdout().write_all(text.as_bytes()) {
                    next.store(usize::MAX / 2, Ordering::Relaxed);
                    return Err(what);
                }
                told += 1;
                if progress {
                    eprint!("\r{} of {} logs", (told * MOST_LOGS).min(logs.len()), logs.len());
                }
            }
        }
        Ok(())
    });
    if progress && !trays.is_empty() {
        eprintln!();
    }
    if let Err(what) = written {
        return if what.kind() == std::io::ErrorKind::BrokenPipe {
            Ok(Answer { fields: Vec::new(), text: Some(String::new()), status: AS_HOPED })
        } else {
            wrong(format!("standard output cannot be written: {what}"))
        };
    }
    eprintln!("{} same, {} different, {} refused, {} unreadable", counts.same, counts.different, counts.refused, counts.unreadable);
    let status = if counts.unreadable > 0 {
        WRONG
    } else if counts.different + counts.refused > 0 {
        OTHERWISE
    } else {
        AS_HOPED
    };
    Ok(Answer { fields: Vec::new(), text: Some(String::new()), status })
}
