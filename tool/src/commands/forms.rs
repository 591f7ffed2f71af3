//! show, pack and unpack: images, texts and plain forms.
use super::checks::fields;
use super::explained;
use crate::arguments::{shown, Arguments};
use crate::chains::{self, Entry};
use crate::end::{wrong, Done, End, AS_HOPED};
use crate::explain;
use crate::files::{self, Program, Table};
use crate::output::{moves, word, Answer, Value};
use crate::tables;
use braid::Refusal;
use std::ffi::OsString;

/// A chain is read by the library: what refuses it refuses it here. The program of no moves needs no workspace.
fn read_chain(table: &Table, chain: &[u8]) -> Result<(), Refusal> {
    let empty = [0, 0];
    braid::check(&table.image, &empty, &empty, chain, braid::Limits::default()).map(|_| ())
}

pub fn show(arguments: &Arguments) -> Done<Answer> {
    let name = &arguments.operands[0];
    let Some(table) = &arguments.table else {
        let table = Table { name: shown(name), image: files::image(name)? };
        let plain = braid::unpack_table(&table.image).map_err(explained(&table, &[], arguments))?;
        return Ok(Answer { fields: fields(&plain), text: Some(tables::text(&plain)), status: AS_HOPED });
    };
    let table = files::table(table)?;
    let program = Program { name: shown(name), image: files::image(name)? };
    let programs = [&program];
    if arguments.chain {
        read_chain(&table, &program.image)
            .map_err(|refusal| End::Refused(refusal, vec![format!("{}: {}", program.name, refusal.reason.text())]))?;
        let entries = chains::entries(&table.image, &program.image);
        let rows: Vec<Vec<i64>> = entries.iter().map(|entry| vec![entry.offset as i64, entry.a.into(), entry.b.into()]).collect();
        let text: String = entries.iter().map(|entry| format!("{} {} {}\n", entry.offset, entry.a, entry.b)).collect();
        return Ok(Answer { fields: vec![("entry", Value::Rows(rows))], text: Some(text), status: AS_HOPED });
    }
    let plain = braid::unpack_program(&table.image, &program.image).map_err(explained(&table, &programs, arguments))?;
    Ok(Answer { fields: vec![("program", Value::Numbers(moves(&plain)))], text: Some(word(&plain) + "\n"), status: AS_HOPED })
}

/// The file of -o, which pack and unpack want.
fn out(arguments: &Arguments) -> Done<&OsString> {
    match &arguments.out {
        Some(out) => Ok(out),
        None => wrong("-o is missing: it names the file that is written"),
    }
}

fn written(out: &OsString, bytes: &[u8]) -> Done<Answer> {
    files::write(out, bytes)?;
    Ok(Answer::new(AS_HOPED, vec![("bytes", Value::Number(bytes.len() as u64))]))
}

/// Entries as show prints them: an offset and two moves to a line.
fn read_entries(name: &str, text: &[u8], moves: u8) -> Done<Vec<Entry>> {
    let mut entries = Vec::new();
    let mut faults = Vec::new();
    let text = String::from_utf8_lossy(text);
    for (k, line) in text.lines().enumerate() {
        let numbers: Option<Vec<usize>> = line.split_whitespace().map(|piece| piece.parse().ok()).collect();
        match numbers.as_deref() {
            Some([offset, a, b]) if *offset < 1 << 15 && [a, b].into_iter().all(|m| (1..=usize::from(moves)).contains(m)) => {
                entries.push(Entry { offset: *offset, a: *a as u8, b: *b as u8 });
            }
            _ => faults.push(format!("{name}:{}:1: an entry is an offset from 0 to 32767 and two moves from 1 to {moves}", k + 1)),
        }
    }
    if entries.len() > 65_535 {
        faults.push(format!("{name}: a chain has at most 65535 entries"));
    }
    if faults.is_empty() {
        Ok(entries)
    } else {
        wrong(faults.join("\n"))
    }
}

pub fn pack(arguments: &Arguments) -> Done<Answer> {
    let (name, out) = (&arguments.operands[0], out(arguments)?);
    let Some(table) = &arguments.table else {
        let plain = files::plain_table(name)?;
        let most = arguments.answer.unwrap_or(braid::TABLE_BYTES);
        let image = braid::pack_table_within(&plain, most)
            .map_err(|refusal| End::Refused(refusal, vec![format!("{}: {}", shown(name), refusal.reason.text())]))?;
        return written(out, &image);
    };
    let table = files::table(table)?;
    let plain = braid::unpack_table(&table.image).map_err(explained(&table, &[], arguments))?;
    if arguments.chain {
        let entries = read_entries(&shown(name), &files::text(name)?, plain[0])?;
        let image = chains::image(plain[0], &entries);
        read_chain(&table, &image).map_err(explained(&table, &[], arguments))?;
        return written(out, &image);
    }
    let text = match name.as_encoded_bytes().strip_prefix(b"=") {
        Some(notation) => notation.to_vec(),
        None => files::without_line_end(files::text(name)?),
    };
    let most = arguments.answer.unwrap_or(braid::PROGRAM_BYTES);
    match braid::import(&table.image, &text).and_then(|moves| braid::pack_program_within(&table.image, &moves, most)) {
        Ok(image) => written(out, &image),
        Err(refusal) => Err(End::Refused(refusal, explain::of_text(&table, &shown(name), &text, refusal))),
    }
}

pub fn unpack(arguments: &Arguments) -> Done<Answer> {
    let (name, out) = (&arguments.operands[0], out(arguments)?);
    let Some(table) = &arguments.table else {
        let table = Table { name: shown(name), image: files::image(name)? };
        let most = arguments.answer.unwrap_or(braid::PLAIN_BYTES);
        let plain = braid::unpack_table_within(&table.image, most).map_err(explained(&table, &[], arguments))?;
        return written(out, &plain);
    };
    let table = files::table(table)?;
    let program = Program { name: shown(name), image: files::image(name)? };
    let programs = [&program];
    let most = arguments.answer.unwrap_or(braid::MOST_MOVES);
    let plain = braid::unpack_program_within(&table.image, &program.image, most).map_err(explained(&table, &programs, arguments))?;
    written(out, &plain)
}
