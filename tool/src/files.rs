//! Tables, programs and chains from their arguments, and files that are written.
use crate::arguments::shown;
use crate::end::{wrong, Done, End};
use crate::explain;
use crate::tables;
use braid::Refusal;
use std::ffi::OsStr;
use std::io::Read;

/// Of an image at most so many bytes are read: no image has as many, so that what lies behind changes no refusal.
const IMAGE: u64 = 1 << 20;
/// The longest text.
const TEXT: u64 = 1 << 24;

/// Whether a file is text by its name.
fn is_text(name: &OsStr) -> bool {
    name.as_encoded_bytes().ends_with(b".txt")
}

fn bytes(name: &OsStr, most: u64) -> Done<Vec<u8>> {
    let mut bytes = Vec::new();
    let read = if name == "-" {
        std::io::stdin().lock().take(most).read_to_end(&mut bytes)
    } else {
        std::fs::File::open(name).and_then(|file| file.take(most).read_to_end(&mut bytes))
    };
    match read {
        Ok(_) => Ok(bytes),
        Err(what) => wrong(format!("{} cannot be read: {what}", shown(name))),
    }
}

/// An image as it stands in a file.
pub fn image(name: &OsStr) -> Done<Vec<u8>> {
    bytes(name, IMAGE)
}

pub fn text(name: &OsStr) -> Done<Vec<u8>> {
    let text = bytes(name, TEXT + 1)?;
    if text.len() as u64 > TEXT {
        return wrong(format!("{} has more than {TEXT} bytes: no text is as long", shown(name)));
    }
    Ok(text)
}

/// A table as it was given.
pub struct Table {
    pub name: String,
    pub image: Vec<u8>,
}

/// The plain form of a table text; its errors are told all at once.
pub fn plain_table(name: &OsStr) -> Done<Vec<u8>> {
    tables::read(&text(name)?).map_err(|faults| {
        let lines: Vec<String> =
            faults.iter().map(|fault| format!("{}:{}:{}: {}", shown(name), fault.line, fault.column, fault.what)).collect();
        End::Wrong(lines.join("\n"))
    })
}

pub fn table(name: &OsStr) -> Done<Table> {
    let given = shown(name);
    let packed = |plain: &[u8]| {
        braid::pack_table(plain).map_err(|refusal| End::Refused(refusal, vec![format!("{given}: {}", refusal.reason.text())]))
    };
    let image = if let Some(moves) = given.strip_prefix("braid:") {
        match moves.parse::<u8>() {
            Ok(count) if (1..=16).contains(&count) && !moves.starts_with(['0', '+']) => packed(&tables::braid_table(count))?,
            _ => return wrong(format!("braid:N is the braid table of 1 to 16 moves, and there is none of '{moves}'")),
        }
    } else if is_text(name) {
        packed(&plain_table(name)?)?
    } else {
        image(name)?
    };
    Ok(Table { name: given, image })
}

/// A program's image, from an argument, under a table.
pub struct Program {
    pub name: String,
    pub image: Vec<u8>,
}

/// What stands in a program's argument, before a table is asked.
pub enum Given {
    Image(Vec<u8>),
    Text(Vec<u8>),
}

pub fn given(name: &OsStr) -> Done<Given> {
    if let Some(notation) = name.as_encoded_bytes().strip_prefix(b"=") {
        return Ok(Given::Text(notation.to_vec()));
    }
    if !is_text(name) {
        return Ok(Given::Image(image(name)?));
    }
    Ok(Given::Text(without_line_end(text(name)?)))
}

/// Takes one LF or CRLF off the end, and nothing else.
pub fn without_line_end(mut text: Vec<u8>) -> Vec<u8> {
    if text.last() == Some(&b'\n') {
        text.pop();
        if text.last() == Some(&b'\r') {
            text.pop();
        }
    }
    text
}

/// The image of what was given: a text is read by the library.
pub fn imported(table: &Table, given: Given) -> Result<Vec<u8>, (Refusal, Vec<u8>)> {
    match given {
        Given::Image(image) => Ok(image),
        Given::Text(text) => match braid::import(&table.image, &text).and_then(|moves| braid::pack_program(&table.image, &moves)) {
            Ok(image) => Ok(image),
            Err(refusal) => Err((refusal, text)),
        },
    }
}

pub fn program(table: &Table, name: &OsStr) -> Done<Program> {
    let given = given(name)?;
    match imported(table, given) {
        Ok(image) => Ok(Program { name: shown(name), image }),
        Err((refusal, text)) => Err(End::Refused(refusal, explain::of_text(table, &shown(name), &text, refusal))),
    }
}

/// A table and programs, read in this order.
pub fn read<const N: usize>(table: &OsStr, programs: [&OsStr; N]) -> Done<(Table, [Program; N])> {
    let table = self::table(table)?;
    let mut read = Vec::new();
    for name in programs {
        read.push(program(&table, name)?);
    }
    let programs = read.try_into().unwrap_or_else(|_| unreachable!("one is read for each"));
    Ok((table, programs))
}

/// Writes a file.
pub fn write(name: &OsStr, bytes: &[u8]) -> Done<()> {
    std::fs::write(name, bytes).or_else(|what| wrong(format!("{} cannot be written: {what}", shown(name))))
}
