//! Vectors: a call with the lengths of its areas and what it must leave, and the text of a file of them (conformity/README.md).
use second::call::Call;
use second::expected::{expected, Expected};
use second::reversing::Most;
use std::collections::HashSet;
use std::fmt::Write;

/// Guard bytes on both sides of every image and area.
const GUARDS: usize = 32;
/// The longest word on the way of a listed chain.
const LONGEST_WORD: usize = 32_760;
/// Of a title a runner reports so many characters.
const TITLE: usize = 160;

pub struct Vector {
    pub title: String,
    pub call: Call,
    pub workspace: usize,
    pub answer: usize,
    pub must: Expected,
}

/// Bytes in hexadecimal; four or more equal ones are written once, with their number.
fn bytes(bytes: &[u8]) -> String {
    if bytes.is_empty() {
        return "-".into();
    }
    let mut words = Vec::new();
    let mut rest = bytes;
    while let Some(byte) = rest.first() {
        let same = rest.iter().take_while(|other| *other == byte).count();
        if same >= 4 {
            words.push(format!("{byte:02X}*{same}"));
        } else {
            words.extend((0..same).map(|_| format!("{byte:02X}")));
        }
        rest = &rest[same..];
    }
    words.join(" ")
}

fn numbers(numbers: &[u64]) -> String {
    numbers.iter().map(u64::to_string).collect::<Vec<String>>().join(" ")
}

impl Vector {
    /// The call, the result and the first value where it tells outcomes apart.
    pub fn outcome(&self) -> (&'static str, u8, u64) {
        (self.call.name(), self.must.result, self.call.told_apart(self.must.result, self.must.values))
    }

    /// The bytes that a runner takes for the case.
    pub fn memory(&self) -> usize {
        let images: usize = self.call.images().iter().map(|(_, image)| image.len() + GUARDS).sum();
        let workspace = if self.call.has_workspace() { self.workspace + GUARDS } else { 0 };
        let answer = if self.call.has_answer() { self.answer + GUARDS } else { 0 };
        let expected = match self.must.listed {
            Some(_) => LONGEST_WORD,
            None if self.call.has_answer() => self.must.written.len() + GUARDS,
            None => 0,
        };
        images + workspace + answer + expected
    }

    /// The inputs, a key to a line.
    fn inputs(&self) -> String {
        let mut text = String::new();
        let mut line = |key: &str, value: String| writeln!(text, "{key} {value}").expect("a string takes all");
        line("call", self.call.name().into());
        line("memory", self.memory().to_string());
        for (key, image) in self.call.images() {
            line(key, bytes(image));
        }
        if let Some(allowance) = self.call.allowance() {
            line("allowance", allowance.to_string());
        }
        match &self.call {
            Call::Commit { numbers: handed, .. } => line("numbers", numbers(handed)),
            Call::Bed { moves, .. } => line("moves", moves.to_string()),
            _ => {}
        }
        if self.call.has_workspace() {
            line("workspace", self.workspace.to_string());
        }
        if self.call.has_answer() {
            line("answer", self.answer.to_string());
        }
        text
    }

    pub fn block(&self) -> String {
        let mut text =
            format!("case {}\n{}result {}\nvalues {}\n", self.title, self.inputs(), self.must.result, numbers(&self.must.values));
        if let Some((entries, bytes)) = self.must.listed {
            text += &format!("lists {entries} {bytes}\n");
        } else if self.call.has_answer() {
            text += &format!("leaves {}\n", bytes(&self.must.written));
        }
        if self.call.has_workspace() {
            text += if self.must.workspace_kept { "ends found\n" } else { "ends zero\n" };
        }
        text
    }
}

/// The text of a file of vectors.
pub fn file<'a>(vectors: impl Iterator<Item = &'a Vector>) -> String {
    let mut text = String::from("braid vectors 1\n\n");
    let mut count = 0;
    for vector in vectors {
        text += &vector.block();
        text.push('\n');
        count += 1;
    }
    text + &format!("end {count}\n")
}

/// The vectors made so far, none with the same inputs as another.
#[derive(Default)]
pub struct Book {
    pub vectors: Vec<Vector>,
    inputs: HashSet<String>,
}

impl Book {
    /// A case of a section of the specification, unless its inputs were there before. What it tests is told after the call's name.
    pub fn add(&mut self, section: &str, what: &str, call: Call, workspace: usize, answer: usize) {
        let must = expected(&call, workspace, answer, &mut Most::default());
        let title = format!("{section}: {}: {what}", call.name());
        assert!(title.is_ascii() && title.len() <= TITLE, "this title is no line of {TITLE} characters: {title}");
        let vector = Vector { title, call, workspace, answer, must };
        if self.inputs.insert(vector.inputs()) {
            self.vectors.push(vector);
        }
    }

    /// The same, where the text of the specification says the result and the values, or this file's own reading of it does.
    pub fn gives(&mut self, section: &str, what: &str, call: Call, (workspace, answer): (usize, usize), result: u8, values: [u64; 4]) {
        let must = expected(&call, workspace, answer, &mut Most::default());
        assert_eq!((must.result, must.values), (result, values), "{section}: {}: {what}", call.name());
        self.add(section, what, call, workspace, answer);
    }
}
