//! What a command answers: lines of a label and values, as the bench reader's, or one JSON object whose names are the labels.
use braid::{Place, Refusal};
use std::fmt::Write;

pub enum Value {
    Number(u64),
    Text(String),
    /// A word, or other numbers in a row.
    Numbers(Vec<i64>),
    /// A line for each, under one label.
    Rows(Vec<Vec<i64>>),
    /// Rows that a line shows otherwise than the object has them.
    Shown(Vec<(String, Vec<i64>)>),
}

pub struct Answer {
    pub fields: Vec<(&'static str, Value)>,
    /// Text that stands for the fields, where these are not to be shown line by line.
    pub text: Option<String>,
    pub status: u8,
}

impl Answer {
    pub fn new(status: u8, fields: Vec<(&'static str, Value)>) -> Answer {
        Answer { fields, text: None, status }
    }

    pub fn lines(&self) -> String {
        if let Some(text) = &self.text {
            return text.clone();
        }
        let mut lines = String::new();
        for (label, value) in &self.fields {
            match value {
                Value::Number(number) => line(&mut lines, label, &[number.to_string()]),
                Value::Text(text) => line(&mut lines, label, std::slice::from_ref(text)),
                Value::Numbers(numbers) => line(&mut lines, label, &texts(numbers)),
                Value::Rows(rows) => rows.iter().for_each(|row| line(&mut lines, label, &texts(row))),
                Value::Shown(rows) => rows.iter().for_each(|(shown, _)| line(&mut lines, label, std::slice::from_ref(shown))),
            }
        }
        lines
    }

    pub fn json(&self) -> String {
        let fields: Vec<String> = self.fields.iter().map(|(label, value)| format!("{}:{}", quoted(label), value.json())).collect();
        format!("{{{}}}\n", fields.join(","))
    }
}

impl Value {
    fn json(&self) -> String {
        match self {
            Value::Number(number) => number.to_string(),
            Value::Text(text) => quoted(text),
            Value::Numbers(numbers) => array(numbers),
            Value::Rows(rows) => format!("[{}]", rows.iter().map(|row| array(row)).collect::<Vec<String>>().join(",")),
            Value::Shown(rows) => format!("[{}]", rows.iter().map(|(_, row)| array(row)).collect::<Vec<String>>().join(",")),
        }
    }
}

fn texts(numbers: &[i64]) -> Vec<String> {
    numbers.iter().map(i64::to_string).collect()
}

fn array(numbers: &[i64]) -> String {
    format!("[{}]", texts(numbers).join(","))
}

/// A label, then the values, each after one space; a value of no characters leaves only the label.
fn line(lines: &mut String, label: &str, values: &[String]) {
    lines.push_str(label);
    for value in values.iter().filter(|value| !value.is_empty()) {
        let _ = write!(lines, " {value}");
    }
    lines.push('\n');
}

/// A text as JSON has it.
pub fn quoted(text: &str) -> String {
    let mut quoted = String::from("\"");
    for character in text.chars() {
        match character {
            '"' => quoted.push_str("\\\""),
            '\\' => quoted.push_str("\\\\"),
            control if (control as u32) < 0x20 => {
                let _ = write!(quoted, "\\u{:04x}", control as u32);
            }
            other => quoted.push(other),
        }
    }
    quoted.push('"');
    quoted
}

/// The reader's line of a refusal, or the same as an object: its number, its places, and of the mirror or the set that it is one.
pub fn refusal(refusal: Refusal, json: bool) -> String {
    let places: Vec<i64> = refusal.place.numbers().into_iter().map(i64::from).collect();
    if !json {
        let mut lines = String::new();
        line(&mut lines, "refused", &texts(&[vec![i64::from(refusal.number())], places].concat()));
        return lines;
    }
    let kind = match refusal.place {
        Place::None => "none",
        Place::Pair(..) => "pair",
        Place::Triple(..) => "triple",
        Place::MirrorTriple(..) => "mirror",
        Place::Set => "set",
    };
    format!(
        "{{\"refused\":{},\"place\":\"{kind}\",\"moves\":{},\"text\":{}}}\n",
        refusal.number(),
        array(&places),
        quoted(refusal.reason.text())
    )
}

/// Moves from their bytes: a back move negative.
pub fn moves(plain: &[u8]) -> Vec<i64> {
    plain.iter().map(|byte| if *byte > 128 { 128 - i64::from(*byte) } else { i64::from(*byte) }).collect()
}

/// Moves as text, one space between.
pub fn word(plain: &[u8]) -> String {
    texts(&moves(plain)).join(" ")
}
