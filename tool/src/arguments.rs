//! The arguments of a call: a command, its operands, and options, which stand anywhere.
use crate::end::{wrong, Done};
use crate::help::{Command, COMMANDS};
use braid::Limits;
use std::ffi::{OsStr, OsString};

/// The largest area that can be asked for.
pub const LARGEST: u64 = 1 << 30;

#[derive(Default)]
pub struct Arguments {
    pub operands: Vec<OsString>,
    pub allowance: Option<u16>,
    pub workspace: Option<usize>,
    pub answer: Option<usize>,
    pub at: Option<u64>,
    pub out: Option<OsString>,
    pub table: Option<OsString>,
    pub json: bool,
    pub signed: bool,
    pub left: bool,
    pub mirror: bool,
    pub chain: bool,
}

pub enum Asked {
    Help(Option<&'static Command>),
    Version,
    Run(&'static Command, Arguments),
}

impl Arguments {
    pub fn limits(&self) -> Limits {
        let usual = Limits::default();
        Limits {
            allowance: self.allowance.unwrap_or(usual.allowance),
            workspace: self.workspace.unwrap_or(usual.workspace),
            answer: self.answer,
        }
    }
}

pub fn shown(text: &OsStr) -> String {
    text.to_string_lossy().into_owned()
}

/// A decimal number from 0 to a most.
fn number(option: &str, value: &OsStr, most: u64) -> Done<u64> {
    let text = value.to_string_lossy();
    let digits = !text.is_empty() && text.bytes().all(|byte| byte.is_ascii_digit());
    match text.parse::<u64>() {
        Ok(number) if digits && number <= most => Ok(number),
        _ => wrong(format!("{option} wants a number from 0 to {most}, and not '{text}'")),
    }
}

/// Sets an option, with its value where it has one.
fn set(arguments: &mut Arguments, option: &str, value: Option<OsString>) -> Done<()> {
    let twice = || wrong(format!("{option} stands twice"));
    let value = value.unwrap_or_default();
    match option {
        "--allowance" if arguments.allowance.is_some() => return twice(),
        "--workspace" if arguments.workspace.is_some() => return twice(),
        "--answer" if arguments.answer.is_some() => return twice(),
        "--at" if arguments.at.is_some() => return twice(),
        "--table" if arguments.table.is_some() => return twice(),
        "-o" if arguments.out.is_some() => return twice(),
        "--allowance" => arguments.allowance = Some(number(option, &value, 65_535)? as u16),
        "--workspace" => arguments.workspace = Some(number(option, &value, LARGEST)? as usize),
        "--answer" => arguments.answer = Some(number(option, &value, LARGEST)? as usize),
        "--at" => arguments.at = Some(number(option, &value, u64::MAX)?),
        "--table" => arguments.table = Some(value),
        "-o" => arguments.out = Some(value),
        "--json" => arguments.json = true,
        "--signed" => arguments.signed = true,
        "--left" => arguments.left = true,
        "--mirror" => arguments.mirror = true,
        _ => arguments.chain = true,
    }
    Ok(())
}

const WITH_VALUE: [&str; 6] = ["--allowance", "--workspace", "--answer", "--at", "--table", "-o"];
const FOR_ALL: [&str; 4] = ["--allowance", "--workspace", "--answer", "--json"];

pub fn read(given: impl Iterator<Item = OsString>) -> Done<Asked> {
    let mut command: Option<&'static Command> = None;
    let mut arguments = Arguments::default();
    let mut options: Vec<String> = Vec::new();
    let (mut help, mut version, mut only_operands) = (false, false, false);
    let mut given = given;
    while let Some(argument) = given.next() {
        let text = shown(&argument);
        // A dash alone is standard input.
        if only_operands || !text.starts_with('-') || text == "-" {
            if command.is_none() {
                command = COMMANDS.iter().find(|command| command.name == text);
                if command.is_none() {
                    let names: Vec<&str> = COMMANDS.iter().map(|command| command.name).collect();
                    return wrong(format!("there is no command '{text}': the commands are {}", names.join(", ")));
                }
            } else {
                arguments.operands.push(argument);
            }
            continue;
        }
        match text.as_str() {
            "--" => only_operands = true,
            "--help" | "-h" => help = true,
            "--version" => version = true,
            option => {
                let value = if WITH_VALUE.contains(&option) {
                    match given.next() {
                        Some(value) => Some(value),
                        None => return wrong(format!("{option} wants a value behind it")),
                    }
                } else {
                    None
                };
                let known = FOR_ALL.contains(&option) || COMMANDS.iter().any(|command| command.options.contains(&option));
                if !known {
                    return wrong(format!("there is no option {option}: 'braid --help' has all"));
                }
                set(&mut arguments, option, value)?;
                options.push(option.to_string());
            }
        }
    }
    if version {
        return Ok(Asked::Version);
    }
    if help {
        return Ok(Asked::Help(command));
    }
    let Some(command) = command else {
        return wrong("a command is missing: 'braid --help' has all");
    };
    if let Some(option) = options.iter().find(|option| !FOR_ALL.contains(&option.as_str()) && !command.options.contains(&option.as_str())) {
        return wrong(format!("{option} is no option of {}: 'braid {} --help' has its options", command.name, command.name));
    }
    let count = arguments.operands.len();
    if count < command.operands.len() || (count > command.operands.len() && !command.many) {
        return wrong(format!("{} wants {}, and {count} are given: usage: {}", command.name, command.operands.join(", "), command.usage()));
    }
    if arguments.operands.iter().chain(&arguments.table).filter(|operand| *operand == "-").count() > 1 {
        return wrong("standard input stands twice: it can be read once");
    }
    if arguments.chain && arguments.table.is_none() {
        return wrong("--chain wants --table, under which a chain has its meaning");
    }
    Ok(Asked::Run(command, arguments))
}
