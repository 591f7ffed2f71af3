//! clear and table: what a table passes.
use super::compare::least_limits;
use super::explained;
use crate::arguments::Arguments;
use crate::end::{Done, AS_HOPED};
use crate::files::{self, Table};
use crate::output::{Answer, Value};
use crate::sha256::sha256;
use crate::tables;
use braid::{Limits, Place, Reason, Refusal};

pub fn clear(arguments: &Arguments) -> Done<Answer> {
    let table = files::table(&arguments.operands[0])?;
    let call = if arguments.mirror { braid::mirror_clear } else { braid::clear };
    call(&table.image, arguments.limits()).map_err(explained(&table, &[], arguments))?;
    Ok(Answer::new(AS_HOPED, vec![(if arguments.mirror { "mirror" } else { "table" }, Value::Text("clears".into()))]))
}

/// A refusal in a line: its number, its places and its sentence.
fn told(refusal: Refusal) -> String {
    refusal.to_string()
}

/// What a table passes, by calls of the library: each check by its name.
fn passes(table: &Table, limits: Limits) -> Vec<(&'static str, String)> {
    let cleared = braid::clear(&table.image, limits);
    let weights = match cleared {
        Err(refusal) if refusal.reason == Reason::UnequalWeights => told(refusal),
        _ => "passes".into(),
    };
    let cube = match cleared {
        Err(refusal) if refusal.reason == Reason::UnequalWeights => "is not made where the weights fail".into(),
        other => other.map_or_else(told, |()| "passes".to_string()),
    };
    let empty = [0, 0];
    let set = match braid::compare_signed(&table.image, &empty, &empty, limits) {
        Ok(_) => "closes".to_string(),
        Err(refusal) if matches!(refusal.reason, Reason::SetOpenPair | Reason::SetTooLarge) || refusal.place == Place::Set => told(refusal),
        Err(_) => "is not grown where a check fails".into(),
    };
    let mirror = braid::mirror_clear(&table.image, limits).map_or_else(told, |()| "clears".to_string());
    let mut lines = vec![("weight check", weights), ("cube check", cube), ("mirror", mirror), ("set", set)];
    if cleared.is_ok() {
        let (allowance, workspace) = least_limits(|limits| braid::clear(&table.image, limits).is_ok());
        lines.push(("clearing needs", format!("allowance {allowance}, workspace {workspace}")));
    }
    let digest: String = sha256(&table.image).iter().take(8).map(|byte| format!("{byte:02x}")).collect();
    lines.push(("sha256", digest));
    lines
}

/// The fields of a table for an object.
pub fn fields(plain: &[u8]) -> Vec<(&'static str, Value)> {
    let parts = tables::parts(plain);
    let row = |numbers: &[u8]| numbers.iter().map(|number| i64::from(*number)).collect::<Vec<i64>>();
    let sides = parts.relations.iter().flat_map(|(one, two)| [row(one), row(two)]).collect();
    vec![("moves", Value::Number(parts.moves.into())), ("weights", Value::Numbers(row(&parts.weights))), ("sides", Value::Rows(sides))]
}

pub fn table(arguments: &Arguments) -> Done<Answer> {
    let table = files::table(&arguments.operands[0])?;
    let plain = braid::unpack_table(&table.image).map_err(explained(&table, &[], arguments))?;
    let passes = passes(&table, arguments.limits());
    let lines: Vec<String> = passes.iter().map(|(name, said)| format!("# {name} {said}\n")).collect();
    let mut fields = fields(&plain);
    fields.extend(passes.into_iter().map(|(name, said)| (name, Value::Text(said))));
    Ok(Answer { fields, text: Some(tables::text(&plain) + &lines.concat()), status: AS_HOPED })
}
