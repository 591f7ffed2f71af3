//! reverse and remainder.
use super::explained;
use crate::arguments::Arguments;
use crate::end::{Done, AS_HOPED, OTHERWISE};
use crate::files;
use crate::output::{moves, Answer, Value};
use braid::Remainder;

pub fn reverse(arguments: &Arguments) -> Done<Answer> {
    let [table, program] = &arguments.operands[..] else { unreachable!("the operands are counted") };
    let (table, [program]) = files::read(table, [program])?;
    let call = if arguments.left { braid::left_reverse } else { braid::reverse };
    let programs = [&program];
    let refused = explained(&table, &programs, arguments);
    let fraction = call(&table.image, &program.image, arguments.limits()).map_err(&refused)?;
    let plain = braid::unpack_program(&table.image, &program.image).map_err(&refused)?;
    let fields = vec![
        ("moves", Value::Number(u64::from(table.image[0] >> 4) + 1)),
        ("program", Value::Numbers(moves(&plain))),
        ("numerator", Value::Numbers(moves(&fraction.numerator))),
        ("denominator", Value::Numbers(moves(&fraction.denominator))),
        ("steps", Value::Number(fraction.steps)),
    ];
    Ok(Answer::new(AS_HOPED, fields))
}

pub fn remainder(arguments: &Arguments) -> Done<Answer> {
    let [table, done, pattern] = &arguments.operands[..] else { unreachable!("the operands are counted") };
    let (table, [done, pattern]) = files::read(table, [done, pattern])?;
    let programs = [&done, &pattern];
    let left =
        braid::remainder(&table.image, &done.image, &pattern.image, arguments.limits()).map_err(explained(&table, &programs, arguments))?;
    Ok(match left {
        Remainder::Moves { moves: left, steps } => {
            Answer::new(AS_HOPED, vec![("remainder", Value::Numbers(moves(&left))), ("steps", Value::Number(steps))])
        }
        Remainder::None { steps } => {
            Answer::new(OTHERWISE, vec![("remainder", Value::Text("none".into())), ("steps", Value::Number(steps))])
        }
    })
}
