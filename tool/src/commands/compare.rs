//! compare and needs.
use super::explained;
use crate::arguments::Arguments;
use crate::end::{Done, AS_HOPED, OTHERWISE};
use crate::files;
use crate::output::{Answer, Value};
use braid::{Limits, Reason, Verdict};

fn verdict(verdict: Verdict) -> (u8, Value) {
    match verdict {
        Verdict::Same => (AS_HOPED, Value::Text("same".into())),
        Verdict::Different => (OTHERWISE, Value::Text("different".into())),
    }
}

pub fn compare(arguments: &Arguments) -> Done<Answer> {
    let [table, first, second] = &arguments.operands[..] else { unreachable!("the operands are counted") };
    let (table, [first, second]) = files::read(table, [first, second])?;
    let refused = explained;
    let programs = [&first, &second];
    if arguments.signed {
        let compared = braid::compare_signed(&table.image, &first.image, &second.image, arguments.limits());
        let compared = compared.map_err(refused(&table, &programs, arguments))?;
        let (status, said) = verdict(compared.verdict);
        let steps = vec![compared.first_steps as i64, compared.second_steps as i64];
        return Ok(Answer::new(status, vec![("verdict", said), ("steps", Value::Numbers(steps))]));
    }
    let compared = braid::compare(&table.image, &first.image, &second.image, arguments.limits());
    let compared = compared.map_err(refused(&table, &programs, arguments))?;
    let (status, said) = verdict(compared.verdict);
    Ok(Answer::new(status, vec![("verdict", said), ("steps", Value::Number(compared.steps))]))
}

/// The largest workspace that needs tries.
const MOST_WORKSPACE: usize = 2 << 20;

/// The least number from 0 to a most at which something holds, where it holds from some number on up to the most.
pub fn least(most: usize, holds: impl Fn(usize) -> bool) -> usize {
    let (mut fails, mut suffices) = (None, most);
    while suffices > fails.map_or(0, |fails: usize| fails + 1) {
        let from = fails.map_or(0, |fails| fails + 1);
        let middle = from + (suffices - from) / 2;
        if holds(middle) {
            suffices = middle;
        } else {
            fails = Some(middle);
        }
    }
    suffices
}

/// The least allowance and workspace at which a call answers: larger ones change no outcome but a stop, so that each can be halved by itself.
pub fn least_limits(answers: impl Fn(Limits) -> bool) -> (usize, usize) {
    let wide = Limits { allowance: u16::MAX, workspace: MOST_WORKSPACE, answer: None };
    let allowance = least(u16::MAX.into(), |allowance| answers(Limits { allowance: allowance as u16, ..wide }));
    let workspace = least(MOST_WORKSPACE, |workspace| answers(Limits { workspace, ..wide }));
    (allowance, workspace)
}

pub fn needs(arguments: &Arguments) -> Done<Answer> {
    let [table, first, second] = &arguments.operands[..] else { unreachable!("the operands are counted") };
    let (table, [first, second]) = files::read(table, [first, second])?;
    let wide = Limits { allowance: u16::MAX, workspace: MOST_WORKSPACE, answer: None };
    let call = |limits: Limits| braid::compare(&table.image, &first.image, &second.image, limits);
    let programs = [&first, &second];
    call(wide).map_err(explained(&table, &programs, arguments))?;
    let stopped =
        |limits: Limits| matches!(call(limits), Err(refusal) if matches!(refusal.reason, Reason::AllowanceUsed | Reason::WorkspaceShort));
    let (allowance, workspace) = least_limits(|limits| !stopped(limits));
    Ok(Answer::new(AS_HOPED, vec![("allowance", Value::Number(allowance as u64)), ("workspace", Value::Number(workspace as u64))]))
}
