//! ways and bed: how a program can be laid, and what it leaves.
use super::explained;
use crate::arguments::Arguments;
use crate::end::{Done, AS_HOPED};
use crate::files;
use crate::output::{moves, Answer, Value};

/// The area of ways where none is named.
const WAYS: usize = 1 << 20;

pub fn ways(arguments: &Arguments) -> Done<Answer> {
    let [table, program] = &arguments.operands[..] else { unreachable!("the operands are counted") };
    let (table, [program]) = files::read(table, [program])?;
    let programs = [&program];
    let ways =
        braid::ways(&table.image, &program.image, arguments.answer.unwrap_or(WAYS)).map_err(explained(&table, &programs, arguments))?;
    Ok(Answer::new(AS_HOPED, vec![("way", Value::Rows(ways.iter().map(|way| moves(way)).collect()))]))
}

pub fn bed(arguments: &Arguments) -> Done<Answer> {
    let [table, program] = &arguments.operands[..] else { unreachable!("the operands are counted") };
    let (table, [program]) = files::read(table, [program])?;
    let programs = [&program];
    let bed = braid::bed(&table.image, &program.image, arguments.at.unwrap_or(u64::MAX), arguments.limits())
        .map_err(explained(&table, &programs, arguments))?;
    let count = usize::from(table.image[0] >> 4) + 2;
    let (places, totals) = bed.split_at(count);
    let mut totals = totals.chunks(2).map(|two| i64::from(i16::from_be_bytes([two[0], two[1]])));
    let mut rows = Vec::new();
    for p in 1..=count as i64 {
        for q in p + 1..=count as i64 {
            rows.push(vec![p, q, totals.next().unwrap_or(0)]);
        }
    }
    let bobbins = places.iter().map(|bobbin| i64::from(*bobbin)).collect();
    Ok(Answer::new(AS_HOPED, vec![("bobbins", Value::Numbers(bobbins)), ("total", Value::Rows(rows))]))
}
