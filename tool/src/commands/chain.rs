//! chain and check.
use super::explained;
use crate::arguments::Arguments;
use crate::chains::{self, Entry};
use crate::end::{wrong, Done, AS_HOPED, OTHERWISE};
use crate::files::{self, Program, Table};
use crate::output::{moves, word, Answer, Value};
use crate::tables;
use braid::{Chained, Limits, Passage};

/// The words of a chain, each confirmed by a call of check with the chain up to it.
fn words(table: &Table, first: &Program, entries: &[Entry], limits: Limits) -> Done<Vec<Vec<u8>>> {
    let unreadable = || wrong::<Vec<Vec<u8>>>("the library lists a chain that the tool cannot follow: please report it");
    let (Ok(plain), Ok(start)) = (braid::unpack_table(&table.image), braid::unpack_program(&table.image, &first.image)) else {
        return unreadable();
    };
    let parts = tables::parts(&plain);
    let mut words = vec![start];
    for (k, entry) in entries.iter().enumerate() {
        let Some(next) = chains::swapped(&parts, &words[k], *entry) else {
            return unreadable();
        };
        let image = chains::image(parts.moves, &entries[..=k]);
        let confirmed = match braid::pack_program(&table.image, &next) {
            Ok(program) => braid::check(&table.image, &first.image, &program, &image, limits) == Ok(Passage::Joins),
            // A word on the way may have more moves than an image holds: then nothing can be asked of it.
            Err(_) => next.len() > braid::MOST_MOVES,
        };
        if !confirmed {
            return unreadable();
        }
        words.push(next);
    }
    Ok(words)
}

pub fn chain(arguments: &Arguments) -> Done<Answer> {
    let [table, first, second] = &arguments.operands[..] else { unreachable!("the operands are counted") };
    let (table, [first, second]) = files::read(table, [first, second])?;
    let limits = arguments.limits();
    let programs = [&first, &second];
    let chained = braid::chain(&table.image, &first.image, &second.image, limits).map_err(explained(&table, &programs, arguments))?;
    let (steps, image) = match chained {
        Chained::Same { steps, image, .. } => (steps, image),
        Chained::Different { steps } => {
            return Ok(Answer::new(OTHERWISE, vec![("verdict", Value::Text("different".into())), ("steps", Value::Number(steps))]));
        }
    };
    if let Some(out) = &arguments.out {
        files::write(out, &image)?;
    }
    let entries = chains::entries(&table.image, &image);
    // As many bytes as the first program weighs suffice for every word on the way, and it weighs at most 32,760.
    let words = words(&table, &first, &entries, Limits { workspace: 32_760, ..limits })?;
    let plain = braid::unpack_table(&table.image).unwrap_or_default();
    let shown = |k: usize, moves: &[u8]| match entries.get(k) {
        Some(entry) => chains::marked(&tables::parts(&plain), moves, *entry),
        None => word(moves),
    };
    let rows = words.iter().enumerate().map(|(k, plain)| (shown(k, plain), moves(plain))).collect();
    let listed = entries.iter().map(|entry| vec![entry.offset as i64, entry.a.into(), entry.b.into()]).collect();
    let mut fields =
        vec![("verdict", Value::Text("same".into())), ("steps", Value::Number(steps)), ("entries", Value::Number(entries.len() as u64))];
    fields.push(("word", Value::Shown(rows)));
    if arguments.json {
        fields.push(("entry", Value::Rows(listed)));
    }
    Ok(Answer::new(AS_HOPED, fields))
}

pub fn check(arguments: &Arguments) -> Done<Answer> {
    let [table, first, second, chain] = &arguments.operands[..] else { unreachable!("the operands are counted") };
    let (table, [first, second]) = files::read(table, [first, second])?;
    let chain = Program { name: crate::arguments::shown(chain), image: files::image(chain)? };
    let passage = braid::check(&table.image, &first.image, &second.image, &chain.image, arguments.limits()).map_err(|refusal| {
        let programs = [&first, &second];
        let mut end = explained(&table, &programs, arguments)(refusal);
        if let crate::end::End::Refused(_, lines) = &mut end {
            // What is of neither program is of the chain.
            if (4..=6).contains(&refusal.number()) && lines == &[refusal.reason.text().to_string()] {
                *lines = vec![format!("{}: {}", chain.name, refusal.reason.text())];
            }
        }
        end
    })?;
    Ok(match passage {
        Passage::Joins => Answer::new(AS_HOPED, vec![("chain", Value::Text("joins".into()))]),
        Passage::Breaks(entry) => Answer::new(OTHERWISE, vec![("chain", Value::Text("breaks".into())), ("entry", Value::Number(entry))]),
        Passage::EndsElsewhere => Answer::new(OTHERWISE, vec![("chain", Value::Text("ends elsewhere".into()))]),
    })
}
