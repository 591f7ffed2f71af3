//! The commands. Each reads its operands, calls the library and gives its answer.
mod chain;
mod checks;
mod compare;
mod forms;
mod layings;
mod reverse;
mod tray;

use crate::arguments::Arguments;
use crate::end::{Done, End};
use crate::explain;
use crate::files::{Program, Table};
use crate::output::Answer;
use braid::Refusal;

/// A refusal of a call, with what helps a person.
fn explained<'a>(table: &'a Table, programs: &'a [&'a Program], arguments: &'a Arguments) -> impl Fn(Refusal) -> End + 'a {
    move |refusal| End::Refused(refusal, explain::of_refusal(table, programs, arguments.limits(), refusal, arguments.left))
}

/// Runs a command; of a tray the lines have been written, and only the status is left.
pub fn run(name: &str, arguments: &Arguments) -> Done<Answer> {
    match name {
        "compare" => compare::compare(arguments),
        "needs" => compare::needs(arguments),
        "tray" => tray::tray(arguments),
        "chain" => chain::chain(arguments),
        "check" => chain::check(arguments),
        "reverse" => reverse::reverse(arguments),
        "remainder" => reverse::remainder(arguments),
        "clear" => checks::clear(arguments),
        "table" => checks::table(arguments),
        "ways" => layings::ways(arguments),
        "bed" => layings::bed(arguments),
        "show" => forms::show(arguments),
        "pack" => forms::pack(arguments),
        _ => forms::unpack(arguments),
    }
}
