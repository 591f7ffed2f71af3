//! A chain between two joined programs, as the hint of specification 6.6 finds one.
use crate::image::Entry;
use crate::table::Table;

/// What is still to be done for the second program.
enum Task {
    /// Bring this move to the end of the moves that are done.
    Bring(u8),
    /// a and C(a,b) stand side by side at the end of the moves that are done: list the entry.
    List(u8, u8),
}

/// The entries of a chain from the first program to the second, where the reversing of the first one's undoing, followed by the second, ends empty.
pub fn listed(table: &Table, first: &[i8], second: &[i8]) -> Vec<Entry> {
    // Both stand with the next move last.
    let mut rest: Vec<u8> = first.iter().rev().map(|m| *m as u8).collect();
    let mut tasks: Vec<Task> = second.iter().rev().map(|m| Task::Bring(*m as u8)).collect();
    let (mut done, mut entries) = (0, Vec::new());
    while let Some(task) = tasks.pop() {
        match task {
            Task::Bring(b) => {
                let a = rest.pop().expect("the programs are joined");
                done += 1;
                if a != b {
                    let there = table.completion(a, b).expect("no open pair is met");
                    tasks.push(Task::List(a, b));
                    tasks.extend(there.iter().rev().map(|m| Task::Bring(*m as u8)));
                }
            }
            Task::List(a, b) => {
                let there = table.completion(a, b).expect("no open pair is met");
                let back = table.completion(b, a).expect("no open pair is met");
                let offset = done - 1 - there.len();
                entries.push(Entry { offset, a, b });
                done = offset + 1;
                rest.extend(back.iter().rev().map(|m| *m as u8));
            }
        }
    }
    entries
}
