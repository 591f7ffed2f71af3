//! Reversing, word by word: the leftmost pair is looked for from the first move on, and a step splices the vector.
use crate::table::Table;
use crate::word::{undoing, Word};

/// How a reversing ends. `swaps` are those of the steps that were on two different moves.
#[derive(Clone, Debug, PartialEq)]
pub enum Ending {
    Finished { numerator: Word, denominator: Word, steps: usize, swaps: usize },
    Open { a: u8, b: u8, steps: usize },
    AllowanceUsed,
    WorkspaceShort,
}

/// What the reversings of a call came to at most: the steps of one, and the bytes of workspace in use.
#[derive(Clone, Copy, Debug, Default, PartialEq)]
pub struct Most {
    pub steps: usize,
    pub bytes: usize,
}

#[derive(Clone, Copy, Debug)]
pub struct Limits {
    pub allowance: usize,
    pub workspace: usize,
}

fn leftmost(word: &[i8]) -> Option<usize> {
    word.windows(2).position(|pair| pair[0] < 0 && pair[1] > 0)
}

/// Reverses a word. `kept` bytes of the workspace hold something else meanwhile.
pub fn reverse(table: &Table, start: Word, kept: usize, limits: Limits, most: &mut Most) -> Ending {
    let mut word = start;
    let (mut steps, mut swaps) = (0, 0);
    most.bytes = most.bytes.max(kept + word.len());
    if kept + word.len() > limits.workspace {
        return Ending::WorkspaceShort;
    }
    loop {
        let Some(at) = leftmost(&word) else {
            let split = word.iter().position(|m| *m < 0).unwrap_or(word.len());
            let denominator = undoing(&word[split..]);
            word.truncate(split);
            return Ending::Finished { numerator: word, denominator, steps, swaps };
        };
        let (a, b) = ((-word[at]) as u8, word[at + 1] as u8);
        let (Some(there), Some(back)) = (table.completion(a, b), table.completion(b, a)) else {
            return Ending::Open { a, b, steps };
        };
        if steps == limits.allowance {
            return Ending::AllowanceUsed;
        }
        let longer = kept + word.len() - 2 + there.len() + back.len();
        most.bytes = most.bytes.max(longer);
        if longer > limits.workspace {
            return Ending::WorkspaceShort;
        }
        word.splice(at..at + 2, there.iter().copied().chain(undoing(back)));
        steps += 1;
        swaps += usize::from(a != b);
        most.steps = most.steps.max(steps);
    }
}
