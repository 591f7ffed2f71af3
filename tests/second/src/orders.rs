//! Reversing with the steps in another order (specification 3.7): no limit of workspace, and no more steps than are allowed.
use crate::random::Random;
use crate::reversing::Ending;
use crate::table::Table;
use crate::word::{undoing, Word};

pub enum Order {
    /// The rightmost site, whether its pair is open or not.
    Rightmost,
    /// Any site whose pair is not open, as long as there is one.
    Random(Random),
}

struct Site<'a> {
    at: usize,
    completions: Option<(&'a [i8], &'a [i8])>,
}

/// All sites of a word, from the right.
fn sites<'a>(table: &'a Table, word: &[i8]) -> Vec<Site<'a>> {
    let mut found = Vec::new();
    for at in (1..word.len()).rev().map(|second| second - 1) {
        if word[at] < 0 && word[at + 1] > 0 {
            let (a, b) = (word[at].unsigned_abs(), word[at + 1].unsigned_abs());
            let completions = table.completion(a, b).zip(table.completion(b, a));
            found.push(Site { at, completions });
        }
    }
    found
}

pub fn reverse(table: &Table, start: &[i8], mut order: Order, allowed: usize) -> Ending {
    let mut word: Word = start.to_vec();
    let (mut steps, mut swaps) = (0, 0);
    loop {
        let mut open = sites(table, &word);
        let Some(rightmost) = open.first() else {
            let numerator: Word = word.iter().copied().take_while(|m| *m > 0).collect();
            let denominator = undoing(&word[numerator.len()..]);
            return Ending::Finished { numerator, denominator, steps, swaps };
        };
        let (a, b) = (word[rightmost.at].unsigned_abs(), word[rightmost.at + 1].unsigned_abs());
        let chosen = match &mut order {
            Order::Rightmost => open.swap_remove(0),
            Order::Random(random) => {
                open.retain(|site| site.completions.is_some());
                if open.is_empty() {
                    return Ending::Open { a, b, steps };
                }
                open.swap_remove(random.below(open.len()))
            }
        };
        let Some((there, back)) = chosen.completions else {
            return Ending::Open { a, b, steps };
        };
        if steps == allowed {
            return Ending::AllowanceUsed;
        }
        swaps += usize::from(word[chosen.at] + word[chosen.at + 1] != 0);
        let tail = word.split_off(chosen.at + 2);
        word.truncate(chosen.at);
        word.extend(there);
        word.extend(undoing(back));
        word.extend(tail);
        steps += 1;
    }
}
