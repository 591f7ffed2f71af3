//! The words joined to a word, by search: for short words under relations whose sides weigh the same. Joined words then weigh the same too, though
//! their lengths may differ, so that there are finitely many.
use crate::chain::swapped;
use crate::table::Table;
use crate::tables::fitting;
use crate::word::Word;
use std::collections::HashSet;

/// All words joined to one, or none where there are more than `most`.
pub fn class(table: &Table, word: &[i8], most: usize) -> Option<HashSet<Word>> {
    let mut found = HashSet::from([word.to_vec()]);
    let mut open = vec![word.to_vec()];
    while let Some(word) = open.pop() {
        for entry in fitting(table, &word) {
            let next = swapped(table, &word, entry).unwrap();
            if found.insert(next.clone()) {
                open.push(next);
            }
        }
        if found.len() > most {
            return None;
        }
    }
    Some(found)
}
