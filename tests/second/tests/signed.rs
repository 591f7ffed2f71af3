//! The second implementation's comparison of programs of any signs (specification 6.18), held against a layout of the set byte by byte, against the steps
//! on signed words by search, and against the action of braids on a free group, which decides exactly.
use second::classes::class;
use second::free::act_alike;
use second::image::{program_image, table_image};
use second::mirror::mirror;
use second::outcome::{Place, Refusal, Verdict};
use second::random::Random;
use second::reversing::{Limits, Most};
use second::services::{cleared, compare_signed, cubes_hold};
use second::signed::{bytes_of, decide, grow, one_step, pairs_of, signed_class, signed_walk, Decision};
use second::table::Table;
use second::tables::mirror::{clears_alone, mirrored};
use second::tables::signed::{commuting, comparable, costly_mirror, cyclic, dihedral, folded, largest, multiple, product};
use second::tables::{braid, doubled, forward_word, signed_word};
use second::word::{undoing, Word};

const WIDE: Limits = Limits { allowance: 65_535, workspace: 32_768 };

fn grown(table: &Table, allowance: usize, workspace: usize) -> Result<Vec<Word>, Refusal> {
    grow(table, Limits { allowance, workspace }, &mut Most::default())
}

fn in_set(number: u8) -> Refusal {
    Refusal::at(number, Place::Set)
}

/// The outcome of the whole service.
fn outcome(table: &Table, first: &[i8], second: &[i8], limits: Limits) -> Result<Decision, Refusal> {
    let [first, second] = [first, second].map(|word| program_image(table.moves, word));
    compare_signed(&table_image(table), &first, &second, limits, &mut Most::default())
}

/// Whether two programs are the same under a table that clears both ways and whose set closes.
fn same(table: &Table, first: &[i8], second: &[i8]) -> bool {
    decide(table, first, second, WIDE, &mut Most::default()).unwrap().verdict == Verdict::Same
}

fn closes(table: &Table) -> bool {
    outcome(table, &[], &[], WIDE).is_ok()
}

#[test]
fn sizes_of_sets() {
    for (moves, words) in [(1, 2), (2, 5), (3, 36)] {
        assert_eq!(grown(&braid(moves), 65_535, 32_768).map(|set| set.len()), Ok(words));
    }
    assert_eq!(grown(&braid(4), 65_535, 32_768), Err(Refusal::plain(22)));
    assert_eq!(grown(&braid(2), 65_535, 32_768), Ok(vec![vec![], vec![1], vec![2], vec![2, 1], vec![1, 2]]));
    for length in 2..=16 {
        assert_eq!(grown(&dihedral(length), 65_535, 32_768).map(|set| set.len()), Ok(2 * length - 1));
    }
    for moves in 1..=16 {
        assert_eq!(grown(&commuting(moves), 65_535, 32_768).map(|set| set.len()), Ok(usize::from(moves) + 1));
    }
    for (one, two) in [(braid(2), braid(3)), (doubled(), cyclic(3)), (multiple(8), folded(2))] {
        let words = |table: &Table| grown(table, 65_535, 32_768).unwrap().len();
        assert_eq!(words(&product(&[one.clone(), two.clone()])), words(&one) + words(&two) - 1);
    }
}

/// Words are listed move for move: joined ones both are, and so are a word and its beginning.
#[test]
fn words_move_for_move() {
    let set = grown(&braid(3), 65_535, 32_768).unwrap();
    let of_different_classes = set.iter().enumerate().filter(|(k, word)| {
        let joined = class(&braid(3), word, 1_000).unwrap();
        !set[..*k].iter().any(|earlier| joined.contains(earlier))
    });
    // One for each permutation of four bobbins but the half twist.
    assert_eq!(of_different_classes.count(), 23);
    assert!(set.iter().any(|word| set.iter().any(|other| other.len() > word.len() && other.starts_with(word) && !word.is_empty())));
}

#[test]
fn the_256th_word() {
    let set = grown(&largest(false), 65_535, 32_768).unwrap();
    assert_eq!(set.len(), 256);
    assert_eq!(grown(&largest(true), 65_535, 32_768), Err(Refusal::plain(22)));
    assert!(closes(&largest(false)));
    for table in [largest(true), braid(4)] {
        let mut most = Most::default();
        assert_eq!(grow(&table, WIDE, &mut most), Err(Refusal::plain(22)));
        assert_eq!(grown(&table, 65_535, most.bytes), Err(Refusal::plain(22)));
        assert_eq!(grown(&table, 65_535, most.bytes - 1), Err(in_set(12)));
    }
}

#[test]
fn order_of_pairs() {
    assert_eq!(pairs_of(0), [(0, 0)]);
    assert_eq!(pairs_of(2), [(0, 2), (1, 2), (2, 0), (2, 1), (2, 2)]);
    let mut all: Vec<(usize, usize)> = (0..20).flat_map(|u| (0..20).map(move |v| (u, v))).collect();
    all.sort_by_key(|(u, v)| (*u.max(v), *u, *v));
    assert_eq!((0..20).flat_map(pairs_of).collect::<Vec<_>>(), all);
}

/// The pairs of moves are the first of all, by the higher one, then by the lower; so 21 names one of these.
#[test]
fn the_open_pair_that_comes_first() {
    let open = |pairs: &[(u8, u8)]| Table::from_pairs(4, |a, b| (!pairs.contains(&(a, b))).then(|| (vec![b as i8], vec![a as i8])));
    for (pairs, named) in [(&[(1, 4), (2, 3)][..], (2, 3)), (&[(1, 4), (3, 4)], (1, 4)), (&[(2, 4)], (2, 4)), (&[(1, 3), (1, 2)], (1, 2))] {
        assert_eq!(grown(&open(pairs), 65_535, 32_768), Err(Refusal::at(21, Place::Pair(named.0, named.1))));
    }
    let none = Table::from_pairs(16, |_, _| None);
    assert_eq!(grown(&none, 65_535, 32_768), Err(Refusal::at(21, Place::Pair(1, 2))));
    // 1 twice takes a step before, and two bytes beside those of 17 words.
    assert_eq!(grown(&none, 0, 32_768), Err(in_set(11)));
    assert_eq!([34, 35].map(|w| grown(&none, 65_535, w)), [Err(in_set(12)), Err(Refusal::at(21, Place::Pair(1, 2)))]);
}

/// A set as it stands in a workspace: a byte a move, a zero byte after each word, and behind them the word that is reversed. Both the words and the pairs
/// are taken from the bytes.
fn laid_out(table: &Table, allowance: usize, workspace: usize) -> Result<usize, Refusal> {
    let mut area: Vec<u8> = vec![0];
    (1..=table.moves).for_each(|m| area.extend([m, 0]));
    let mut taken = std::collections::HashSet::new();
    loop {
        let mut words: Vec<&[u8]> = area.split(|byte| *byte == 0).collect();
        words.pop();
        let places = (0..words.len()).flat_map(|u| (0..words.len()).map(move |v| (*[u, v].iter().max().unwrap(), u, v)));
        let Some(next) = places.filter(|place| !taken.contains(place)).min() else {
            return Ok(words.len());
        };
        taken.insert(next);
        let mut word: Vec<i8> = words[next.1].iter().rev().map(|m| -(*m as i8)).chain(words[next.2].iter().map(|m| *m as i8)).collect();
        let mut steps = 0;
        loop {
            if area.len() + word.len() > workspace {
                return Err(in_set(12));
            }
            let Some(at) = (1..word.len()).find(|k| word[k - 1] < 0 && word[*k] > 0) else {
                break;
            };
            let (a, b) = (word[at - 1].unsigned_abs(), word[at] as u8);
            let Some(there) = table.completion(a, b) else {
                return Err(Refusal::at(21, Place::Pair(a, b)));
            };
            if steps == allowance {
                return Err(in_set(11));
            }
            steps += 1;
            let put = [there, &undoing(table.completion(b, a).unwrap())].concat();
            word = [&word[..at - 1], &put, &word[at + 1..]].concat();
        }
        let found: Vec<u8> = word.iter().filter(|m| **m > 0).map(|m| *m as u8).collect();
        if words.contains(&found.as_slice()) {
            continue;
        }
        if words.len() == 256 {
            return Err(Refusal::plain(22));
        }
        area.extend(found);
        area.push(0);
    }
}

#[test]
fn every_workspace_length() {
    for (moves, enough) in [(1, 5), (2, 17)] {
        for workspace in 0..=60 {
            let set = grown(&braid(moves), 65_535, workspace);
            assert_eq!(set.as_ref().err(), (workspace < enough).then(|| in_set(12)).as_ref(), "{moves} moves, {workspace} bytes");
            let whole = outcome(&braid(moves), &[], &[], Limits { workspace, ..WIDE });
            let answer = Decision { verdict: Verdict::Same, first: 0, second: 0 };
            assert_eq!(whole, if workspace < enough { Err(in_set(12)) } else { Ok(answer) });
        }
    }
    // A cube check of the table comes before the set.
    for workspace in 0..=200 {
        let triple = Place::Triple(1, 2, 3);
        let must = match workspace {
            0..=10 => Some(Refusal::at(12, triple)),
            11..=165 => Some(in_set(12)),
            _ => None,
        };
        assert_eq!(outcome(&braid(3), &[], &[], Limits { workspace, ..WIDE }).err(), must, "{workspace} bytes");
    }
    for (allowance, enough) in [(0, false), (1, false), (2, false), (3, true), (4, true)] {
        let set = grown(&braid(2), allowance, 32_768);
        assert_eq!(set.err(), (!enough).then(|| in_set(11)));
    }
}

#[test]
fn sets_as_they_are_laid_out() {
    let open = Table::light(2, vec![None]);
    let mut random = Random::new(13);
    let random: Vec<Table> = (0..40).map(|_| comparable(&mut random)).filter(|table| table.moves <= 4).collect();
    for table in [braid(1), braid(2), doubled(), cyclic(3), dihedral(4), multiple(3), clears_alone(), open].iter().chain(&random) {
        for workspace in (0..=60).chain([200, 400]) {
            for allowance in [0, 1, 2, 3, 4, 5, 8, 40] {
                let (set, laid) = (grown(table, allowance, workspace), laid_out(table, allowance, workspace));
                assert_eq!(set.map(|set| set.len()), laid, "{table:?} {allowance} {workspace}");
            }
        }
    }
    assert_eq!(laid_out(&braid(3), 65_535, 166), Ok(36));
    assert_eq!(laid_out(&braid(3), 65_535, 165), Err(in_set(12)));
    assert_eq!(bytes_of(&grown(&braid(3), 65_535, 32_768).unwrap()), 151);
}

/// All words of so many moves at most.
fn words(moves: u8, longest: usize) -> Vec<Word> {
    let mut all = vec![Word::new()];
    let mut last = 0;
    for _ in 0..longest {
        let longer: Vec<Word> =
            all[last..].iter().flat_map(|word| (1..=moves as i8).flat_map(move |m| [m, -m].map(|m| [&word[..], &[m]].concat()))).collect();
        last = all.len();
        all.extend(longer);
    }
    all
}

/// Tables with a group that is known, and so many moves of a word as keep the number of all short.
fn known() -> Vec<(Table, usize)> {
    vec![(braid(1), 6), (braid(2), 4), (braid(3), 3), (doubled(), 4), (cyclic(3), 3), (folded(2), 4), (folded(3), 2)]
}

#[test]
fn every_two_short_programs_act_as_the_verdict_says() {
    for (table, longest) in known() {
        assert!(closes(&table), "{table:?}");
        let all = words(table.moves, longest);
        let mut alike = 0;
        for first in &all {
            for second in &all {
                let act = act_alike(&table, first, second).unwrap();
                assert_eq!(same(&table, first, second), act, "{table:?} {first:?} {second:?}");
                alike += usize::from(act);
            }
        }
        assert!(alike > all.len() && alike < all.len() * all.len(), "{table:?}");
    }
}

#[test]
fn longer_programs_act_as_the_verdict_says() {
    let mut random = Random::new(1);
    for (table, _) in known() {
        let mut verdicts = [0; 2];
        for _ in 0..400 {
            let length = random.between(4, 14);
            let first = signed_word(&mut random, table.moves, length);
            let steps = random.between(0, 12);
            let mut second = signed_walk(&mut random, &table, &first, steps, length + 6);
            if random.once_in(2) && !second.is_empty() {
                let (one, two) = (random.below(second.len()), random.below(second.len()));
                second.swap(one, two);
            }
            let verdict = same(&table, &first, &second);
            if let Some(act) = act_alike(&table, &first, &second) {
                assert_eq!(verdict, act, "{table:?} {first:?} {second:?}");
                verdicts[usize::from(act)] += 1;
            }
        }
        assert!(verdicts[1] > 0 && (verdicts[0] > 0 || table.moves == 1), "{table:?} {verdicts:?}");
    }
}

/// Where all moves commute, programs are the same exactly if each move is laid equally often, back moves taken away.
#[test]
fn commuting_moves_are_counted() {
    let mut random = Random::new(2);
    for _ in 0..2_000 {
        let moves = random.between(1, 6) as u8;
        let table = commuting(moves);
        let [first, second] = [(); 2].map(|()| {
            let length = random.below(7);
            signed_word(&mut random, moves.min(2), length)
        });
        let count = |word: &[i8]| {
            (1..=moves as i8).map(|m| word.iter().map(|x| if x.abs() == m { x.signum() } else { 0 }).sum()).collect::<Vec<i8>>()
        };
        assert_eq!(same(&table, &first, &second), count(&first) == count(&second), "{first:?} {second:?}");
    }
}

/// Whatever a search within a length finds is the same, and where a short program is the same, a chain is found.
#[test]
fn chains_that_a_search_finds() {
    for (table, longest, most) in
        [(braid(1), 6, 10_000), (braid(2), 8, 40_000), (doubled(), 8, 40_000), (cyclic(3), 6, 40_000), (multiple(3), 6, 10_000)]
    {
        let short = words(table.moves, 2);
        for first in &short {
            let found = signed_class(&table, first, longest, most);
            for second in found.iter().take(400) {
                assert!(same(&table, first, second), "{table:?} {first:?} {second:?}");
            }
            for second in &short {
                assert_eq!(same(&table, first, second), found.contains(second), "{table:?} {first:?} {second:?}");
            }
        }
    }
}

#[test]
fn steps_on_signed_words() {
    let mut found = one_step(&braid(2), &[-1, 1, 2, 1], 4);
    found.sort();
    assert_eq!(found, [vec![-1, 2, 1, 2], vec![2, 1]]);
    assert_eq!(one_step(&braid(2), &[1, 2, -1], 3), Vec::<Word>::new());
    assert_eq!(one_step(&braid(1), &[], 2), [[1, -1], [-1, 1]]);
}

/// Conjugates, commutators, pairs put in and taken out, under random tables whose sets close.
#[test]
fn programs_that_are_the_same() {
    let mut random = Random::new(3);
    let (mut tables, mut others) = (0, 0);
    while tables < 150 {
        let table = comparable(&mut random);
        if table.moves > 6 || outcome(&table, &[], &[], Limits { allowance: 300, workspace: 400 }).is_err() {
            continue;
        }
        tables += 1;
        let mut word = |longest: usize| {
            let length = random.below(longest);
            signed_word(&mut random, table.moves, length)
        };
        let (u, g, x) = (word(6), word(4), word(3));
        let v = signed_walk(&mut random, &table, &u, 6, u.len() + 6);
        let of = |words: &[&[i8]]| words.concat();
        let (back_u, back_g) = (undoing(&u), undoing(&g));
        assert!(same(&table, &u, &v), "{table:?} {u:?} {v:?}");
        assert!(same(&table, &of(&[&u, &back_u]), &[]) && same(&table, &of(&[&back_u, &u]), &[]), "{table:?} {u:?}");
        assert!(same(&table, &of(&[&u, &g, &back_g]), &v), "{table:?} {u:?} {g:?}");
        assert!(same(&table, &of(&[&g, &u, &back_g]), &of(&[&g, &v, &back_g])));
        // The commutator of u and g vanishes exactly if they commute, which is so exactly if g leaves u as its own conjugate.
        let commute = same(&table, &of(&[&u, &g]), &of(&[&g, &u]));
        assert_eq!(same(&table, &of(&[&u, &g, &back_u, &back_g]), &[]), commute);
        assert_eq!(same(&table, &of(&[&g, &u, &back_g]), &u), commute);
        // Moves put before both or after both, and the undoings of both, change no verdict; nor does the order of the two.
        let verdict = same(&table, &u, &x);
        others += usize::from(!verdict);
        assert_eq!(same(&table, &x, &u), verdict);
        assert_eq!(same(&table, &of(&[&g, &u, &x]), &of(&[&g, &x, &x])), verdict);
        assert_eq!(same(&table, &back_u, &undoing(&x)), verdict);
        assert_eq!(same(&table, &v, &x), verdict);
    }
    assert!(others > 30, "{others}");
}

#[test]
fn twists() {
    let mut random = Random::new(4);
    for moves in 1..=3 {
        let table = braid(moves);
        let twist: Word = (0..=moves).flat_map(|_| 1..=moves as i8).collect();
        for _ in 0..40 {
            let length = random.below(9);
            let word = signed_word(&mut random, moves, length);
            for twist in [twist.clone(), undoing(&twist)] {
                assert!(same(&table, &[&twist[..], &word].concat(), &[&word[..], &twist].concat()));
            }
        }
    }
    assert!(!same(&braid(2), &[1, 2, 1, 1], &[1, 1, 2, 1]));
    assert!(same(&braid(2), &[1, 2, 1, 1, -2, -1, -2], &[2]));
    assert!(same(&braid(3), &[1, 3, -1, -3], &[]));
    assert!(!same(&braid(3), &[1, 2, -1, -2], &[]));
}

#[test]
fn words_longer_than_any_program() {
    let word: Word = (0..1_000).flat_map(|_| [-2, 1]).collect();
    let limits = Limits { allowance: 7_000, workspace: 14_000 };
    let answer = Decision { verdict: Verdict::Same, first: 2_000, second: 7_000 };
    assert_eq!(outcome(&multiple(8), &word, &word, limits), Ok(answer));
    assert_eq!(outcome(&multiple(8), &word, &word, Limits { allowance: 6_999, ..limits }), Err(Refusal::plain(11)));
    assert_eq!(outcome(&multiple(8), &word, &word, Limits { workspace: 13_999, ..limits }), Err(Refusal::plain(12)));
}

/// No reversing of the programs meets an open pair once the set is closed, and forward programs of any weights come to a verdict, too.
#[test]
fn no_open_pair_after_the_set() {
    let mut random = Random::new(5);
    let mut closed = 0;
    for _ in 0..4_000 {
        let table = if random.once_in(2) { comparable(&mut random) } else { mirrored(&mut random) };
        let limits = Limits { allowance: 300, workspace: 400 };
        if outcome(&table, &[], &[], limits).is_err() {
            continue;
        }
        closed += 1;
        assert!(table.pairs.iter().all(Option::is_some), "{table:?}");
        let [first, second] = [(); 2].map(|()| signed_word(&mut random, table.moves, 8));
        if let Err(refusal) = outcome(&table, &first, &second, limits) {
            assert!([Refusal::plain(11), Refusal::plain(12)].contains(&refusal), "{table:?} {first:?} {second:?} {refusal:?}");
        }
        let u = forward_word(&mut random, table.moves, 3);
        assert!(same(&table, &u, &u));
    }
    assert!(closed > 500, "{closed}");
}

/// Each check before the next: of the table, of the mirror, the set.
#[test]
fn order_of_the_checks() {
    let mut random = Random::new(6);
    let mut met = [0; 4];
    for _ in 0..300 {
        let Some(table) = costly_mirror(&mut random) else {
            continue;
        };
        let mirror = mirror(&table).unwrap();
        for (allowance, workspace) in (0..12).flat_map(|k| [(k, 3_000), (3_000, k), (3_000, 2 * k + 12)]) {
            let limits = Limits { allowance, workspace };
            let most = &mut Most::default();
            let by_parts = cleared(&table, limits, most)
                .and_then(|()| cubes_hold(&mirror, 17, Place::MirrorTriple, limits, most))
                .and_then(|()| grow(&table, limits, most).map(|_| ()));
            let whole = outcome(&table, &[], &[], limits);
            assert_eq!(whole.err(), by_parts.err());
            match whole.map_err(|refusal| refusal.place) {
                Err(Place::Triple(..)) => met[0] += 1,
                Err(Place::MirrorTriple(..)) => met[1] += 1,
                Err(Place::Set) => met[2] += 1,
                _ => met[3] += 1,
            }
        }
    }
    assert!(!met.contains(&0), "{met:?}");
}
