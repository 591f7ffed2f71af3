//! Tables as text: a number of moves, weights, and a line for each relation (docs/TABLES.md).
use std::fmt::Write;

/// An error of a text: its line and column, from 1, and what is wrong.
#[derive(Clone, Debug, PartialEq)]
pub struct Fault {
    pub line: usize,
    pub column: usize,
    pub what: String,
}

/// A piece of a line between blanks, with its column.
struct Piece<'a> {
    column: usize,
    text: &'a [u8],
}

fn pieces(line: &[u8]) -> Vec<Piece<'_>> {
    let end = line.iter().position(|byte| *byte == b'#').unwrap_or(line.len());
    let mut pieces = Vec::new();
    let mut at = 0;
    while at < end {
        let blank = |byte: &u8| matches!(byte, b' ' | b'\t');
        if blank(&line[at]) {
            at += 1;
            continue;
        }
        // An equals sign is a piece of its own, also without blanks around it.
        let length = if line[at] == b'=' { 1 } else { line[at..end].iter().take_while(|byte| !blank(byte) && **byte != b'=').count() };
        pieces.push(Piece { column: at + 1, text: &line[at..at + length] });
        at += length;
    }
    pieces
}

/// A relation by its pair, the lower move first, with its completions and the line that it stands in.
struct Relation {
    pair: (u8, u8),
    there: Vec<u8>,
    back: Vec<u8>,
    line: usize,
}

/// A table text while it is read.
struct Reading {
    line: usize,
    moves: Option<u8>,
    weights: Option<Vec<u8>>,
    relations: Vec<Relation>,
    faults: Vec<Fault>,
}

impl Reading {
    fn fault(&mut self, column: usize, what: impl Into<String>) {
        self.faults.push(Fault { line: self.line, column, what: what.into() });
    }

    /// A number within bounds; another is a fault.
    fn number(&mut self, piece: &Piece, least: u8, most: u8, what: &str) -> Option<u8> {
        let digits =
            piece.text.iter().all(u8::is_ascii_digit) && !piece.text.is_empty() && (piece.text[0] != b'0' || piece.text.len() == 1);
        let number = std::str::from_utf8(piece.text).ok().filter(|_| digits).and_then(|text| text.parse::<u32>().ok());
        match number {
            Some(number) if (u32::from(least)..=u32::from(most)).contains(&number) => Some(number as u8),
            _ => {
                self.fault(
                    piece.column,
                    format!("{what} is a number from {least} to {most}, and not '{}'", String::from_utf8_lossy(piece.text)),
                );
                None
            }
        }
    }

    fn first_line(&mut self, pieces: &[Piece]) {
        if pieces[0].text != b"moves" {
            self.fault(pieces[0].column, "the first line is 'moves' and the number of moves");
            // What follows is read as if there were as many moves as may be, so that its own errors are told.
            self.moves = Some(16);
            return self.other_line(pieces);
        }
        self.moves = Some(16);
        match pieces {
            [_, count] => self.moves = self.number(count, 1, 16, "the number of moves").or(Some(16)),
            [_] => self.fault(pieces[0].column, "the number of moves is missing"),
            [_, _, more, ..] => self.fault(more.column, "one number follows 'moves'"),
            [] => {}
        }
    }

    fn other_line(&mut self, pieces: &[Piece]) {
        match pieces[0].text {
            b"moves" => self.fault(pieces[0].column, "'moves' stands in the first line, and once"),
            b"weights" => self.weights_line(pieces),
            _ => self.relation(pieces),
        }
    }

    fn weights_line(&mut self, pieces: &[Piece]) {
        if self.weights.is_some() {
            return self.fault(pieces[0].column, "'weights' stands once");
        }
        if !self.relations.is_empty() {
            self.fault(pieces[0].column, "'weights' stands before the relations");
        }
        let weights: Vec<Option<u8>> = pieces[1..].iter().map(|piece| self.number(piece, 1, 8, "a weight")).collect();
        let moves = usize::from(self.moves.unwrap_or(16));
        if weights.len() != moves {
            self.fault(pieces[0].column, format!("there are {moves} moves, and {} weights", weights.len()));
        }
        self.weights = Some(weights.into_iter().map(|weight| weight.unwrap_or(1)).collect());
    }

    /// One side of a relation: its moves.
    fn side(&mut self, pieces: &[Piece], at: usize) -> Option<Vec<u8>> {
        if pieces.is_empty() {
            self.fault(at, "a side has at least one move");
            return None;
        }
        if pieces.len() > 16 {
            self.fault(pieces[16].column, "a side has at most 16 moves");
        }
        let moves = self.moves.unwrap_or(16);
        let side: Vec<Option<u8>> = pieces.iter().map(|piece| self.number(piece, 1, moves, "a move")).collect();
        side.into_iter().collect::<Option<Vec<u8>>>().filter(|side| side.len() <= 16)
    }

    fn relation(&mut self, pieces: &[Piece]) {
        let equals: Vec<usize> = (0..pieces.len()).filter(|k| pieces[*k].text == b"=").collect();
        let [middle] = equals[..] else {
            let at = equals.get(1).map_or(pieces[0].column, |k| pieces[*k].column);
            return self.fault(at, "a relation is two sides with one '=' between them");
        };
        let one = self.side(&pieces[..middle], pieces[middle].column);
        let two = self.side(&pieces[middle + 1..], pieces[middle].column);
        let (Some(one), Some(two)) = (one, two) else {
            return;
        };
        if one[0] == two[0] {
            return self.fault(pieces[middle + 1].column, "the sides begin with two different moves, which name the pair");
        }
        let pair = (one[0].min(two[0]), one[0].max(two[0]));
        if let Some(line) = self.relations.iter().find(|relation| relation.pair == pair).map(|relation| relation.line) {
            return self.fault(pieces[0].column, format!("the pair {}, {} has a relation in line {line}", pair.0, pair.1));
        }
        let (low, high) = if one[0] < two[0] { (one, two) } else { (two, one) };
        self.relations.push(Relation { pair, there: low[1..].to_vec(), back: high[1..].to_vec(), line: self.line });
    }
}

/// The plain form (specification 5.7) of a table text, or all that is wrong with it.
pub fn read(text: &[u8]) -> Result<Vec<u8>, Vec<Fault>> {
    let mut reading = Reading { line: 0, moves: None, weights: None, relations: Vec::new(), faults: Vec::new() };
    let mut lines: Vec<&[u8]> = text.split(|byte| *byte == b'\n').collect();
    if lines.last().is_some_and(|line| line.is_empty()) {
        lines.pop();
    }
    for line in lines {
        reading.line += 1;
        let pieces = pieces(line.strip_suffix(b"\r").unwrap_or(line));
        match (pieces.is_empty(), reading.moves) {
            (true, _) => {}
            (false, None) => reading.first_line(&pieces),
            (false, Some(_)) => reading.other_line(&pieces),
        }
    }
    let Some(moves) = reading.moves else {
        reading.line = reading.line.max(1);
        reading.fault(1, "the first line is 'moves' and the number of moves");
        return Err(reading.faults);
    };
    if !reading.faults.is_empty() {
        return Err(reading.faults);
    }
    let mut plain = vec![moves];
    plain.extend(reading.weights.unwrap_or_else(|| vec![1; moves.into()]));
    for a in 1..=moves {
        for b in a + 1..=moves {
            match reading.relations.iter().find(|relation| relation.pair == (a, b)) {
                None => plain.push(255),
                Some(Relation { there, back, .. }) => {
                    for word in [there, back] {
                        plain.push(word.len() as u8);
                        plain.extend(word);
                    }
                }
            }
        }
    }
    Ok(plain)
}

/// A table by its parts, from its plain form, which is sound.
pub struct Parts {
    pub moves: u8,
    pub weights: Vec<u8>,
    /// The relations in pair order, both sides whole.
    pub relations: Vec<(Vec<u8>, Vec<u8>)>,
}

pub fn parts(plain: &[u8]) -> Parts {
    let moves = plain[0];
    let (weights, mut rest) = plain[1..].split_at(moves.into());
    let mut relations = Vec::new();
    for a in 1..=moves {
        for b in a + 1..=moves {
            if rest[0] == 255 {
                rest = &rest[1..];
                continue;
            }
            let mut side = |first: u8| {
                let (word, behind) = rest[1..].split_at(rest[0].into());
                rest = behind;
                [&[first], word].concat()
            };
            let (one, two) = (side(a), side(b));
            relations.push((one, two));
        }
    }
    Parts { moves, weights: weights.to_vec(), relations }
}

/// The text of a table: what `read` reads as the same plain form.
pub fn text(plain: &[u8]) -> String {
    let Parts { moves, weights, relations } = parts(plain);
    let row = |numbers: &[u8]| numbers.iter().map(u8::to_string).collect::<Vec<String>>().join(" ");
    let mut text = format!("moves {moves}\nweights {}\n", row(&weights));
    for (one, two) in relations {
        let _ = writeln!(text, "{} = {}", row(&one), row(&two));
    }
    text
}

/// The plain form of the braid table of so many moves (specification 2.4).
pub fn braid_table(moves: u8) -> Vec<u8> {
    let mut plain = vec![moves];
    plain.extend(vec![1; moves.into()]);
    for a in 1..=moves {
        for b in a + 1..=moves {
            if b - a == 1 {
                plain.extend([2, b, a, 2, a, b]);
            } else {
                plain.extend([1, b, 1, a]);
            }
        }
    }
    plain
}

#[cfg(test)]
mod tests {
    use super::{braid_table, read, text};

    /// Numbers from a seed (SplitMix64).
    struct Random(u64);

    impl Random {
        fn below(&mut self, below: u64) -> u64 {
            self.0 = self.0.wrapping_add(0x9E37_79B9_7F4A_7C15);
            let mut z = self.0;
            z = (z ^ (z >> 30)).wrapping_mul(0xBF58_476D_1CE4_E5B9);
            z = (z ^ (z >> 27)).wrapping_mul(0x94D0_49BB_1331_11EB);
            (z ^ (z >> 31)) % below
        }

        fn table(&mut self) -> Vec<u8> {
            let moves = 1 + self.below(16) as u8;
            let mut plain = vec![moves];
            plain.extend((0..moves).map(|_| 1 + self.below(8) as u8));
            for _ in 0..u32::from(moves) * (u32::from(moves) - 1) / 2 {
                if self.below(3) == 0 {
                    plain.push(255);
                    continue;
                }
                for _ in 0..2 {
                    let length = self.below(16) as u8;
                    plain.push(length);
                    plain.extend((0..length).map(|_| 1 + self.below(moves.into()) as u8));
                }
            }
            plain
        }
    }

    /// Plain form to text and back, and image to text to image, on random tables.
    #[test]
    fn round_trips() {
        let mut random = Random(40);
        for _ in 0..5_000 {
            let plain = random.table();
            let written = text(&plain);
            assert_eq!(read(written.as_bytes()), Ok(plain.clone()), "{written}");
            let image = braid::pack_table(&plain).expect("a table within the limits");
            let again = read(text(&braid::unpack_table(&image).expect("its image")).as_bytes()).expect("its text");
            assert_eq!(braid::pack_table(&again), Ok(image));
        }
    }

    #[test]
    fn the_braid_tables() {
        assert_eq!(text(&braid_table(3)), "moves 3\nweights 1 1 1\n1 2 1 = 2 1 2\n1 3 = 3 1\n2 3 2 = 3 2 3\n");
        assert_eq!(text(&braid_table(1)), "moves 1\nweights 1\n");
    }
}
