//! Texts of import (specification 6.17): every text of at most three bytes of a few, and texts around each limit.
use crate::book::Book;
use second::call::Call;
use second::image::table_image;
use second::notation::text;
use second::patterns::{deep, faulty, sized, tower, tree};
use second::random::Random;
use second::tables::unrelated;

/// A text as a title shows it.
fn shown(text: &[u8]) -> String {
    if text.len() > 60 {
        return format!("a text of {} bytes", text.len());
    }
    let bytes: String =
        text.iter().map(|byte| if (32..127).contains(byte) { char::from(*byte).to_string() } else { format!("<{byte}>") }).collect();
    format!("'{bytes}'")
}

fn import(book: &mut Book, moves: u8, text: &[u8], answer: usize) {
    let call = Call::Import { table: table_image(&unrelated(moves)), text: text.to_vec() };
    book.add("6.17", &shown(text), call, 0, answer);
}

fn short(book: &mut Book) {
    let mut texts = vec![Vec::new()];
    for _ in 0..=3 {
        for text in &texts {
            import(book, 2, text, 8);
        }
        texts = texts.iter().flat_map(|text| b" -()^012".iter().map(|byte| [text.as_slice(), &[*byte]].concat())).collect();
    }
}

/// The texts that specification 6.17 names as patterns, and as none.
fn named(book: &mut Book) {
    for text in ["", "()", "1", "-2^0", "(1 -2)^3 4", "-(1 (2)^0)", "-(1 2)^2", "1^1", "-1^2"] {
        import(book, 4, text.as_bytes(), 20);
    }
    let none = [" 1", "1 ", "1  2", "1^", "^2", "--1", "1^2^3", "01", "0", "100", "1^00", "1^-1", "( 1)", "(1", "1)", "(1)(2)", "1-2"];
    for text in none.into_iter().chain(["(1)^2^3", "(1 )", "1 ^2", "1^ 2", "- 1", "-", "^", "()()", "(1)2", "1(2)", "-^2", "(-)"]) {
        import(book, 4, text.as_bytes(), 20);
    }
}

fn bytes(book: &mut Book) {
    for byte in (0..=255).filter(|byte| *byte < 64 || *byte % 16 == 0 || [b'+', b'*', b'[', b'^', 127, 255].contains(byte)) {
        import(book, 3, &[b'1', byte, b'2'], 40);
    }
    for text in
        ["\t1", "1\n", "1\r\n", "1,2", "1 +2", "1 2 -3", "-(-(-1))", "-(-1^2)^3", "(1 (2 (3)))", "1^2 2^3", "(1)^0 2", "-()^5", "((1)^2)^2"]
    {
        import(book, 3, text.as_bytes(), 40);
    }
}

fn limits(book: &mut Book) {
    let inside = |depth: usize, text: &str, after: &str| format!("{}{text}{}", "(".repeat(depth), format!("){after}").repeat(depth));
    for depth in [7, 8, 9, 10] {
        for (text, after) in [("1", ""), ("", ""), ("1 2", "^2"), ("-1", "^0"), ("1^0", "^99")] {
            import(book, 3, inside(depth, text, after).as_bytes(), 600);
            import(book, 3, format!("1 {}", inside(depth, text, after)).as_bytes(), 600);
            import(book, 3, format!("-{}", inside(depth, text, after)).as_bytes(), 600);
        }
    }
    for number in [1, 2, 9, 10, 15, 16, 17, 19, 98, 99, 100, 101, 999] {
        for moves in [1, 9, 10, 15, 16] {
            import(book, moves, number.to_string().as_bytes(), 4);
        }
        import(book, 16, format!("{number}^0").as_bytes(), 4);
        import(book, 16, format!("1^{number}").as_bytes(), 120);
        import(book, 16, format!("(1 2)^{number}").as_bytes(), 120);
        import(book, 16, format!("0{number}").as_bytes(), 4);
        import(book, 16, format!("1^0{number}").as_bytes(), 4);
    }
    for text in [
        "(1^99)^41 1^35",
        "(1^99)^41 1^36",
        "(1^99)^41 1^37",
        "(1^63)^65",
        "((1^9)^13)^35",
        "(1^64)^64",
        "(-1^65)^63 1",
        "((1^2)^45)^45 2^46",
    ] {
        for area in [4_094, 4_095, 4_096] {
            import(book, 2, text.as_bytes(), area);
        }
    }
    // 2^64 moves: counted in 64 bits they would be none.
    import(book, 1, &text(&tower(1, 1_024, 64)), 4);
    for (count, what) in [(99, "too many"), (64, "2^54 moves"), (2, "512 moves"), (1, "one move"), (0, "none")] {
        let call = Call::Import { table: vec![0], text: text(&tower(1, 1, count)) };
        book.add("6.17", &format!("nine counts of {count}, one inside the other: {what}"), call, 0, 600);
    }
}

fn drawn(book: &mut Book) {
    let mut random = Random::new(11);
    for _ in 0..40 {
        let pattern = tree(&mut random, 3, 3, 3);
        import(book, 3, &text(&pattern), 400);
        let wrong = faulty(&mut random, &text(&pattern));
        import(book, 3, &wrong, 400);
    }
    for depth in 1..=8 {
        let pattern = deep(&mut random, 4, depth);
        import(book, 4, &text(&pattern), 400);
    }
    for moves in [1, 2, 7, 60, 300] {
        let pattern = sized(&mut random, 16, moves, 3);
        for area in [moves - 1, moves, moves + 1] {
            import(book, 16, &text(&pattern), area);
        }
    }
}

pub fn add(book: &mut Book) {
    for part in [named, short, bytes, limits, drawn] {
        part(book);
    }
}
