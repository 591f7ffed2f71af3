//! Refusals (specification 7), by name, with the place that each names.

/// Why a call was refused. The numbers are those of specification 7.1; 14 is unused.
#[derive(Clone, Copy, Debug, PartialEq, Eq, Hash)]
pub enum Reason {
    TableEnds = 1,
    TableField = 2,
    TableTail = 3,
    ImageEnds = 4,
    ImageField = 5,
    ImageTail = 6,
    BackMove = 7,
    UnequalWeights = 8,
    CubeFails = 9,
    OpenPair = 10,
    AllowanceUsed = 11,
    WorkspaceShort = 12,
    AnswerShort = 13,
    NotBraidTable = 15,
    NoMirror = 16,
    MirrorFails = 17,
    OtherNumbers = 18,
    NotPattern = 19,
    TooManyMoves = 20,
    SetOpenPair = 21,
    SetTooLarge = 22,
    TooManyLogs = 23,
    NotTray = 24,
}

impl Reason {
    /// All of them, in the order of their numbers.
    pub const ALL: [Reason; 23] = [
        Reason::TableEnds,
        Reason::TableField,
        Reason::TableTail,
        Reason::ImageEnds,
        Reason::ImageField,
        Reason::ImageTail,
        Reason::BackMove,
        Reason::UnequalWeights,
        Reason::CubeFails,
        Reason::OpenPair,
        Reason::AllowanceUsed,
        Reason::WorkspaceShort,
        Reason::AnswerShort,
        Reason::NotBraidTable,
        Reason::NoMirror,
        Reason::MirrorFails,
        Reason::OtherNumbers,
        Reason::NotPattern,
        Reason::TooManyMoves,
        Reason::SetOpenPair,
        Reason::SetTooLarge,
        Reason::TooManyLogs,
        Reason::NotTray,
    ];

    /// The reason of a number, or none where no refusal has it.
    pub fn of(number: u8) -> Option<Reason> {
        Reason::ALL.into_iter().find(|reason| *reason as u8 == number)
    }

    /// The refusal for people: `braid_text` of the header.
    pub fn text(self) -> &'static str {
        match self {
            Reason::TableEnds => "the table's bytes end too early",
            Reason::TableField => "a field of the table stands for no move, or a number of its plain form is out of range",
            Reason::TableTail => "after the last field of the table comes a bit that is set, or a byte",
            Reason::ImageEnds => "the bytes of a program or chain end too early, or a plain program has too many moves",
            Reason::ImageField => "a field of a program or chain, a byte of a plain program, or a number in a text, stands for no move",
            Reason::ImageTail => "after the last field of a program or chain comes a bit that is set, or a byte",
            Reason::BackMove => "there is a back move in a program where none may be",
            Reason::UnequalWeights => "the two sides of a relation have different weights",
            Reason::CubeFails => "a triple of the table breaks the cube rule",
            Reason::OpenPair => "the reversing met an open pair",
            Reason::AllowanceUsed => "the allowance is used",
            Reason::WorkspaceShort => "the workspace is too short",
            Reason::AnswerShort => "the answer area is too short",
            Reason::NotBraidTable => "the table isn't the braid table of its number of moves",
            Reason::NoMirror => "the table has no mirror",
            Reason::MirrorFails => "a triple of the mirror breaks the cube rule",
            Reason::OtherNumbers => "the numbers handed in aren't those of this reversing",
            Reason::NotPattern => "the text is no pattern",
            Reason::TooManyMoves => "the pattern means more than 4,095 moves",
            Reason::SetOpenPair => "growing the set met an open pair",
            Reason::SetTooLarge => "the set would have more than 256 words",
            Reason::TooManyLogs => "the tray has more than 64 logs",
            Reason::NotTray => "the tray ends too early, or bytes follow it",
        }
    }
}

/// What a refusal names (specification 7.3).
#[derive(Clone, Copy, Debug, PartialEq, Eq, Hash)]
pub enum Place {
    /// No place, or the programs.
    None,
    /// Two moves; of an open pair the back move's number first.
    Pair(u8, u8),
    /// Three moves of the table.
    Triple(u8, u8, u8),
    /// Three moves of the table's mirror.
    MirrorTriple(u8, u8, u8),
    /// The set of compare_signed.
    Set,
}

impl Place {
    /// The numbers that a refusal's line has behind its own.
    pub fn numbers(self) -> Vec<u8> {
        match self {
            Place::None | Place::Set => Vec::new(),
            Place::Pair(a, b) => vec![a, b],
            Place::Triple(a, b, c) | Place::MirrorTriple(a, b, c) => vec![a, b, c],
        }
    }
}

/// A refusal: why, and at which place.
#[derive(Clone, Copy, Debug, PartialEq, Eq, Hash)]
pub struct Refusal {
    pub reason: Reason,
    pub place: Place,
}

impl Refusal {
    /// From a result that is not 0, and the values beside it.
    ///
    /// # Panics
    /// Where the library tells what specification 7 and 8.3 do not have.
    pub(crate) fn told(result: u8, values: [u64; 4]) -> Refusal {
        let reason = Reason::of(result).unwrap_or_else(|| panic!("{result} is no result of the library"));
        let [kind, a, b, c] = values;
        let (a, b, c) = (a as u8, b as u8, c as u8);
        let place = match kind {
            0 => Place::None,
            1 => Place::Pair(a, b),
            2 => Place::Triple(a, b, c),
            3 => Place::MirrorTriple(a, b, c),
            4 => Place::Set,
            _ => panic!("{kind} is no kind of place"),
        };
        Refusal { reason, place }
    }

    /// Its number in specification 7.1.
    pub fn number(self) -> u8 {
        self.reason as u8
    }
}

impl std::fmt::Display for Refusal {
    /// The number, the place's numbers and the reason in words.
    fn fmt(&self, f: &mut std::fmt::Formatter) -> std::fmt::Result {
        write!(f, "refused {}", self.number())?;
        for number in self.place.numbers() {
            write!(f, " {number}")?;
        }
        write!(f, ": {}", self.reason.text())
    }
}

impl std::error::Error for Refusal {}
