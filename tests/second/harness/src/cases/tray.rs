//! Cases of tray: logs joined to the pattern or not, faulty ones of every kind among them, limits between what the clearing needs and what the logs do, areas
//! around the answer, trays cut or with bytes behind them, and faults of tray, table, pattern and area together. The answer for a log is also held against the
//! firmware's own compare of that log.
use super::{Case, Held};
use crate::guarded::Left;
use second::call::Call;
use second::image::{program_image, read_forward, read_table, table_image, width};
use second::reversing::{reverse, Ending, Limits, Most};
use second::services::{cleared, weights_agree};
use second::table::Table;
use second::tables::{any, clearing, doubled, forward_word, growing};
use second::tray::{laid, LOG_BYTES, MOST_LOGS};
use second::word::{undoing, Word};

/// What the cases must lead to, beside each result.
#[derive(Clone, Copy, Debug, PartialEq, Eq, PartialOrd, Ord)]
pub enum Trayed {
    /// Each refusal of a log between verdicts on other logs.
    EndsAmongVerdicts,
    FieldAmongVerdicts,
    TailAmongVerdicts,
    BackMoveAmongVerdicts,
    AllowanceAmongVerdicts,
    WorkspaceAmongVerdicts,
    /// 4, 5, 6 and 7 in one tray, and 11 and 12 in one.
    EveryFault,
    BothStops,
    /// An answer in which every log is refused with 4 to 7, and in which every one is stopped.
    AllFaulty,
    AllStopped,
    /// Verdicts: same, also of a log that is not as long as the pattern; different after steps, at an open pair after steps, and by weight.
    SameLog,
    SameOfUnequalLengthLog,
    DifferentAfterSteps,
    DifferentAtOpenPair,
    DifferentByWeightLog,
    /// Verdicts with more steps together than the allowance.
    AllowanceForEach,
    /// Steps that want their high byte, and 65,535 of them.
    StepsAbove255,
    MostSteps,
    /// A tray of no logs: answered, and refused in clearing.
    NoLogs,
    NoLogsNotCleared,
    /// 64 logs answered; 65 refused with 23 in a whole tray, in one that ends early as well, and in one of a single byte.
    MostLogs,
    LogTooMany,
    TooManyCut,
    TooManyAlone,
    /// 24: no bytes, the end between two logs, in a length, in an image, and bytes behind the last log.
    EmptyTray,
    CutBetweenLogs,
    CutInLength,
    CutInImage,
    BytesBehind,
    /// An answer with an empty log, with one of 65,535 bytes, and with a verdict on one of more than 255.
    EmptyLog,
    LongestLog,
    LogAbove255Bytes,
    /// 23 and 24 in spite of a faulty table; the table's fault in spite of a pattern that is no program under any table.
    TrayBeforeTable,
    TableBeforePattern,
    /// The pattern's fault in spite of unequal weights, of a table that does not clear and of a short area.
    PatternBeforeWeights,
    PatternBeforeCubes,
    PatternBeforeArea,
    /// 8, and 9, 11 or 12, in an area that is too short as well; 13 in spite of a faulty log.
    WeightsBeforeArea,
    CubesBeforeArea,
    AreaBeforeLogs,
    /// Areas: a byte too short, exactly long enough, and longer.
    ShortArea,
    JustTheArea,
    WideArea,
}

impl Trayed {
    pub const ALL: [Trayed; 43] = [
        Trayed::EndsAmongVerdicts,
        Trayed::FieldAmongVerdicts,
        Trayed::TailAmongVerdicts,
        Trayed::BackMoveAmongVerdicts,
        Trayed::AllowanceAmongVerdicts,
        Trayed::WorkspaceAmongVerdicts,
        Trayed::EveryFault,
        Trayed::BothStops,
        Trayed::AllFaulty,
        Trayed::AllStopped,
        Trayed::SameLog,
        Trayed::SameOfUnequalLengthLog,
        Trayed::DifferentAfterSteps,
        Trayed::DifferentAtOpenPair,
        Trayed::DifferentByWeightLog,
        Trayed::AllowanceForEach,
        Trayed::StepsAbove255,
        Trayed::MostSteps,
        Trayed::NoLogs,
        Trayed::NoLogsNotCleared,
        Trayed::MostLogs,
        Trayed::LogTooMany,
        Trayed::TooManyCut,
        Trayed::TooManyAlone,
        Trayed::EmptyTray,
        Trayed::CutBetweenLogs,
        Trayed::CutInLength,
        Trayed::CutInImage,
        Trayed::BytesBehind,
        Trayed::EmptyLog,
        Trayed::LongestLog,
        Trayed::LogAbove255Bytes,
        Trayed::TrayBeforeTable,
        Trayed::TableBeforePattern,
        Trayed::PatternBeforeWeights,
        Trayed::PatternBeforeCubes,
        Trayed::PatternBeforeArea,
        Trayed::WeightsBeforeArea,
        Trayed::CubesBeforeArea,
        Trayed::AreaBeforeLogs,
        Trayed::ShortArea,
        Trayed::JustTheArea,
        Trayed::WideArea,
    ];
}

/// Limits that keep a case short.
const SHORT: Limits = Limits { allowance: 3_000, workspace: 3_000 };
/// As many logs of a tray are held against compare.
const COMPARED: usize = 8;

/// A table, and logs with their pattern, all as images.
#[derive(Clone)]
struct Setting {
    table: Vec<u8>,
    logs: Vec<Vec<u8>>,
    pattern: Vec<u8>,
}

impl Setting {
    fn call(&self, allowance: u16) -> Call {
        self.call_with(laid(&self.logs), allowance)
    }

    /// The same with another tray.
    fn call_with(&self, tray: Vec<u8>, allowance: u16) -> Call {
        Call::Tray { table: self.table.clone(), tray, pattern: self.pattern.clone(), allowance }
    }

    fn needed(&self) -> usize {
        LOG_BYTES * self.logs.len()
    }
}

/// The refusal, or 0 and 1 for the verdicts, and the steps of the answer for a log.
fn said(three: &[u8]) -> (u8, usize) {
    (three[0], 256 * usize::from(three[1]) + usize::from(three[2]))
}

/// Where a tray of at most 64 logs is at fault.
fn fault(tray: &[u8]) -> Option<Trayed> {
    let Some(count) = tray.first() else {
        return Some(Trayed::EmptyTray);
    };
    let mut at = 1;
    for _ in 0..*count {
        match tray.len() - at {
            0 => return Some(Trayed::CutBetweenLogs),
            1 => return Some(Trayed::CutInLength),
            _ => at += 2 + 256 * usize::from(tray[at]) + usize::from(tray[at + 1]),
        }
        if at > tray.len() {
            return Some(Trayed::CutInImage);
        }
    }
    (at < tray.len()).then_some(Trayed::BytesBehind)
}

impl Case<'_> {
    pub(super) fn tray(&mut self) -> Held<()> {
        match self.random.below(400) {
            0..=1 => self.longest_log(),
            2..=5 => self.steps_of_logs(),
            6..=13 => self.long_logs(),
            14..=29 => self.many_logs(),
            30..=109 => self.broken_trays(),
            110..=179 => self.faulty_tables(),
            180..=209 => self.unequal_logs(),
            _ => self.trays(),
        }
    }

    fn note_trayed(&mut self, what: Trayed, holds: bool) {
        if holds {
            *self.tally.trayed.entry(what).or_default() += 1;
        }
    }

    /// An image of a program, damaged so that it is refused with one of 4 to 7, or in any way.
    fn faulty_log(&mut self, table: &Table, word: &[i8]) -> Vec<u8> {
        let mut word = word.to_vec();
        let at = self.random.below(word.len().max(1));
        match self.random.below(8) {
            0 => Vec::new(),
            1 => {
                let mut image = program_image(table.moves, &word);
                image.pop();
                image
            }
            2..=3 if usize::from(table.moves) < 1 << width(table.moves) => {
                word.insert(at.min(word.len()), 1 << width(table.moves));
                program_image(table.moves, &word)
            }
            4 => {
                let mut image = program_image(table.moves, &word);
                image.push(self.random.pick(&[0, 0, 1, 255]));
                image
            }
            5..=6 => {
                word.insert(at.min(word.len()), -1);
                program_image(table.moves, &word)
            }
            _ => {
                let image = program_image(table.moves, &word);
                self.damaged(&image)
            }
        }
    }

    /// A log for a pattern: joined to it, nearly so, or any; at times faulty.
    fn log(&mut self, table: &Table, pattern: &[i8], faulty: usize) -> Vec<u8> {
        let word = if self.random.once_in(6) { pattern.to_vec() } else { self.other(table, pattern) };
        if self.random.below(100) < faulty {
            self.faulty_log(table, &word)
        } else {
            program_image(table.moves, &word)
        }
    }

    /// A pattern and so many logs; of a hundred logs so many are faulty.
    fn setting(&mut self, table: &Table, logs: usize, faulty: usize) -> Setting {
        let length = self.random.pick(&[0, 1, 2, 3, 4, 6, 8, 12, 20]);
        let pattern = forward_word(&mut self.random, table.moves, length);
        let logs = (0..logs).map(|_| self.log(table, &pattern, faulty)).collect();
        Setting { table: table_image(table), logs, pattern: program_image(table.moves, &pattern) }
    }

    /// What the clearing needs, and what the whole call does.
    fn needs(&mut self, table: &Table, setting: &Setting) -> [Most; 2] {
        let mut clearing = Most::default();
        let _ = cleared(table, SHORT, &mut clearing);
        [clearing, self.most(&setting.call(3_000))]
    }

    fn trays(&mut self) -> Held<()> {
        let table = clearing(&mut self.random);
        let count = self.random.pick(&[0, 1, 1, 2, 2, 3, 3, 4, 5, 6, 8, 12]);
        let faulty = self.random.pick(&[0, 0, 20, 50, 100]);
        let setting = self.setting(&table, count, faulty);
        let [clearing, most] = self.needs(&table, &setting);
        self.around_area(&setting, 3_000, most.bytes)?;
        for _ in 0..3 {
            let between = |case: &mut Self, low: usize, high: usize| case.random.between(low, high.max(low));
            let (mut allowance, mut workspace) = (3_000, 3_000);
            match self.random.below(4) {
                0 => allowance = between(self, clearing.steps, most.steps) as u16,
                1 => workspace = between(self, clearing.bytes, most.bytes),
                2 => {
                    allowance = between(self, clearing.steps, most.steps) as u16;
                    workspace = between(self, clearing.bytes, most.bytes);
                }
                _ => {
                    let near = self.random.pick(&[most, clearing]);
                    allowance = self.allowance(near.steps);
                    workspace = self.length(near.bytes);
                }
            }
            let answer = self.length(setting.needed());
            self.trayed(&setting, allowance, workspace, answer)?;
        }
        Ok(())
    }

    /// Areas a byte too short, just long enough and longer.
    fn around_area(&mut self, setting: &Setting, allowance: u16, workspace: usize) -> Held<()> {
        let exact = setting.needed();
        let more = exact + self.random.between(1, 40);
        for answer in exact.checked_sub(1).into_iter().chain([exact, more]) {
            let left = self.trayed(setting, allowance, workspace, answer)?;
            self.note_trayed(Trayed::ShortArea, left.result == 13 && answer + 1 == exact);
            self.note_trayed(Trayed::JustTheArea, left.result == 0 && answer == exact && exact > 0);
            self.note_trayed(Trayed::WideArea, left.result == 0 && answer > exact);
        }
        Ok(())
    }

    /// Logs that are the same as the pattern and not as long.
    fn unequal_logs(&mut self) -> Held<()> {
        let table = if self.random.once_in(2) { doubled() } else { growing(self.random.between(2, 5) as u8, 1) };
        let count = self.random.between(1, 5);
        let setting = self.setting(&table, count, 10);
        let [_, most] = self.needs(&table, &setting);
        self.around_area(&setting, 3_000, most.bytes)
    }

    /// 60 to 66 logs, of which few are looked at one by one.
    fn many_logs(&mut self) -> Held<()> {
        let table = clearing(&mut self.random);
        let (count, faulty) = (self.random.pick(&[60, 63, 64, 64, 64, 65, 65, 66]), self.random.pick(&[0, 20]));
        let setting = self.setting(&table, count, faulty);
        let [clearing, most] = self.needs(&table, &setting);
        self.around_area(&setting, 3_000, most.bytes)?;
        let allowance = self.random.between(clearing.steps, most.steps.max(clearing.steps)) as u16;
        let workspace = self.random.between(clearing.bytes, most.bytes.max(clearing.bytes));
        self.trayed(&setting, allowance, workspace, setting.needed())?;
        Ok(())
    }

    /// Trays that end early, have bytes behind them, or another number or length in them; at times with other faults of the call.
    fn broken_trays(&mut self) -> Held<()> {
        let table = clearing(&mut self.random);
        let count = self.random.pick(&[0, 1, 2, 3, 5]);
        let mut setting = self.setting(&table, count, 10);
        let whole = laid(&setting.logs);
        if self.random.once_in(3) {
            let table = setting.table.clone();
            setting.table = self.damaged(&table);
        }
        if self.random.once_in(4) {
            let pattern = setting.pattern.clone();
            setting.pattern = self.damaged(&pattern);
        }
        for _ in 0..6 {
            let mut tray = whole.clone();
            match self.random.below(8) {
                0 => tray.truncate(self.random.below(tray.len())),
                1 => {
                    let logs = self.random.below(count + 1);
                    tray.truncate(laid(&setting.logs[..logs]).len() + self.random.below(2));
                }
                2 => tray.push(self.random.pick(&[0, 0, 1, 255])),
                3 => {
                    let more = self.random.between(1, 9);
                    tray.extend(self.random.bytes(more));
                }
                4 => tray[0] = self.random.pick(&[0, 1, 63, 64, 65, 66, 128, 255]),
                5 => {
                    let first = self.random.pick(&[1, 64, 65, 200, 255]);
                    tray = vec![first];
                }
                6 if tray.len() > 2 => {
                    let at = self.random.between(1, 2);
                    tray[at] ^= 1 << self.random.below(8);
                }
                _ => tray = self.damaged(&tray),
            }
            let answer = self.length(setting.needed());
            self.tray_held(&setting.call_with(tray, 3_000), 300, answer)?;
        }
        Ok(())
    }

    /// Tables of every refusal, with sound and faulty patterns, in areas long enough and too short.
    fn faulty_tables(&mut self) -> Held<()> {
        let table = any(&mut self.random);
        let count = self.random.pick(&[0, 1, 1, 2, 3]);
        let sound = self.setting(&table, count, 20);
        let [clearing, most] = self.needs(&table, &sound);
        for _ in 0..5 {
            let mut setting = sound.clone();
            setting.table = self.perhaps(&sound.table, 4);
            match self.random.below(6) {
                0 => setting.pattern = Vec::new(),
                1 => setting.pattern = self.damaged(&sound.pattern),
                2 => setting.pattern = program_image(table.moves, &[1, -1]),
                _ => {}
            }
            let near = self.random.pick(&[most, clearing]);
            let (allowance, workspace) =
                if self.random.once_in(2) { (3_000, 3_000) } else { (self.allowance(near.steps), self.length(near.bytes)) };
            let answer = self.length(setting.needed());
            self.trayed(&setting, allowance, workspace, answer)?;
        }
        Ok(())
    }

    /// Logs with images of more than 255 bytes: equal to the pattern, or with a swap or a fault at the end.
    fn long_logs(&mut self) -> Held<()> {
        let table = clearing(&mut self.random);
        let length = self.random.pick(&[600, 1_000, 1_400]);
        let pattern = forward_word(&mut self.random, table.moves, length);
        let image = program_image(table.moves, &pattern);
        let mut logs = vec![image.clone()];
        logs.push(program_image(table.moves, &pattern[..length - 1]));
        logs.push(self.damaged(&image));
        logs.push(program_image(table.moves, &self.other(&table, &pattern[..4])));
        let setting = Setting { table: table_image(&table), logs, pattern: image };
        let (allowance, workspace) = (self.random.pick(&[3_000, length as u16]), self.random.pick(&[8_000, 2 * length]));
        self.trayed(&setting, allowance, workspace, 12)?;
        Ok(())
    }

    /// A log of 65,535 bytes beside others: of zeros, or a program with zeros behind it.
    fn longest_log(&mut self) -> Held<()> {
        let table = clearing(&mut self.random);
        let mut setting = self.setting(&table, 3, 0);
        let at = self.random.below(4);
        let mut longest = if self.random.once_in(2) { Vec::new() } else { setting.pattern.clone() };
        longest.resize(65_535, 0);
        setting.logs.insert(at, longest);
        self.trayed(&setting, 3_000, 3_000, 12)?;
        let mut cut = laid(&setting.logs);
        cut.pop();
        self.tray_held(&setting.call_with(cut, 3_000), 20, 12)?;
        Ok(())
    }

    /// Under commuting moves, k times 1 then k times 2 is k times 2 then k times 1, in k * k + 2 * k steps: 65,535 for k = 255.
    fn steps_of_logs(&mut self) -> Held<()> {
        let k = self.random.pick(&[20, 60, 254, 255, 255]);
        let table = Table::light(2, vec![Some((vec![2], vec![1]))]);
        let image = |words: [Word; 2]| program_image(2, &words.concat());
        let pattern = image([vec![2; k], vec![1; k]]);
        let logs = vec![image([vec![1; k], vec![2; k]]), pattern.clone(), program_image(2, &[1])];
        let setting = Setting { table: table_image(&table), logs, pattern };
        let allowance = self.random.pick(&[k * k + 2 * k, k * k + 2 * k, k * k + 2 * k - 1]) as u16;
        let workspace = self.random.pick(&[4 * k, 4 * k, 4 * k - 1]);
        self.trayed(&setting, allowance, workspace, 9)?;
        Ok(())
    }

    /// A call with a whole tray. After an answer some of its logs, or all if they are few, are compared one by one by the firmware itself.
    fn trayed(&mut self, setting: &Setting, allowance: u16, workspace: usize, answer: usize) -> Held<Left> {
        let left = self.tray_held(&setting.call(allowance), workspace, answer)?;
        if left.result != 0 {
            self.note_trayed(Trayed::NoLogsNotCleared, setting.logs.is_empty() && matches!(left.result, 9 | 11 | 12));
            self.note_trayed(Trayed::LogTooMany, left.result == 23 && setting.logs.len() == MOST_LOGS + 1);
            let faulty = |table: &Table| setting.logs.iter().any(|log| read_forward(log, table.moves).is_err());
            self.note_trayed(Trayed::AreaBeforeLogs, left.result == 13 && read_table(&setting.table).is_ok_and(|table| faulty(&table)));
            return Ok(left);
        }
        let answers: Vec<(u8, usize)> = left.answer[..setting.needed()].chunks(LOG_BYTES).map(said).collect();
        let every = setting.logs.len() <= COMPARED;
        for k in 0..setting.logs.len().min(COMPARED) {
            let at = if every { k } else { self.random.below(setting.logs.len()) };
            self.beside_compare(setting, at, answers[at], allowance, workspace)?;
        }
        self.note_answers(setting, &answers, usize::from(allowance));
        Ok(left)
    }

    /// The answer for a log is what the firmware's compare says of it.
    fn beside_compare(&mut self, setting: &Setting, at: usize, found: (u8, usize), allowance: u16, workspace: usize) -> Held<()> {
        let (table, first, second) = (setting.table.clone(), setting.logs[at].clone(), setting.pattern.clone());
        let left = self.held(&Call::Compare { table, first, second, allowance }, workspace, 0)?;
        let [told, steps, ..] = left.values;
        let must = match left.result {
            0 => (told as u8, steps as usize),
            4..=7 | 11 | 12 if told == 0 => (left.result, 0),
            result => return Err(format!("compare of log {at} gives {result} {:?}, and the tray is answered", left.values)),
        };
        if found != must {
            return Err(format!("log {at} is answered with {found:?}, and compare gives {must:?}: {:02x?}", setting.call(allowance)));
        }
        self.tally.logs[usize::from(left.result != 0)] += 1;
        Ok(())
    }

    fn note_answers(&mut self, setting: &Setting, answers: &[(u8, usize)], allowance: usize) {
        let verdict = |answer: &(u8, usize)| answer.0 <= 1;
        for (what, number) in [
            (Trayed::EndsAmongVerdicts, 4),
            (Trayed::FieldAmongVerdicts, 5),
            (Trayed::TailAmongVerdicts, 6),
            (Trayed::BackMoveAmongVerdicts, 7),
            (Trayed::AllowanceAmongVerdicts, 11),
            (Trayed::WorkspaceAmongVerdicts, 12),
        ] {
            let among = |at: usize| answers[at].0 == number && answers[..at].iter().any(verdict) && answers[at..].iter().any(verdict);
            self.note_trayed(what, (0..answers.len()).any(among));
        }
        let met = |number: u8| answers.iter().any(|answer| answer.0 == number);
        let all = |from: u8, to: u8| !answers.is_empty() && answers.iter().all(|answer| (from..=to).contains(&answer.0));
        self.note_trayed(Trayed::EveryFault, (4..=7).all(met));
        self.note_trayed(Trayed::BothStops, met(11) && met(12));
        self.note_trayed(Trayed::AllFaulty, all(4, 7));
        self.note_trayed(Trayed::AllStopped, all(11, 12));
        let together: usize = answers.iter().map(|answer| answer.1).sum();
        self.note_trayed(Trayed::AllowanceForEach, together > allowance);
        self.note_trayed(Trayed::StepsAbove255, answers.iter().any(|answer| answer.1 > 255));
        self.note_trayed(Trayed::MostSteps, answers.iter().any(|answer| answer.1 == 65_535));
        self.note_trayed(Trayed::NoLogs, answers.is_empty());
        self.note_trayed(Trayed::MostLogs, answers.len() == MOST_LOGS);
        self.note_trayed(Trayed::EmptyLog, setting.logs.iter().any(Vec::is_empty));
        self.note_trayed(Trayed::LongestLog, setting.logs.iter().any(|log| log.len() == 65_535));
        let Ok(table) = read_table(&setting.table) else {
            return;
        };
        for (log, answer) in setting.logs.iter().zip(answers).filter(|(_, answer)| verdict(answer)) {
            let [first, second] = [log, &setting.pattern].map(|image| read_forward(image, table.moves).unwrap_or_default());
            let heavy = table.weight(&first) == table.weight(&second);
            self.note_trayed(Trayed::SameLog, answer.0 == 0);
            self.note_trayed(Trayed::SameOfUnequalLengthLog, answer.0 == 0 && first.len() != second.len());
            self.note_trayed(Trayed::DifferentAfterSteps, answer.0 == 1 && answer.1 > 0);
            self.note_trayed(Trayed::DifferentByWeightLog, *answer == (1, 0) && !heavy);
            self.note_trayed(Trayed::LogAbove255Bytes, log.len() > 255);
            if answer.0 == 1 && answer.1 > 0 {
                let ending = reverse(&table, [undoing(&first), second].concat(), 0, SHORT, &mut Most::default());
                self.note_trayed(Trayed::DifferentAtOpenPair, matches!(ending, Ending::Open { .. }));
            }
        }
    }

    /// A call with any tray. Notes which of several faults was told.
    fn tray_held(&mut self, made: &Call, workspace: usize, answer: usize) -> Held<Left> {
        let left = self.held(made, workspace, answer)?;
        let Call::Tray { table, tray, pattern, .. } = made else {
            return Ok(left);
        };
        let read = read_table(table);
        let short = tray.first().is_some_and(|count| answer < LOG_BYTES * usize::from(*count));
        match left.result {
            23 => {
                self.note_trayed(Trayed::TooManyCut, matches!(fault(tray), Some(what) if what != Trayed::BytesBehind));
                self.note_trayed(Trayed::TooManyAlone, tray.len() == 1);
                self.note_trayed(Trayed::TrayBeforeTable, read.is_err());
            }
            24 => {
                if let Some(what) = fault(tray) {
                    self.note_trayed(what, true);
                }
                self.note_trayed(Trayed::TrayBeforeTable, read.is_err());
            }
            1..=3 => self.note_trayed(Trayed::TableBeforePattern, pattern.len() < 2),
            4..=7 => {
                let unequal = read.as_ref().is_ok_and(|table| weights_agree(table).is_err());
                let broken = read.as_ref().is_ok_and(|table| cleared(table, SHORT, &mut Most::default()).is_err());
                self.note_trayed(Trayed::PatternBeforeWeights, unequal);
                self.note_trayed(Trayed::PatternBeforeCubes, broken && !unequal);
                self.note_trayed(Trayed::PatternBeforeArea, short);
            }
            8 => self.note_trayed(Trayed::WeightsBeforeArea, short),
            9 | 11 | 12 => self.note_trayed(Trayed::CubesBeforeArea, short),
            _ => {}
        }
        Ok(left)
    }
}
