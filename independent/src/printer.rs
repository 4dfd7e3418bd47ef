//! The trip printer: a floor drawn as text goes in, a walk's legs, ending and estimates come out.

use crate::floor::{Floor, Maps};
use crate::leg::{Ending, Leg, Task};
use crate::walk::Walk;
use crate::wrong::Planner;
use crate::wrong_printers::{Printer, Wrong};

const MOST_ALLOWANCE: usize = 16_384;

/// A text longer than this is more than a printer has to keep.
pub const LONG_TEXT: usize = 65_536;

/// Why nothing was walked.
enum Fault {
    Text,
    Refused(u8),
}

/// What the first line asks for.
struct FirstLine {
    floor: Floor,
    task: Task,
    allowance: usize,
}

/// Everything that the printer prints for this input.
pub fn trip(input: &[u8]) -> String {
    Printer::right().trip(input)
}

impl Printer {
    /// Everything that this printer prints for this input.
    pub fn trip(&self, input: &[u8]) -> String {
        match self.walked(input) {
            Ok((walk, maps, task)) => self.report(&walk, &maps, &task),
            Err(Fault::Text) => "bad input\n".to_string(),
            Err(Fault::Refused(number)) => format!("refused {}\n", number),
        }
    }

    /// The exit status of the program that prints this.
    pub fn status(&self, printed: &str) -> i32 {
        i32::from(self.is(Wrong::RefusalStatus) && printed.starts_with("refused"))
    }

    /// The walk, the maps after it, and what was asked for. The order: the first line's text, refusal 1, the rows' text, the
    /// other refusals.
    fn walked(&self, input: &[u8]) -> Result<(Walk, Maps, Task), Fault> {
        let input = &self.with_line_ends(input);
        let end = input.iter().position(|&byte| byte == b'\n').ok_or(Fault::Text)?;
        let asked = self.first_line(&input[..end]).ok_or(Fault::Text)?;
        let text = &input[end + 1..];
        if self.is(Wrong::RowsBefore1) {
            self.rows(asked.floor, text).ok_or(Fault::Text)?;
        }
        if !self.sizes_lawful(asked.floor) {
            return Err(Fault::Refused(1));
        }
        if self.is(Wrong::AllowanceLate) && asked.allowance > MOST_ALLOWANCE {
            return Err(Fault::Text);
        }
        if self.is(Wrong::RefusalsBeforeRows) {
            asked.refuse(&[3, 4], &[])?;
        }
        let plan = self.rows(asked.floor, text).ok_or(Fault::Text)?;
        self.refuse_early(&asked, &plan)?;
        let mut maps = Maps::fresh(asked.floor, plan, asked.task.goal).map_err(Fault::Refused)?;
        let mut trail = vec![0; asked.allowance];
        let walk = self.planner().walk(&mut maps, asked.task, asked.allowance, &mut trail);
        Ok((walk.map_err(Fault::Refused)?, maps, asked.task))
    }

    /// The input; with the wrong printers that are lenient about the ends of lines, changed to what they take it for.
    fn with_line_ends(&self, input: &[u8]) -> Vec<u8> {
        let mut bytes = input.to_vec();
        if self.is(Wrong::CarriageReturns) {
            let dropped = |at: usize| input[at] == b'\r' && input.get(at + 1) == Some(&b'\n');
            bytes = (0..input.len()).filter(|&at| !dropped(at)).map(|at| input[at]).collect();
        }
        if self.is(Wrong::UnendedFirstLine) && !bytes.contains(&b'\n') {
            bytes.push(b'\n');
        }
        bytes
    }

    /// `width height start goal lookahead limit allowance`; none if the line has another form.
    fn first_line(&self, line: &[u8]) -> Option<FirstLine> {
        let words = self.words(line);
        if words.len() != 7 {
            return None;
        }
        let number = |place: usize| self.number(words[place], place);
        let floor = Floor { width: number(0)?, height: number(1)? };
        let task = Task { cart: number(2)?, goal: number(3)?, lookahead: number(4)?, limit: number(5)? };
        let allowance = self.allowance(number(6)?)?;
        Some(FirstLine { floor, task, allowance })
    }

    /// What stands between single spaces.
    fn words<'a>(&self, line: &'a [u8]) -> Vec<&'a [u8]> {
        let between = |&byte: &u8| byte == b' ' || (byte == b'\t' && self.is(Wrong::Tabs));
        let mut words: Vec<&[u8]> = line.split(between).collect();
        if self.is(Wrong::ManySpaces) {
            words.retain(|word| !word.is_empty());
        }
        if self.is(Wrong::EightWords) {
            words.truncate(7);
        }
        if self.is(Wrong::SixWords) && words.len() == 6 {
            words.push(b"16384");
        }
        words
    }

    /// The number that the word in this place is: a dash as limit stands for 1.
    fn number(&self, word: &[u8], place: usize) -> Option<usize> {
        let limit = place == 5;
        let dash = word == b"-" || (word.starts_with(b"-") && self.is(Wrong::DashBegins));
        if dash && (limit || self.is(Wrong::DashAnywhere)) {
            return Some(self.dash());
        }
        match word.strip_prefix(b"+") {
            Some(rest) if self.is(Wrong::PlusSign) => self.digits(rest),
            _ => self.digits(word),
        }
    }

    fn dash(&self) -> usize {
        if self.is(Wrong::DashIs0) {
            return 0;
        }
        if self.is(Wrong::DashIs4096) {
            return 4096;
        }
        1
    }

    /// One to nine digits, leading zeros among them.
    fn digits(&self, word: &[u8]) -> Option<usize> {
        let zeros = word.iter().take_while(|&&digit| digit == b'0').count();
        let counted = if self.is(Wrong::ZerosUncounted) { word.len() - zeros } else { word.len() };
        let most = 9 + usize::from(self.is(Wrong::TenDigits)) - usize::from(self.is(Wrong::EightDigits));
        let empty = word.is_empty() && !self.is(Wrong::EmptyWord);
        let zero_leads = zeros > 0 && word.len() > 1 && self.is(Wrong::NoLeadingZeros);
        if empty || zero_leads || counted > most || !word.iter().all(u8::is_ascii_digit) {
            return None;
        }
        Some(word.iter().fold(0, |value, digit| 10 * value + usize::from(digit - b'0')))
    }

    fn allowance(&self, number: usize) -> Option<usize> {
        let most = MOST_ALLOWANCE + usize::from(self.is(Wrong::Allowance16385));
        if self.is(Wrong::AllowanceCut) {
            return Some(number.min(most));
        }
        if number > most && !self.is(Wrong::AllowanceLate) {
            return None;
        }
        Some(number)
    }

    fn sizes_lawful(&self, floor: Floor) -> bool {
        let lawful = |side: usize| (1..=Floor::MAX_SIDE + 1).contains(&side);
        floor.lawful() || (self.is(Wrong::SideOf65) && lawful(floor.width) && lawful(floor.height))
    }

    /// With the wrong printers that test refusals in another order: those that they test before others.
    fn refuse_early(&self, asked: &FirstLine, plan: &[u8]) -> Result<(), Fault> {
        if self.is(Wrong::FourBefore3) {
            asked.refuse(&[4], plan)?;
        }
        if self.is(Wrong::EightBefore3) {
            asked.refuse(&[8], plan)?;
        }
        if self.is(Wrong::EightBefore4) {
            asked.refuse(&[3, 8], plan)?;
        }
        Ok(())
    }

    /// The planner: with the wrong printers whose walk is at fault, a wrong one.
    fn planner(&self) -> Planner {
        let faults = [
            (Wrong::OnGoalFirst, "goal-first"),
            (Wrong::BlockedGoal, "blocked-goal-refused"),
            (Wrong::SpentFirst, "spent-first"),
            (Wrong::HigherCell, "higher-cell"),
        ];
        let fault = faults.iter().find(|(wrong, _)| self.is(*wrong));
        fault.and_then(|(_, name)| Planner::named(name)).unwrap_or_else(Planner::right)
    }

    /// The plan from as many lines of `.` and `#` as the floor is high, with nothing after them.
    fn rows(&self, floor: Floor, text: &[u8]) -> Option<Vec<u8>> {
        let text = &self.mended(floor, text);
        if text.len() != floor.height * (floor.width + 1) {
            return None;
        }
        let mut plan = Vec::new();
        for line in text.chunks(floor.width + 1) {
            let (row, end) = line.split_at(floor.width);
            if end != b"\n" {
                return None;
            }
            for &byte in row {
                plan.push(self.cell(byte)?);
            }
        }
        Some(plan)
    }

    fn cell(&self, byte: u8) -> Option<u8> {
        match byte {
            b'.' => Some(0),
            b'#' => Some(1),
            b'\n' => None,
            _ if self.is(Wrong::OtherBytes) => Some(0),
            _ => None,
        }
    }

    /// The rows' text; with the wrong printers that are lenient about rows, changed to what they take it for.
    fn mended(&self, floor: Floor, text: &[u8]) -> Vec<u8> {
        let mut bytes = text.to_vec();
        let length = floor.height.saturating_mul(floor.width + 1);
        if self.is(Wrong::UnendedLastRow) && text.len() + 1 == length {
            bytes.push(b'\n');
        }
        if self.is(Wrong::BytesAfter) || (self.is(Wrong::FrontOfLong) && text.len() > LONG_TEXT) {
            bytes.truncate(length);
        }
        if self.is(Wrong::EmptyLineAfter) && text.len() == length + 1 && text.ends_with(b"\n") {
            bytes.truncate(length);
        }
        if self.is(Wrong::LongRows) || self.is(Wrong::ShortRows) {
            bytes = text.split_inclusive(|&byte| byte == b'\n').flat_map(|line| self.fitted(floor, line)).collect();
        }
        while self.is(Wrong::MissingRows) && bytes.len() < length && bytes.len() % (floor.width + 1) == 0 {
            bytes.extend(vec![b'.'; floor.width]);
            bytes.push(b'\n');
        }
        bytes
    }

    /// A line as the wrong printers take it for which a row may be too long or too short.
    fn fitted(&self, floor: Floor, line: &[u8]) -> Vec<u8> {
        let mut row = line.strip_suffix(b"\n").unwrap_or(line).to_vec();
        if self.is(Wrong::LongRows) {
            row.truncate(floor.width);
        }
        if self.is(Wrong::ShortRows) && row.len() < floor.width {
            row.resize(floor.width, b'.');
        }
        if line.ends_with(b"\n") {
            row.push(b'\n');
        }
        row
    }

    /// Legs, end and estimates of a walk.
    fn report(&self, walk: &Walk, maps: &Maps, task: &Task) -> String {
        let mut text = String::new();
        for at in 0..walk.legs.len() {
            text.push_str(&self.leg_line(walk, at, task.cart));
        }
        if !(walk.legs.is_empty() && self.is(Wrong::NoLegNoEnd)) {
            text.push_str(&self.end_line(walk));
        }
        text + &self.estimates_line(maps, task.goal)
    }

    fn leg_line(&self, walk: &Walk, at: usize, start: usize) -> String {
        let leg = walk.legs[at];
        if leg.ending == Ending::CutOff && self.is(Wrong::CutOffLeg) {
            return String::new();
        }
        let number = at + usize::from(!self.is(Wrong::LegsFrom0));
        let (mut moves, mut cell) = (leg.moves, leg.cell);
        if self.is(Wrong::MovesSoFar) {
            moves = walk.legs[..=at].iter().map(|leg| leg.moves).sum();
        }
        if self.is(Wrong::CellBefore) {
            cell = walk.legs[..at].last().map_or(start, |leg: &Leg| leg.cell);
        }
        format!("leg {} opened {} moves {} cell {}\n", number, leg.opened, moves, cell)
    }

    fn end_line(&self, walk: &Walk) -> String {
        let ending = match walk.ending {
            Ending::Arrived => "arrived",
            Ending::CutOff if self.is(Wrong::CutOffOneWord) => "cut-off",
            Ending::CutOff => "cut off",
            Ending::Spent => "spent",
            Ending::UnderWay => "under way",
        };
        let (mut moves, mut opened) = (walk.moves as u64, walk.opened);
        if self.is(Wrong::TotalsExchanged) {
            std::mem::swap(&mut moves, &mut opened);
        }
        format!("end {} moves {} legs {} opened {}\n", ending, moves, walk.legs.len(), opened)
    }

    fn estimates_line(&self, maps: &Maps, goal: usize) -> String {
        let shown = |cell: usize| match self.is(Wrong::PreparedEstimates) {
            true => maps.floor.manhattan(cell, goal),
            false => usize::from(maps.est[cell]),
        };
        let estimates: Vec<String> = (0..maps.est.len()).map(|cell| shown(cell).to_string()).collect();
        let space = if self.is(Wrong::SpaceAtEnd) { " " } else { "" };
        let end = if self.is(Wrong::LastLineUnended) { "" } else { "\n" };
        format!("estimates {}{}{}", estimates.join(" "), space, end)
    }
}

impl FirstLine {
    /// The first of these refusals whose ground is there; the plan is looked at for 8 alone.
    fn refuse(&self, numbers: &[u8], plan: &[u8]) -> Result<(), Fault> {
        let n = self.floor.cells();
        let setting = |number: usize| (1..=4096).contains(&number);
        let broken = |number: u8| match number {
            3 => self.task.cart >= n || self.task.goal >= n,
            4 => !setting(self.task.lookahead) || !setting(self.task.limit),
            _ => plan.get(self.task.cart) == Some(&1),
        };
        match numbers.iter().find(|&&number| broken(number)) {
            Some(&number) => Err(Fault::Refused(number)),
            None => Ok(()),
        }
    }
}
