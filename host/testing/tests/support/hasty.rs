//! Readers of a solver's text that each make one mistake, beside one that makes none.
//! Tests show that their inputs tell each of them from the reference.

use testing::reference::{decode, sizes, Objective, Refusal};

/// What a reader gets wrong, and the list of all mistakes.
macro_rules! mistakes {
    ($($name:ident,)*) => {
        #[derive(Clone, Copy, Debug, PartialEq, Eq)]
        pub enum Mistake {
            $($name,)*
        }

        pub const MISTAKES: &[Mistake] = &[$(Mistake::$name,)*];
    };
}

mistakes! {
    // Lengths.
    LongerModelAccepted,
    LongerStoreRefused,
    ModelBeforeStore,
    TextBeforeLengths,
    // Lines.
    EmptyLineIgnored,
    LineAtTheTextsEnd,
    LastLineWithoutItsEndIgnored,
    Byte13StrippedAtTheLinesEnd,
    Byte13EndsALine,
    Byte0EndsTheText,
    SpacesBeforeALineIgnored,
    AnyOtherLineIgnored,
    CapitalVAccepted,
    LineOfOIsOfAnotherKind,
    CommentWithoutSpaceRefused,
    CommentGivesLiterals,
    // Right after a v.
    VWithoutSpaceAccepted,
    FaultAfterVAtTheLine,
    VAloneRefused,
    // Spaces.
    TabSeparates,
    TwoSpacesRefused,
    SpaceAtTheLinesEndRefused,
    // Literals.
    OffsetOfTheBadByte,
    OffsetOfTheLine,
    LeadingZerosAccepted,
    PlusAccepted,
    MinusZeroCloses,
    ZerosClose,
    TwoMinusesAccepted,
    MinusBeginsALiteral,
    RestOfALiteralIgnored,
    NumberOf32Bits,
    NumberOf64Bits,
    LastVariableOutOfRange,
    OneMoreVariable,
    LiteralsAboveTheRangeIgnored,
    // The closing 0.
    ZeroForEachLine,
    WordsAfterTheZeroIgnored,
    WordsAfterTheZeroInItsLineIgnored,
    WordsAfterTheZeroRead,
    SecondZeroAccepted,
    ZeroEndsTheText,
    LineOfValuesAfterTheZeroRefused,
    ZeroWanted,
    // What is given once.
    LastLiteralCounts,
    FirstLiteralCounts,
    EqualLiteralsAccepted,
    OppositeLiteralsAccepted,
    GivenTwiceEndsTheReading,
    GivenThriceIsOnce,
    MissingIsFalse,
    MissingBeforeTwice,
    TwiceBeforeMissing,
    FirstInTheText,
    HighestVariable,
    VariablesFrom0,
}

use Mistake::*;

pub type Answer = Result<(Vec<u8>, usize, Objective), Refusal>;

/// The operation by a reader that makes `mistake`, or none. It sizes and decodes as
/// the reference does.
pub fn solver_text(
    file: &[u8],
    text: &[u8],
    [model, store]: [usize; 2],
    mistake: Option<Mistake>,
) -> Answer {
    let variables = sizes(file, None)?.variables as usize;
    let read = || Reader::new(variables, mistake).read(text);
    let makes = |one| mistake == Some(one);
    let short = store < variables || makes(LongerStoreRefused) && store > variables;
    let store_fits = if short { refuse(9, 0) } else { Ok(()) };
    let wrong = model < variables || !makes(LongerModelAccepted) && model > variables;
    let model_fits = if wrong { refuse(10, variables) } else { Ok(()) };
    if makes(TextBeforeLengths) {
        read()?;
    }
    if makes(ModelBeforeStore) {
        model_fits?;
    }
    store_fits?;
    model_fits?;
    let model = read()?;
    let (part, cost) = decode(file, &model)?;
    let part = part.len();
    Ok((model, part, cost))
}

fn refuse<T>(number: u32, value: usize) -> Result<T, Refusal> {
    let value = value as u64;
    Err(Refusal { number, value })
}

/// A literal that was read: its variable from 1, and its value in a model.
type Given = (usize, u8);

/// A word that is a literal, the closing 0, or to be passed over.
enum Meaning {
    Literal(Given),
    Zero,
    Nothing,
}

struct Reader {
    variables: usize,
    mistake: Option<Mistake>,
    /// Where the line that is read begins.
    line: usize,
    /// For each variable the values that were given.
    values: Vec<Vec<u8>>,
    /// The first variable of the text that came for the second time.
    again: Option<usize>,
    /// Whether the 0 has come, and whether in this line.
    closed: bool,
    closed_here: bool,
}

impl Reader {
    fn new(variables: usize, mistake: Option<Mistake>) -> Reader {
        Reader {
            variables,
            mistake,
            line: 0,
            values: vec![Vec::new(); variables],
            again: None,
            closed: false,
            closed_here: false,
        }
    }

    fn makes(&self, mistake: Mistake) -> bool {
        self.mistake == Some(mistake)
    }

    /// The model, or 20 or 21.
    fn read(&mut self, text: &[u8]) -> Result<Vec<u8>, Refusal> {
        let cut = text.iter().position(|&byte| byte == 0);
        let cut = cut.filter(|_| self.makes(Byte0EndsTheText));
        let text = &text[..cut.unwrap_or(text.len())];
        let ends = |byte: &u8| *byte == 10 || *byte == 13 && self.mistake == Some(Byte13EndsALine);
        let ends: Vec<usize> = (0..text.len()).filter(|&at| ends(&text[at])).collect();
        for end in ends {
            self.one_line(&text[self.line..end])?;
            if self.closed && self.makes(ZeroEndsTheText) {
                return self.model();
            }
            self.line = end + 1;
        }
        let rest = &text[self.line..];
        let ignored = rest.is_empty() || self.makes(LastLineWithoutItsEndIgnored);
        let at_the_end = rest.is_empty() && self.line > 0 && self.makes(LineAtTheTextsEnd);
        if !ignored || at_the_end {
            self.one_line(rest)?;
        }
        if self.makes(ZeroWanted) && !self.closed {
            return refuse(20, text.len());
        }
        self.model()
    }

    fn one_line(&mut self, line: &[u8]) -> Result<(), Refusal> {
        let begin = self.line;
        let stripped = match line {
            [line @ .., 13] if self.makes(Byte13StrippedAtTheLinesEnd) => line,
            _ => line,
        };
        let skips = self.makes(SpacesBeforeALineIgnored);
        let skipped = stripped.iter().take_while(|&&byte| skips && byte == 32);
        let skipped = skipped.count();
        let line = &stripped[skipped..];
        let spaced = line.len() < 2 || line[1] == 32;
        let known = match line.first() {
            None => self.makes(EmptyLineIgnored),
            Some(b'c') if self.makes(CommentGivesLiterals) => return self.values(line, begin),
            Some(b'o') if self.makes(LineOfOIsOfAnotherKind) => false,
            Some(b'c' | b's' | b'o') => spaced || !self.makes(CommentWithoutSpaceRefused),
            Some(b'v') => return self.values(line, begin + skipped),
            Some(b'V') if self.makes(CapitalVAccepted) => return self.values(line, begin),
            Some(_) => self.makes(AnyOtherLineIgnored),
        };
        match known {
            true => Ok(()),
            false => refuse(20, begin),
        }
    }

    /// A line whose first byte is to be passed over; it stands at `begin`.
    fn values(&mut self, line: &[u8], begin: usize) -> Result<(), Refusal> {
        self.closed_here = false;
        if self.makes(ZeroForEachLine) {
            self.closed = false;
        }
        let late = self.closed && self.makes(LineOfValuesAfterTheZeroRefused);
        if late || line.len() == 1 && self.makes(VAloneRefused) {
            return refuse(20, begin);
        }
        let tab = self.makes(TabSeparates);
        let space = |byte: u8| byte == 32 || tab && byte == 9;
        if line.len() > 1 && !space(line[1]) && !self.makes(VWithoutSpaceAccepted) {
            let after = usize::from(!self.makes(FaultAfterVAtTheLine));
            return refuse(20, begin + after);
        }
        let mut at = 1;
        while at < line.len() {
            if space(line[at]) {
                let again = space(line[at - 1]) && self.makes(TwoSpacesRefused);
                let last = at + 1 == line.len() && self.makes(SpaceAtTheLinesEndRefused);
                if again || last {
                    return refuse(20, begin + at);
                }
                at += 1;
                continue;
            }
            let end = (at..line.len()).find(|&end| {
                let begins = end > at && line[end] == b'-' && line[end - 1] != b'-';
                space(line[end]) || begins && self.makes(MinusBeginsALiteral)
            });
            let end = end.unwrap_or(line.len());
            self.word(&line[at..end], begin + at)?;
            at = end;
        }
        Ok(())
    }

    fn word(&mut self, word: &[u8], at: usize) -> Result<(), Refusal> {
        if self.closed {
            let here = self.closed_here && self.makes(WordsAfterTheZeroInItsLineIgnored);
            if here || self.makes(WordsAfterTheZeroIgnored) || self.makes(ZeroEndsTheText) {
                return Ok(());
            }
            let zero = word == b"0" && self.makes(SecondZeroAccepted);
            if !zero && !self.makes(WordsAfterTheZeroRead) {
                return refuse(20, at);
            }
        }
        match self.meaning(word) {
            Ok(Meaning::Literal(given)) => self.give(given),
            Ok(Meaning::Zero) => {
                (self.closed, self.closed_here) = (true, true);
                Ok(())
            }
            Ok(Meaning::Nothing) => Ok(()),
            Err(_) if self.makes(OffsetOfTheLine) => refuse(20, self.line),
            Err(bad) if self.makes(OffsetOfTheBadByte) => refuse(20, at + bad),
            Err(_) => refuse(20, at),
        }
    }

    /// What a word says, or the index of the byte at which it goes wrong.
    fn meaning(&self, word: &[u8]) -> Result<Meaning, usize> {
        let zeros = word.iter().all(|&byte| byte == b'0') && self.makes(ZerosClose);
        if word == b"0" || zeros || word == b"-0" && self.makes(MinusZeroCloses) {
            return Ok(Meaning::Zero);
        }
        let signs = match word {
            [b'-', b'-', ..] if self.makes(TwoMinusesAccepted) => 2,
            [b'-', ..] => 1,
            [b'+', ..] if self.makes(PlusAccepted) => 1,
            _ => 0,
        };
        let digits = word[signs..]
            .iter()
            .take_while(|byte| byte.is_ascii_digit());
        let end = signs + digits.count();
        let number = &word[signs..end];
        let cut = end < word.len() && !self.makes(RestOfALiteralIgnored);
        if number.is_empty() || cut {
            return Err(end);
        }
        if number[0] == b'0' && !self.makes(LeadingZerosAccepted) {
            return Err(signs);
        }
        let value = u8::from(word[0] != b'-');
        let variable = self.number(number);
        let meaning = variable.and_then(|variable| self.literal(variable, value));
        meaning.ok_or(word.len() - 1)
    }

    /// A literal of a variable, unless that is out of range.
    fn literal(&self, variable: usize, value: u8) -> Option<Meaning> {
        let last = match self.mistake {
            Some(LastVariableOutOfRange) => self.variables - 1,
            Some(OneMoreVariable) => self.variables + 1,
            Some(LiteralsAboveTheRangeIgnored) => usize::MAX,
            _ => self.variables,
        };
        match (1..=last).contains(&variable) {
            true if variable > self.variables => Some(Meaning::Nothing),
            true => Some(Meaning::Literal((variable, value))),
            false => None,
        }
    }

    /// The number that digits stand for, unless it is far too large.
    fn number(&self, digits: &[u8]) -> Option<usize> {
        let mut number = 0u128;
        for digit in digits {
            number = (number * 10 + u128::from(digit - b'0')).min(u128::MAX / 16);
            match self.mistake {
                Some(NumberOf32Bits) => number %= 1 << 32,
                Some(NumberOf64Bits) => number %= 1 << 64,
                Some(LiteralsAboveTheRangeIgnored) => number = number.min(1 << 60),
                _ => {}
            }
        }
        usize::try_from(number).ok()
    }

    fn give(&mut self, (variable, value): Given) -> Result<(), Refusal> {
        let values = &mut self.values[variable - 1];
        values.push(value);
        if values.len() > 1 {
            self.again.get_or_insert(variable);
            if self.makes(GivenTwiceEndsTheReading) {
                return refuse(21, variable);
            }
        }
        Ok(())
    }

    /// The value that the literals of one variable give it, if they give one.
    fn value(&self, values: &[u8]) -> Option<u8> {
        let (&first, &last) = match (values.first(), values.last()) {
            (Some(first), Some(last)) => (first, last),
            _ => return self.makes(MissingIsFalse).then_some(0),
        };
        let equal = values.iter().all(|&value| value == first);
        let given = match self.mistake {
            Some(LastLiteralCounts | FirstLiteralCounts) => true,
            Some(EqualLiteralsAccepted) => equal,
            Some(OppositeLiteralsAccepted) => !equal || values.len() == 1,
            Some(GivenThriceIsOnce) => values.len() % 2 == 1,
            _ => values.len() == 1,
        };
        let first_counts = self.makes(FirstLiteralCounts);
        given.then_some(if first_counts { first } else { last })
    }

    fn model(&self) -> Result<Vec<u8>, Refusal> {
        let wrong = |&at: &usize| self.value(&self.values[at]).is_none();
        let mut all = 0..self.variables;
        let lowest = all.clone().find(wrong);
        let Some(lowest) = lowest else {
            let values = self.values.iter();
            return Ok(values.filter_map(|values| self.value(values)).collect());
        };
        let missing = all.clone().find(|&at| self.values[at].is_empty());
        let twice = all.clone().find(|&at| self.values[at].len() > 1);
        let given = match self.mistake {
            Some(MissingBeforeTwice) => missing.unwrap_or(lowest),
            Some(TwiceBeforeMissing) => twice.unwrap_or(lowest),
            Some(FirstInTheText) => self.again.map_or(lowest, |variable| variable - 1),
            Some(HighestVariable) => all.rfind(wrong).unwrap_or(lowest),
            _ => lowest,
        };
        refuse(21, given + usize::from(!self.makes(VariablesFrom0)))
    }
}
