//! The refusals: the name of each number, as in the C header, and its words.

/// What is said of a refusal.
pub struct RefusalFacts {
    pub number: u32,
    pub name: &'static str,
    /// When it is given.
    pub when: &'static str,
    /// What its value is: `{}` stands for the value, and nothing for a value
    /// that says nothing.
    pub gives: &'static str,
}

/// The facts of refusal `number`, if there is one.
pub fn refusal_facts(number: u32) -> Option<&'static RefusalFacts> {
    REFUSALS.iter().find(|facts| facts.number == number)
}

/// Whether refusal `number` is of the instance file.
pub fn is_of_instance(number: u32) -> bool {
    let of_file = refusal::BAD_NUMBER..=refusal::BYTES_LEFT;
    of_file.contains(&number) || [refusal::SAME_EVENT, refusal::BAD_CALENDAR].contains(&number)
}

/// A constant for each refusal, and the table of all.
macro_rules! refusals {
    ($($number:literal $name:ident $when:literal $gives:literal;)*) => {
        /// The numbers of the refusals by name.
        pub mod refusal {
            $(pub const $name: u32 = $number;)*
        }

        pub const REFUSALS: &[RefusalFacts] = &[$(RefusalFacts {
            number: $number,
            name: stringify!($name),
            when: $when,
            gives: $gives,
        }),*];
    };
}

refusals! {
    1 BAD_NUMBER "a number is cut short, overlong or too large" "it starts at offset {}";
    2 OUTSIDE_LIMIT "a value is outside its limit" "it starts at offset {}";
    3 BAD_REFERENCE "a reference to nothing, or a list that does not ascend"
        "the number starts at offset {}";
    4 LIST_TOO_LONG "a counted list is longer than 255" "the constraint's kind is at offset {}";
    5 BAD_BOUNDS "lo is above hi or above the length of the counted list, or shortest above longest"
        "the constraint's kind is at offset {}";
    6 BYTES_LEFT "bytes are left over after the last constraint" "the first is at offset {}";
    7 BOUND_TOO_HIGH "the bound is above 4,095" "it is {}";
    8 TOO_MANY_VARIABLES "the formula has more than 8,000,000 variables" "";
    9 TOO_SHORT "an output or store that was lent is too short for the formula" "";
    10 WRONG_LENGTH "the length is wrong" "{} bytes are wanted";
    11 ABOVE_ONE "a byte is above 1" "the first is at offset {}";
    12 NOT_A_TIMETABLE "this is not a timetable" "event {} is the first to break it";
    13 CLAUSE_FALSE "a hard clause is false" "{} is the lowest such id";
    14 BAD_STEP "a step is misformed" "step {}";
    15 NOT_LIVE "a hint or deletion names a clause that is not live" "step {}";
    16 BAD_HINT "a hint, or the ending of the hints, breaks the rule" "step {}";
    17 CLAUSE_TOO_LONG "a clause does not fit the store" "step {}";
    18 BAD_END "the proof has no empty clause, or bytes after it" "{} steps were read";
    19 SAME_EVENT "both events of a precedence are one" "the constraint's kind is at offset {}";
    20 BAD_SOLVER_TEXT "a solver's text has a line of another kind, a literal out of range or \
        malformed, or a number after the 0" "it is at offset {}";
    21 NOT_GIVEN_ONCE "a variable is missing in a solver's text, or given twice"
        "variable {} is the lowest such";
    22 BAD_CALENDAR "a count, period or window of a calendar breaks its rules, or there are more \
        than 125 periods or none" "its first byte is at offset {}";
}

#[cfg(test)]
mod tests {
    use super::*;

    #[test]
    fn numbers_count_from_1() {
        for (at, facts) in REFUSALS.iter().enumerate() {
            assert_eq!(facts.number as usize, at + 1);
        }
        assert_eq!(refusal::BAD_CALENDAR as usize, REFUSALS.len());
    }

    #[test]
    fn those_of_the_instance_are_told_apart() {
        let numbers = REFUSALS.iter().map(|facts| facts.number);
        let of_instance: Vec<u32> = numbers.filter(|&number| is_of_instance(number)).collect();
        assert_eq!(of_instance, [1, 2, 3, 4, 5, 6, 19, 22]);
    }
}
