//! A name that may have been meant where there is none of that spelling.

/// "there is no lesson 'Math'", with the nearest of the names that there are,
/// if one is near.
pub fn missing<'a>(what: &str, name: &str, known: impl Iterator<Item = &'a String>) -> String {
    let distances = known.map(|one| (distance(name, one), one));
    // One change in three characters, no more, is taken for a slip.
    let near = distances.filter(|(changes, one)| changes * 3 <= one.chars().count());
    match near.min() {
        Some((_, near)) => format!("there is no {what} '{name}'; is '{near}' meant?"),
        None => format!("there is no {what} '{name}'"),
    }
}

/// How many characters must be changed, added or taken away.
fn distance(from: &str, to: &str) -> usize {
    let to: Vec<char> = to.chars().collect();
    let mut row: Vec<usize> = (0..=to.len()).collect();
    for (at, c) in from.chars().enumerate() {
        let mut before = row[0];
        row[0] = at + 1;
        for (column, &d) in to.iter().enumerate() {
            let changed = before + usize::from(c != d);
            before = row[column + 1];
            row[column + 1] = changed.min(before + 1).min(row[column] + 1);
        }
    }
    row[to.len()]
}

#[cfg(test)]
mod tests {
    use super::*;

    #[test]
    fn changes_are_counted() {
        for (from, to, changes) in [
            ("", "", 0),
            ("a", "", 1),
            ("Mon", "Mno", 2),
            ("kitten", "sitting", 3),
        ] {
            assert_eq!(distance(from, to), changes, "{from} {to}");
        }
    }

    #[test]
    fn a_near_name_is_told() {
        let names = ["Mornings".to_string(), "Last".to_string()];
        let told = |name| missing("group", name, names.iter());
        assert_eq!(
            told("Morning"),
            "there is no group 'Morning'; is 'Mornings' meant?"
        );
        assert_eq!(told("last"), "there is no group 'last'; is 'Last' meant?");
        assert_eq!(told("Noon"), "there is no group 'Noon'");
    }
}
