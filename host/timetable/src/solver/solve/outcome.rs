//! What a week came to.

use super::claim::Claim;
use std::path::PathBuf;

/// The best timetable so far, as the engine prices it.
#[derive(Clone, Debug, PartialEq, Eq)]
pub struct Best {
    pub cost: u64,
    pub model: PathBuf,
    pub timetable: PathBuf,
}

/// Where the engine answered "no timetable": at any cost, or at the highest
/// bound so far.
#[derive(Clone, Debug, PartialEq, Eq)]
pub struct Refuted {
    pub claim: Claim,
    pub proof: PathBuf,
    pub steps: u64,
}

/// What is known. Each cost is one that the engine decoded, each claim one that
/// it checked a proof of.
#[derive(Clone, Debug, Default, PartialEq, Eq)]
pub struct Outcome {
    pub best: Option<Best>,
    pub refuted: Option<Refuted>,
    /// It was stopped before it was done.
    pub interrupted: bool,
    /// What went wrong on the way, in words.
    pub notes: Vec<String>,
}

impl Outcome {
    /// Whether nothing is left open: no cost below the best one's can be had,
    /// or none at all.
    pub fn is_settled(&self) -> bool {
        match (&self.best, self.claim()) {
            (_, Some(Claim::AnyCost)) => true,
            (Some(best), _) if best.cost == 0 => true,
            (Some(best), Some(Claim::Bound(bound))) => bound + 1 >= best.cost,
            _ => false,
        }
    }

    /// What a proof was checked of, if one was.
    pub fn claim(&self) -> Option<Claim> {
        self.refuted.as_ref().map(|refuted| refuted.claim)
    }

    /// The outcome in a line.
    pub fn sentence(&self) -> String {
        match (&self.best, self.claim()) {
            (_, Some(Claim::AnyCost)) => {
                "no timetable keeps the hard constraints, whatever it costs, checked".to_string()
            }
            (Some(best), _) if best.cost == 0 => "costs 0; nothing costs less".to_string(),
            (Some(best), Some(Claim::Bound(bound))) if bound + 1 >= best.cost => {
                format!("costs {}; none at {bound} or less, checked", best.cost)
            }
            (Some(best), Some(Claim::Bound(bound))) => format!(
                "costs {}; none at {bound} or less, checked; open from {} to {}",
                best.cost,
                bound + 1,
                best.cost - 1
            ),
            (Some(best), None) => format!(
                "costs {}; nothing refuted; open from 0 to {}",
                best.cost,
                best.cost - 1
            ),
            (None, Some(Claim::Bound(bound))) => {
                format!("no timetable found; none at {bound} or less, checked")
            }
            (None, None) => "no timetable found; nothing refuted".to_string(),
        }
    }
}

#[cfg(test)]
mod tests {
    use super::{Best, Claim, Outcome, Refuted};
    use std::path::PathBuf;

    fn outcome(cost: Option<u64>, claim: Option<Claim>) -> Outcome {
        let path = PathBuf::new;
        Outcome {
            best: cost.map(|cost| Best {
                cost,
                model: path(),
                timetable: path(),
            }),
            refuted: claim.map(|claim| Refuted {
                claim,
                proof: path(),
                steps: 1,
            }),
            ..Outcome::default()
        }
    }

    #[test]
    fn the_sentence_claims_what_was_checked_and_no_more() {
        let bound = |bound| Some(Claim::Bound(bound));
        for (cost, claim, settled, sentence) in [
            (
                Some(11),
                bound(10),
                true,
                "costs 11; none at 10 or less, checked",
            ),
            (
                Some(11),
                bound(7),
                false,
                "costs 11; none at 7 or less, checked; open from 8 to 10",
            ),
            (
                Some(11),
                None,
                false,
                "costs 11; nothing refuted; open from 0 to 10",
            ),
            (Some(0), None, true, "costs 0; nothing costs less"),
            (
                Some(5000),
                bound(4095),
                false,
                "costs 5000; none at 4095 or less, checked; open from 4096 to 4999",
            ),
            (
                None,
                Some(Claim::AnyCost),
                true,
                "no timetable keeps the hard constraints, whatever it costs, checked",
            ),
            (
                None,
                bound(4095),
                false,
                "no timetable found; none at 4095 or less, checked",
            ),
            (None, None, false, "no timetable found; nothing refuted"),
        ] {
            let outcome = outcome(cost, claim);
            assert_eq!(outcome.sentence(), sentence);
            assert_eq!(outcome.is_settled(), settled, "{sentence}");
        }
    }
}
