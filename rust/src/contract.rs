//! From the archive's numbers to results.
//!
//! The archive is proved to give only answers of the list, each with its own evidence, and parts
//! that lie in what was lent. So numbers that cannot be decoded never come from it; they could
//! come from the archive of another tree, linked by mistake. No finding would then be true, so
//! such a call ends in a panic that says why, and not in a made-up finding.

use crate::{Refusal, Rule};

/// The result of the check or the replay, whose evidence stands in the first `written` entries.
pub(crate) fn decoded(answer: u16, entries: &[u16], written: usize) -> Result<(), Refusal<'_>> {
    let Err(rule) = accepted(answer) else {
        return Ok(());
    };
    let evidence = part(entries, 0, written);
    Err(Refusal::decode(rule, evidence).unwrap_or_else(|| foreign("evidence of another rule")))
}

/// Whether an answer is 0, and else its rule.
pub(crate) fn accepted(answer: u16) -> Result<(), Rule> {
    match answer {
        0 => Ok(()),
        _ => Err(Rule::try_from(answer).unwrap_or_else(|_| foreign("an unknown answer"))),
    }
}

/// The part of what was lent that the archive names.
pub(crate) fn part<T>(lent: &[T], start: usize, length: usize) -> &[T] {
    let named = lent.get(start..).and_then(|behind| behind.get(..length));
    named.unwrap_or_else(|| foreign("a part of what was not lent"))
}

#[cold]
fn foreign(what: &str) -> ! {
    panic!("the linked archive gave {what}, which is proved of ours not to be: is it of this tree?")
}

#[cfg(test)]
mod tests {
    use super::*;

    #[test]
    fn decoded_as_the_contract_says() {
        assert_eq!(decoded(0, &[7, 7], 0), Ok(()));
        assert_eq!(decoded(33, &[3, 7], 1), Err(Refusal::WrongValue { read: 3 }));
        assert_eq!(part(&[4, 5, 6], 1, 2), [5, 6]);
        assert_eq!(part(&[4, 5, 6], 3, 0), []);
    }

    #[test]
    #[should_panic(expected = "an unknown answer")]
    fn unknown_answer() {
        let _ = decoded(6, &[7, 7], 0);
    }

    #[test]
    #[should_panic(expected = "evidence of another rule")]
    fn too_little_evidence() {
        let _ = decoded(25, &[7, 7], 2);
    }

    #[test]
    #[should_panic(expected = "a part of what was not lent")]
    fn more_evidence_than_there_is_room() {
        let _ = decoded(24, &[7, 7], 3);
    }

    #[test]
    #[should_panic(expected = "a part of what was not lent")]
    fn a_part_that_starts_too_far() {
        let _ = part(&[4, 5, 6], 4, 0);
    }
}
