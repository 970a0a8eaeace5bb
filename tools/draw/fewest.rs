//! Thinning to the fewest stops: the library's own proposal, judged by its checker before it is drawn.

use crate::lurfanzi::{self, Floor, Proposal};
use crate::planning::{Failure, Thinning};

/// The thinning with the fewest legs.
pub const FEWEST: Thinning = Thinning { kept: proposed, rule: "as the fewest that can be, which is checked too" };

/// The positions of the library's proposal.
fn proposed(floor: Floor, list: &[u16]) -> Result<Vec<u16>, Failure> {
    let (mut kept, mut legs) = (vec![0; list.len()], vec![0; list.len()]);
    let count = lurfanzi::fewest_legs(floor, list, &mut kept, &mut legs, list.len())?;
    accepted(floor, list, Proposal { kept: &kept, count, legs: &legs })
}

/// The positions of a proposal that the checker accepts. Any other is an error: nothing is drawn of it.
fn accepted(floor: Floor, list: &[u16], proposal: Proposal) -> Result<Vec<u16>, Failure> {
    match lurfanzi::check_legs(floor, list, list.len(), proposal)? {
        true => Ok(proposal.kept[..proposal.count].to_vec()),
        false => Err(Failure::NotAccepted("the checker does not accept the proposed stops (19)".to_string())),
    }
}

#[cfg(test)]
mod tests {
    use super::*;
    use crate::lurfanzi::Refusal;
    use crate::planning::FARTHEST;
    use crate::working_floor::tests::floor_of;

    /// A list that goes along the blocked cell, down behind it, where the first vertex does not see it, and up again.
    const ROWS: [&str; 2] = ["...", ".#."];
    const LIST: [u16; 6] = [4, 5, 6, 10, 6, 7];

    #[test]
    fn fewer_than_by_the_thinning_rule() {
        let floor = floor_of(&ROWS, &[]);
        let kept = |thinning: &Thinning, list: &[u16]| (thinning.kept)(floor.floor(), list);
        assert_eq!(kept(&FARTHEST, &LIST), Ok(vec![0, 2, 5]));
        assert_eq!(kept(&FEWEST, &LIST), Ok(vec![0, 5]));
        assert_eq!(kept(&FEWEST, &[0]), Ok(vec![0]));
        assert_eq!(kept(&FEWEST, &[0, 11]), Err(Failure::Refused(Refusal::NotJoined)));
    }

    #[test]
    fn other_proposals() {
        let floor = floor_of(&ROWS, &[]);
        let judged = |kept: &[u16], count, legs: &[u16]| accepted(floor.floor(), &LIST, Proposal { kept, count, legs });
        let (kept, legs) = ([0, 5, 0, 0, 0, 0], [1, 1, 1, 1, 1, 0]);
        assert_eq!(judged(&kept, 2, &legs), Ok(vec![0, 5]));
        let others = [(kept, 3, legs), ([0, 2, 5, 0, 0, 0], 3, legs), (kept, 2, [1, 1, 1, 2, 1, 0])];
        for (kept, count, legs) in others {
            assert!(matches!(judged(&kept, count, &legs), Err(Failure::NotAccepted(_))));
        }
    }
}
