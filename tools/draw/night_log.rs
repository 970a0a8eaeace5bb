//! A cart's night log, replayed.

use crate::lurfanzi::{self, Replay};
use crate::sides::Point;
use crate::sighting::{InTheWay, Sighting};
use crate::working_floor::WorkingFloor;

/// Why a record can't follow the one before it: it is on a pinch, something is in the way, or no move leads so far.
#[derive(Clone, Copy, Debug, PartialEq, Eq)]
pub enum Hindrance {
    OnPinch,
    InTheWay(Sighting),
    NoMove,
}

/// What a log tells: the replay's answer, the points of the records that were read, why the first record that can't
/// follow can't, and the least cost between the log's ends where it has a record and neither fault.
#[derive(Debug, PartialEq, Eq)]
pub struct Drive {
    pub told: Replay,
    pub stops: Vec<Point>,
    pub hindrance: Option<Hindrance>,
    pub least: Option<u32>,
}

impl Drive {
    /// The stops that were driven to: all, or those before the record that can't follow.
    pub fn driven(&self) -> &[Point] {
        &self.stops[..self.told.unfollowed.map_or(self.stops.len(), |record| record.get() - 1)]
    }

    /// The stop that can't follow, if there is one.
    pub fn unfollowed(&self) -> Option<Point> {
        self.told.unfollowed.map(|record| self.stops[record.get() - 1])
    }
}

/// Replays a log.
pub fn replayed(floor: &WorkingFloor, neighbourhood: u32, log: &[u8]) -> Result<Drive, String> {
    let (mut costs, mut work) = (vec![0; floor.sides.vertices()], vec![0; 4 * floor.sides.vertices()]);
    let told = lurfanzi::replay(floor.floor(), neighbourhood, log, &mut costs, &mut work);
    let told = told.map_err(|refusal| format!("the log is refused: {refusal}"))?;
    let vertex = |record: &[u8]| u32::from(u16::from_le_bytes([record[2], record[3]]));
    let vertices: Vec<u32> = log.chunks_exact(4).take(told.read).map(vertex).collect();
    let stops: Vec<Point> = vertices.iter().map(|&vertex| floor.sides.point(vertex)).collect();
    let hindrance = told.unfollowed.map(|record| hindrance(floor, &stops[..record.get()])).transpose()?;
    let faultless = told.unfollowed.is_none() && told.bad.is_none();
    let least = vertices.last().filter(|_| faultless).map(|&last| costs[last as usize]);
    Ok(Drive { told, stops, hindrance, least })
}

/// Why the last of some stops can't follow the one before it.
fn hindrance(floor: &WorkingFloor, stops: &[Point]) -> Result<Hindrance, String> {
    Ok(match *stops {
        [.., to] if floor.is_pinch(to) => Hindrance::OnPinch,
        [.., from, to] => match Sighting::asked(floor, from, to)? {
            Sighting { found: InTheWay::Nothing, .. } => Hindrance::NoMove,
            sighting => Hindrance::InTheWay(sighting),
        },
        _ => Hindrance::NoMove,
    })
}

#[cfg(test)]
pub mod tests {
    use super::*;
    use crate::lurfanzi::log_of;
    use crate::working_floor::tests::floor_of;

    /// What a log of these vertices, cut to a number of bytes, tells on a floor of 4 by 2 cells with a pinch at 7.
    pub fn drive(stops: &[u16], bytes: usize) -> Drive {
        let floor = floor_of(&[".#..", "..#."], &[]);
        replayed(&floor, 8, &log_of(stops)[..bytes]).expect("a log")
    }

    #[test]
    fn faultless_logs() {
        let good = drive(&[0, 5, 11, 10], 16);
        assert_eq!((good.driven().len(), good.unfollowed(), good.least, good.told.cost), (4, None, Some(816), 1393));
        assert!(!good.told.cheapest && drive(&[0, 5, 11], 12).told.cheapest);
        let none = drive(&[], 0);
        assert_eq!((none.driven().len(), none.hindrance, none.least), (0, None, None));
    }

    #[test]
    fn faults() {
        let far = drive(&[0, 11, 12], 12);
        assert_eq!((far.driven().len(), far.unfollowed(), far.hindrance, far.least), (
            1,
            Some(Point { x: 1, y: 2 }),
            Some(Hindrance::NoMove),
            None,
        ));
        let through = drive(&[0, 1, 2], 12);
        assert!(matches!(through.hindrance, Some(Hindrance::InTheWay(_))));
        assert_eq!(drive(&[7, 7], 8).hindrance, Some(Hindrance::OnPinch));
        assert_eq!(drive(&[7, 7], 8).driven(), []);
        assert_eq!(drive(&[6, 7], 8).hindrance, Some(Hindrance::OnPinch));
        let cut = drive(&[0, 5, 11], 10);
        assert_eq!((cut.driven().len(), cut.least, cut.told.number()), (2, None, 17));
        let floor = floor_of(&["."], &[]);
        assert!(replayed(&floor, 8, &[0; 16_385]).is_err_and(|said| said.ends_with("(16)")));
        assert!(replayed(&floor, 5, &[]).is_err_and(|said| said.ends_with("(4)")));
    }
}
