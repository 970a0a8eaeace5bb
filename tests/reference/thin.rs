//! Thinning of a list of vertices to the positions that are kept.

use crate::floor::Floor;
use crate::sight;

/// Whether the first n places are vertices, each seeing the next.
pub fn is_joined(floor: &Floor, list: &[u16], n: u64) -> bool {
    if n == 0 || n > list.len() as u64 {
        return false;
    }
    let used = &list[..n as usize];
    let on_floor = used.iter().all(|&v| usize::from(v) < floor.vertex_count());
    on_floor && used.windows(2).all(|pair| sees(floor, pair[0], pair[1]))
}

pub fn sees(floor: &Floor, from: u16, to: u16) -> bool {
    sight::vertices_see(floor, usize::from(from), usize::from(to))
}

/// The kept positions of a joined list.
pub fn kept_positions(floor: &Floor, list: &[u16]) -> Vec<usize> {
    let last = list.len() - 1;
    let mut kept = vec![0];
    let mut at = 0;
    while at < last {
        let unseen = (at + 1..=last).find(|&k| !sees(floor, list[at], list[k]));
        at = unseen.map_or(last, |k| k - 1);
        kept.push(at);
    }
    kept
}

/// The thinner: answer and number of kept positions. Refusals 1, 2, 3, 6 and
/// 10 leave the output as it was.
pub fn thin(floor: &Floor, list: &[u16], output: &mut [u16], n: u64) -> (u8, u64) {
    if let Some(fault) = floor.shape_fault() {
        return (fault, 0);
    }
    if list.len() > 16_384 || output.len() != list.len() {
        return (6, 0);
    }
    if !is_joined(floor, list, n) {
        return (10, 0);
    }
    let kept = kept_positions(floor, &list[..n as usize]);
    output.fill(0);
    for (place, &position) in output.iter_mut().zip(&kept) {
        *place = position as u16;
    }
    (0, kept.len() as u64)
}
