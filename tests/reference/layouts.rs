//! Kinds of floors for the tests.

use crate::floor::Floor;
use crate::random::Random;

#[derive(Clone, Copy, Debug, PartialEq, Eq)]
pub enum Kind {
    Open,
    Dense,
    Sparse,
    Maze,
    Corridors,
    Diagonals,
    Rooms,
    Pairs,
    Boards,
}

pub const KINDS: [Kind; 9] = [
    Kind::Open,
    Kind::Dense,
    Kind::Sparse,
    Kind::Maze,
    Kind::Corridors,
    Kind::Diagonals,
    Kind::Rooms,
    Kind::Pairs,
    Kind::Boards,
];

pub fn make(kind: Kind, random: &mut Random, width: u64, height: u64) -> Floor {
    match kind {
        Kind::Open => Floor::open(width, height),
        Kind::Dense => scattered(random, width, height, 42),
        Kind::Sparse => scattered(random, width, height, 10),
        Kind::Maze => maze(random, width, height),
        Kind::Corridors => corridors(random, width, height),
        Kind::Diagonals => diagonals(random, width, height),
        Kind::Rooms => rooms(random, width, height),
        Kind::Pairs => pairs(random, width, height),
        Kind::Boards => boards(random, width, height),
    }
}

fn from_rule(width: u64, height: u64, mut blocked: impl FnMut(u64, u64) -> bool) -> Floor {
    let mut cells = Vec::new();
    for j in 0..height {
        for i in 0..width {
            cells.push(u8::from(blocked(i, j)));
        }
    }
    Floor::new(width, height, cells)
}

fn scattered(random: &mut Random, width: u64, height: u64, share: u64) -> Floor {
    from_rule(width, height, |_, _| random.percent(share))
}

/// Cells of even column and row are joined by a random spanning tree.
fn maze(random: &mut Random, width: u64, height: u64) -> Floor {
    let mut floor = from_rule(width, height, |_, _| true);
    let mut trail = vec![(0i64, 0i64)];
    clear(&mut floor, 0, 0);
    while let Some(&(i, j)) = trail.last() {
        let offsets = [(2, 0), (0, 2), (-2, 0), (0, -2)];
        let fresh: Vec<_> = offsets.iter().filter(|&&(di, dj)| is_uncut(&floor, i + di, j + dj)).collect();
        if fresh.is_empty() {
            trail.pop();
            continue;
        }
        let &(di, dj) = random.pick(&fresh);
        clear(&mut floor, i + di / 2, j + dj / 2);
        clear(&mut floor, i + di, j + dj);
        trail.push((i + di, j + dj));
    }
    floor
}

fn is_uncut(floor: &Floor, i: i64, j: i64) -> bool {
    let inside = 0 <= i && i < floor.width as i64 && 0 <= j && j < floor.height as i64;
    inside && floor.is_blocked(i, j)
}

fn clear(floor: &mut Floor, i: i64, j: i64) {
    put(floor, i as u64, j as u64, 0);
}

fn put(floor: &mut Floor, i: u64, j: u64, cell: u8) {
    floor.cells[(j * floor.width + i) as usize] = cell;
}

/// Parallel halls one to six cells wide, joined at alternate ends.
fn corridors(random: &mut Random, width: u64, height: u64) -> Floor {
    let hall = random.within(1, 6);
    let gap = random.within(1, 4);
    let upright = random.percent(50);
    let wall = |along: u64, across: u64, length: u64| {
        let in_wall = across % (hall + 1) == hall;
        let turn = across / (hall + 1) % 2;
        in_wall && if turn == 0 { along + gap < length } else { along >= gap }
    };
    from_rule(width, height, |i, j| if upright { wall(j, i, height) } else { wall(i, j, width) })
}

/// A checkerboard with a few cells changed: blocked cells touch at corners.
fn diagonals(random: &mut Random, width: u64, height: u64) -> Floor {
    let scale = random.within(1, 2);
    let changed = random.within(0, 25);
    from_rule(width, height, |i, j| ((i / scale + j / scale) % 2 == 0) != random.percent(changed))
}

/// Blocked cells in pairs that touch at a corner, on an open floor.
fn pairs(random: &mut Random, width: u64, height: u64) -> Floor {
    let mut floor = Floor::open(width, height);
    let share = random.within(2, 20);
    for _ in 0..(width - 1) * (height - 1) * share / 100 + 1 {
        if width == 1 || height == 1 {
            break;
        }
        let (i, j) = (random.below(width - 1), random.below(height - 1));
        let falling = random.below(2);
        put(&mut floor, i + 1 - falling, j, 1);
        put(&mut floor, i + falling, j + 1, 1);
    }
    floor
}

/// Squares of checkerboard between open ones.
fn boards(random: &mut Random, width: u64, height: u64) -> Floor {
    let side = random.within(2, 6);
    let share = random.within(20, 60);
    let seed = random.next();
    let is_board = |i: u64, j: u64| Random::new(seed ^ (i / side * 1000 + j / side)).percent(share);
    from_rule(width, height, |i, j| is_board(i, j) && (i + j) % 2 == 0)
}

/// Square rooms with a door in each wall between two of them.
fn rooms(random: &mut Random, width: u64, height: u64) -> Floor {
    let side = random.within(2, 8);
    let period = side + 1;
    let seed = random.next();
    let furniture = random.pick(&[0, 0, 4]);
    let door = |wall: u64, room: u64| Random::new(seed ^ (wall * 1000 + room)).below(side);
    from_rule(width, height, |i, j| {
        let (right_wall, lower_wall) = (i % period == side, j % period == side);
        match (right_wall, lower_wall) {
            (true, true) => true,
            (true, false) => door(2 * (i / period), j / period) != j % period,
            (false, true) => door(2 * (j / period) + 1, i / period) != i % period,
            (false, false) => random.percent(furniture),
        }
    })
}
