//! Where the subjects of a register are drawn, and where its arrows begin and
//! end. All lengths are in tenths of a pixel.

use second::block::{Delegation, Register};

#[derive(Clone, Copy)]
pub struct Point {
    pub x: i64,
    pub y: i64,
}

pub const RADIUS: i64 = 220;
const BETWEEN_ROWS: i64 = 940;
const BETWEEN_COLUMNS: i64 = 1500;
/// Between the circle of the receiver and the arrow's tip.
const GAP: i64 = 40;

/// The place of every subject by number: the owner on top, then a row for each
/// distance from the owner.
pub struct Layout {
    pub places: Vec<Point>,
    pub middle: i64,
}

impl Layout {
    pub fn new(register: &Register, top: Point) -> Layout {
        let mut places = vec![top; register.marks.len()];
        for (depth, row) in rows(register).iter().enumerate() {
            let left = top.x - BETWEEN_COLUMNS * (row.len() as i64 - 1) / 2;
            for (column, &subject) in row.iter().enumerate() {
                let x = left + BETWEEN_COLUMNS * column as i64;
                places[subject as usize] = Point { x, y: top.y + BETWEEN_ROWS * depth as i64 };
            }
        }
        let layout = Layout { places, middle: top.x };
        assert!(register.delegations.iter().all(|d| layout.is_clear(d)), "an arrow runs through a circle");
        layout
    }

    /// The two ends of a delegation's arrow, between the circles.
    pub fn ends(&self, d: &Delegation) -> (Point, Point) {
        let (from, to) = (self.places[d.giver as usize], self.places[d.receiver as usize]);
        (towards(from, to, RADIUS), towards(to, from, RADIUS + GAP))
    }

    /// How far down the lowest circle reaches.
    pub fn bottom(&self) -> i64 {
        self.places.iter().map(|place| place.y + RADIUS).max().unwrap_or(0)
    }

    /// The arrow keeps away from the circles of all other subjects.
    fn is_clear(&self, d: &Delegation) -> bool {
        let (from, to) = (self.places[d.giver as usize], self.places[d.receiver as usize]);
        let (dx, dy) = (to.x - from.x, to.y - from.y);
        let squared = dx * dx + dy * dy;
        let others = (0..self.places.len()).filter(|&at| at != d.giver as usize && at != d.receiver as usize);
        others.map(|at| self.places[at]).all(|circle| {
            let (cx, cy) = (circle.x - from.x, circle.y - from.y);
            let along = cx * dx + cy * dy;
            let across = cx * dy - cy * dx;
            let room = RADIUS + GAP;
            along < 0 || along > squared || across * across > room * room * squared
        })
    }
}

/// The subjects by their distance from the owner, each row rising; those that
/// no delegation leads to come last.
pub fn rows(register: &Register) -> Vec<Vec<u8>> {
    let mut rows = vec![vec![0]];
    let mut rest: Vec<u8> = (1..register.marks.len() as u8).collect();
    while !rest.is_empty() {
        let above = &rows[rows.len() - 1];
        let follows = |subject: &u8| register.delegations.iter().any(|d| d.receiver == *subject && above.contains(&d.giver));
        let (row, others): (Vec<u8>, Vec<u8>) = rest.into_iter().partition(follows);
        let (row, others) = if row.is_empty() { (others, row) } else { (row, others) };
        rows.push(row);
        rest = others;
    }
    rows
}

/// The point that lies `length` from one point on the way to another.
pub fn towards(from: Point, to: Point, length: i64) -> Point {
    let (dx, dy) = (to.x - from.x, to.y - from.y);
    let whole = root(dx * dx + dy * dy).max(1);
    Point { x: from.x + dx * length / whole, y: from.y + dy * length / whole }
}

/// The largest number whose square is at most n.
pub fn root(n: i64) -> i64 {
    let mut root = 0;
    for bit in (0..31).rev() {
        let larger = root + (1 << bit);
        if larger * larger <= n {
            root = larger;
        }
    }
    root
}
