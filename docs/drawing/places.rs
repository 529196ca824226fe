//! Where the subjects of any register are drawn: the owner on top, then a row for
//! each distance from the owner, a long row broken into several.

use crate::layout::{rows, Point};
use second::block::Register;

/// Half of a subject's outline, across and down.
pub const HALF: Point = Point { x: 430, y: 230 };

const MOST_IN_ROW: usize = 8;
const BETWEEN_COLUMNS: i64 = 1500;
const BETWEEN_ROWS: i64 = 1150;
/// How much wider all is, in hundredths, for each delegation that a subject has on average.
const WIDER: i64 = 14;

/// The place of every subject by number; the owner's is 0, 0. The longest label is so long.
pub fn places(register: &Register, longest: i64) -> Vec<Point> {
    let subjects = register.marks.len() as i64;
    let room = 100 + WIDER * register.delegations.len() as i64 / subjects;
    let (across, down) = ((BETWEEN_COLUMNS + longest / 3) * room / 100, BETWEEN_ROWS * room / 100);
    let mut places = vec![Point { x: 0, y: 0 }; register.marks.len()];
    let mut y = 0;
    for distance in rows(register).iter().skip(1) {
        let row = in_order(register, &places, distance);
        let parts = (row.len() + MOST_IN_ROW - 1) / MOST_IN_ROW;
        for (part, subjects) in row.chunks((row.len() + parts - 1) / parts).enumerate() {
            y += down;
            // Parts of one row stand half a column apart, so that arrows pass between.
            let aside = if parts > 1 { across / 4 * (1 - 2 * (part as i64 % 2)) } else { 0 };
            let left = aside - across * (subjects.len() as i64 - 1) / 2;
            for (column, &subject) in subjects.iter().enumerate() {
                places[subject as usize] = Point { x: left + across * column as i64, y };
            }
        }
    }
    places
}

/// The subjects of a row from left to right: each near those that give to it from the rows above.
fn in_order(register: &Register, places: &[Point], row: &[u8]) -> Vec<u8> {
    let mut ordered = row.to_vec();
    ordered.sort_by_key(|&subject| (middle_of_givers(register, places, row, subject), subject));
    ordered
}

fn middle_of_givers(register: &Register, places: &[Point], row: &[u8], subject: u8) -> i64 {
    let above = |giver: u8| places[giver as usize].y > 0 || giver == 0;
    let given = register.delegations.iter().filter(|d| d.receiver == subject);
    let xs: Vec<i64> = given
        .filter(|d| above(d.giver) && !row.contains(&d.giver))
        .map(|d| places[d.giver as usize].x)
        .collect();
    if xs.is_empty() { 0 } else { xs.iter().sum::<i64>() / xs.len() as i64 }
}
