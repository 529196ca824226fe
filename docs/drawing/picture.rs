//! The picture of a cut: the register before it on the left, after it on the
//! right.

use crate::layout::{Layout, Point, RADIUS};
use crate::svg::{Anchor, Letters, Pen, Svg, FAINT, GONE, INK, OUTLINE, SMALL, TITLE, WHITE};
use second::block::{Delegation, Register};
use second::refusal::{Call, Passed};

/// A cut as the archive made it.
pub struct Cut {
    pub name: &'static str,
    pub before: Register,
    pub after: Register,
    pub cut: Passed,
    pub answers: [i32; 3],
}

/// What the cut made of a delegation.
#[derive(Clone, Copy, PartialEq)]
enum Fate {
    Kept,
    Named,
    Lowered,
    Dropped,
}

const LABEL: Letters = Letters { size: 170, colour: INK, bold: true };

const WIDTH: i64 = 8400;
const PANEL: i64 = WIDTH / 2;
const FIRST_ROW: i64 = 1200;
/// Between an arrow or a circle and what is written beside it.
const BESIDE: i64 = 160;
/// Below the lowest circle: the key and the notes.
const BELOW: i64 = 1300;

const KEY: [(Fate, &str); 4] = [
    (Fate::Kept, "stands as before"),
    (Fate::Named, "named in the cut"),
    (Fate::Lowered, "lowered: old \u{2192} new"),
    (Fate::Dropped, "dropped"),
];
const NOTES: [&str; 2] = [
    "Circles are subjects, dashed where they may not use the right. Arrows are delegations with their weight:",
    "how many further steps the right may travel. need 1: a chain through it counts only for receivers with mark 1.",
];

impl Cut {
    fn fate(&self, d: &Delegation) -> Fate {
        match self.after.standing(d.giver as u32, d.receiver as u32) {
            _ if self.names(d) => Fate::Named,
            None => Fate::Dropped,
            Some(left) if left.weight < d.weight => Fate::Lowered,
            Some(_) => Fate::Kept,
        }
    }

    fn names(&self, d: &Delegation) -> bool {
        (d.giver as u32, d.receiver as u32) == (self.cut.giver, self.cut.receiver)
    }

    fn count(&self, fate: Fate) -> i32 {
        self.before.delegations.iter().filter(|d| self.fate(d) == fate).count() as i32
    }

    /// The cut in words.
    fn call(&self) -> String {
        let pair = format!("{}-{}", self.cut.giver, self.cut.receiver);
        match self.cut.call {
            Call::Downgrade => format!("downgrade {pair} to {}", self.cut.weight),
            _ => format!("revoke {pair}"),
        }
    }
}

fn pen(fate: Fate) -> Pen {
    match fate {
        Fate::Kept => OUTLINE,
        Fate::Named => Pen { colour: "#0550ae", width: 45, dashed: false },
        Fate::Lowered => Pen { colour: "#bc4c00", width: 28, dashed: false },
        Fate::Dropped => GONE,
    }
}

pub fn picture(cut: &Cut) -> String {
    let [dropped, lowered, rounds] = cut.answers;
    assert_eq!((cut.count(Fate::Dropped), cut.count(Fate::Lowered)), (dropped, lowered));
    let left = Layout::new(&cut.before, Point { x: PANEL / 2, y: FIRST_ROW });
    let right = Layout::new(&cut.before, Point { x: PANEL + PANEL / 2, y: FIRST_ROW });
    let title = format!("{} before and after its cut, {}", cut.name, cut.call());
    let mut svg = Svg::new(WIDTH, left.bottom() + BELOW, &title);

    let (first, then) = (cut.before.delegations.len(), cut.after.delegations.len());
    heading(&mut svg, left.middle, &format!("{} before the cut", cut.name), &format!("{first} delegations stand"));
    let answers = format!("{then} stand; answers: dropped {dropped}, lowered {lowered}, rounds {rounds}");
    heading(&mut svg, right.middle, &format!("After: {}", cut.call()), &answers);
    let rule = Pen { colour: "#d0d7de", width: 10, dashed: false };
    svg.line(Point { x: PANEL, y: 300 }, Point { x: PANEL, y: left.bottom() }, rule);

    for d in &cut.before.delegations {
        let named = if cut.names(d) { Fate::Named } else { Fate::Kept };
        delegation(&mut svg, &left, d, named, &label(d, None));
        delegation(&mut svg, &right, d, cut.fate(d), &label(d, Some(&cut.after)));
    }
    subjects(&mut svg, &left, &cut.before);
    subjects(&mut svg, &right, &cut.after);
    key(&mut svg, left.bottom());
    svg.finish()
}

fn heading(svg: &mut Svg, x: i64, title: &str, below: &str) {
    svg.text(Point { x, y: 400 }, Anchor::Middle, TITLE, title);
    svg.text(Point { x, y: 670 }, Anchor::Middle, SMALL, below);
}

/// The weight, the old and the new one where it changed, and the condition.
fn label(d: &Delegation, after: Option<&Register>) -> String {
    let mut label = match after.map(|r| r.standing(d.giver as u32, d.receiver as u32)) {
        Some(Some(left)) if left.weight != d.weight => format!("{} \u{2192} {}", d.weight, left.weight),
        Some(None) => format!("{}, dropped", d.weight),
        _ => d.weight.to_string(),
    };
    for (name, mask) in [("need", d.need), ("bar", d.bar)] {
        if mask != 0 {
            label += &format!(", {name} {mask}");
        }
    }
    label
}

/// The arrow, and its label on the side away from the middle.
fn delegation(svg: &mut Svg, layout: &Layout, d: &Delegation, fate: Fate, label: &str) {
    let (from, to) = layout.ends(d);
    svg.arrow(from, to, pen(fate));
    let half_way = Point { x: (from.x + to.x) / 2, y: (from.y + to.y) / 2 };
    let letters = Letters { colour: pen(fate).colour, bold: fate != Fate::Dropped, ..LABEL };
    beside(svg, layout, half_way, BESIDE, letters, label);
}

/// The circles with their numbers; who may not use the right is dashed.
fn subjects(svg: &mut Svg, layout: &Layout, register: &Register) {
    for (subject, &place) in layout.places.iter().enumerate() {
        let owner = subject == 0;
        let uses = owner || register.delegations.iter().any(|d| d.receiver as usize == subject);
        let pen = if uses { OUTLINE } else { GONE };
        svg.circle(place, RADIUS, if owner { INK } else { WHITE }, pen);
        let colour = if owner { WHITE } else { pen.colour };
        svg.text(place, Anchor::Middle, Letters { colour, ..TITLE }, &subject.to_string());
        let note = match (owner, register.marks[subject]) {
            (true, _) => "owner".to_string(),
            (false, 0) => continue,
            (false, marks) if marks.is_power_of_two() => format!("mark {marks}"),
            (false, marks) => format!("marks {marks}"),
        };
        beside(svg, layout, place, RADIUS + BESIDE / 2, Letters { colour: FAINT, ..SMALL }, &note);
    }
}

/// Writes beside a point, on the side away from the middle.
fn beside(svg: &mut Svg, layout: &Layout, at: Point, apart: i64, letters: Letters, text: &str) {
    let (x, anchor) = if at.x < layout.middle { (at.x - apart, Anchor::End) } else { (at.x + apart, Anchor::Start) };
    svg.text(Point { x, y: at.y }, anchor, letters, text);
}

fn key(svg: &mut Svg, bottom: i64) {
    let every = WIDTH / KEY.len() as i64;
    for (at, (fate, meaning)) in KEY.into_iter().enumerate() {
        let from = Point { x: 250 + every * at as i64, y: bottom + 480 };
        svg.arrow(from, Point { x: from.x + 450, y: from.y }, pen(fate));
        svg.text(Point { x: from.x + 540, y: from.y }, Anchor::Start, Letters { colour: pen(fate).colour, ..SMALL }, meaning);
    }
    for (at, note) in NOTES.into_iter().enumerate() {
        let y = bottom + 820 + 230 * at as i64;
        svg.text(Point { x: 250, y }, Anchor::Start, SMALL, note);
    }
}
