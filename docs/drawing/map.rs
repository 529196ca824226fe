//! The picture of a register.

use crate::file::Loaded;
use crate::layout::Point;
use crate::places::{places, HALF};
use crate::routes::{routes, Route, Wish};
use crate::svg::{Anchor, Head, Letters, Pen, Svg, FAINT, GONE, INK, OUTLINE, SMALL, TITLE, WHITE};
use second::block::{Delegation, Register, ORDINARY};

const LABEL: Letters = Letters { size: 140, colour: INK, bold: true };
const MARKS: Letters = Letters { size: 110, colour: FAINT, bold: false };
const UNSUPPORTED: Pen = Pen { colour: "#cf222e", width: 28, dashed: true };

const LEAST_WIDTH: i64 = 8400;
const MARGIN: i64 = 250;
const HEADING: i64 = 900;
/// Below the picture: the notes.
const BELOW: i64 = 1470;

const NOTES: [&str; 5] = [
    "Each outline is a subject with its marks, dashed where it may not use the right. Arrows are delegations with",
    "their weight: how many further steps the right may travel; 255 is unlimited. An open arrowhead is pass-only:",
    "the receiver may not use the right by it. A chain through a delegation with need or bar counts only for",
    "receivers that have every mark of need and none of bar: 5 stands for the marks of value 1 and 4. A red dashed",
    "arrow is unsupported: no chain from the owner carries its weight.",
];

pub fn draw(loaded: &Loaded) -> String {
    let register = &loaded.register;
    let places = places(register, longest(register));
    let wishes: Vec<Wish> = register.delegations.iter().map(|d| wish(register, &places, d)).collect();
    let routes = routes(&places, &wishes);
    let bounds = Bounds::of(&places, &routes);
    let width = (bounds.width() + 2 * MARGIN).max(LEAST_WIDTH);
    let shift = Point { x: (width - bounds.width()) / 2 - bounds.left, y: HEADING - bounds.top };
    let bottom = bounds.bottom + shift.y;

    let title = format!("{}, {}", counted(register.marks.len(), "subject"), counted(register.delegations.len(), "delegation"));
    let mut svg = Svg::new(width, bottom + BELOW, &title);
    svg.text(Point { x: width / 2, y: 400 }, Anchor::Middle, TITLE, &title);
    svg.text(Point { x: width / 2, y: 640 }, Anchor::Middle, SMALL, &judgement(loaded));
    let routes: Vec<Route> = routes.into_iter().map(|route| route.moved(shift)).collect();
    arrows(&mut svg, loaded, &routes);
    labels(&mut svg, loaded, &routes, &wishes);
    subjects(&mut svg, register, &places, shift);
    notes(&mut svg, bottom);
    svg.finish()
}

fn notes(svg: &mut Svg, bottom: i64) {
    for (at, note) in NOTES.into_iter().enumerate() {
        svg.text(Point { x: MARGIN, y: bottom + 380 + 220 * at as i64 }, Anchor::Start, SMALL, note);
    }
}

fn counted(count: usize, what: &str) -> String {
    format!("{count} {what}{}", if count == 1 { "" } else { "s" })
}

/// What the step table says of the register.
fn judgement(loaded: &Loaded) -> String {
    let table = if loaded.lent { "the step table lent" } else { "our step table" };
    match loaded.supported.iter().filter(|&&supported| !supported).count() {
        0 => format!("all supported under {table}"),
        count => format!("{count} unsupported under {table}"),
    }
}

fn wish(register: &Register, places: &[Point], d: &Delegation) -> Wish {
    Wish {
        from: places[d.giver as usize],
        to: places[d.receiver as usize],
        opposed: register.standing(d.receiver as u32, d.giver as u32).is_some(),
        label: Point { x: LABEL.width(&label(d)) / 2 + 30, y: LABEL.size * 60 / 100 },
    }
}

/// How long the longest label is.
fn longest(register: &Register) -> i64 {
    register.delegations.iter().map(|d| LABEL.width(&label(d))).max().unwrap_or(0)
}

/// The weight, and the condition where there is one.
fn label(d: &Delegation) -> String {
    let mut label = d.weight.to_string();
    for (name, mask) in [("need", d.need), ("bar", d.bar)] {
        if mask != 0 {
            label += &format!(", {name} {mask}");
        }
    }
    label
}

fn pen(supported: bool) -> Pen {
    if supported { OUTLINE } else { UNSUPPORTED }
}

fn arrows(svg: &mut Svg, loaded: &Loaded, routes: &[Route]) {
    for (at, d) in loaded.register.delegations.iter().enumerate() {
        let head = if d.kind == ORDINARY { Head::Filled } else { Head::Open };
        svg.curved_arrow(&routes[at], head, pen(loaded.supported[at]));
    }
}

/// Every label stands on its arrow, on white.
fn labels(svg: &mut Svg, loaded: &Loaded, routes: &[Route], wishes: &[Wish]) {
    for (at, d) in loaded.register.delegations.iter().enumerate() {
        svg.blank(routes[at].label, wishes[at].label);
        let letters = Letters { colour: pen(loaded.supported[at]).colour, ..LABEL };
        svg.text(routes[at].label, Anchor::Middle, letters, &label(d));
    }
}

fn subjects(svg: &mut Svg, register: &Register, places: &[Point], shift: Point) {
    for (at, place) in places.iter().enumerate() {
        subject(svg, register, at, Point { x: place.x + shift.x, y: place.y + shift.y });
    }
}

/// The outline with the number and the marks; who may not use the right is dashed.
fn subject(svg: &mut Svg, register: &Register, number: usize, place: Point) {
    let owner = number == 0;
    let gives_use = |d: &Delegation| d.receiver as usize == number && d.kind == ORDINARY;
    let uses = owner || register.delegations.iter().any(gives_use);
    let pen = if uses { OUTLINE } else { GONE };
    svg.outline(place, HALF, if owner { INK } else { WHITE }, pen);
    let (colour, faint) = if owner { (WHITE, WHITE) } else { (pen.colour, FAINT) };
    let note = if owner { "owner".to_string() } else { format!("marks {}", register.marks[number]) };
    svg.text(Point { y: place.y - 60, ..place }, Anchor::Middle, Letters { colour, ..TITLE }, &number.to_string());
    svg.text(Point { y: place.y + 110, ..place }, Anchor::Middle, Letters { colour: faint, ..MARKS }, &note);
}

/// What the subjects, the arrows and the labels take.
struct Bounds {
    left: i64,
    right: i64,
    top: i64,
    bottom: i64,
}

impl Bounds {
    fn of(places: &[Point], routes: &[Route]) -> Bounds {
        let outlines = places.iter().flat_map(|place| {
            let (left, top) = (place.x - HALF.x, place.y - HALF.y);
            [Point { x: left, y: top }, Point { x: place.x + HALF.x, y: place.y + HALF.y }]
        });
        let points: Vec<Point> = outlines.chain(routes.iter().flat_map(Route::corners)).collect();
        let xs = || points.iter().map(|point| point.x);
        let ys = || points.iter().map(|point| point.y);
        Bounds {
            left: xs().min().unwrap_or(0),
            right: xs().max().unwrap_or(0),
            top: ys().min().unwrap_or(0),
            bottom: ys().max().unwrap_or(0),
        }
    }

    fn width(&self) -> i64 {
        self.right - self.left
    }
}
