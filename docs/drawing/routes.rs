//! The arrows of any register: each is a curve with its label on it, bent so that
//! it keeps away from the subjects, from other labels and from other arrows, as
//! far as there is room.

use crate::layout::{root, Point};
use crate::places::HALF;
use crate::svg::HEAD_LENGTH;
use std::collections::HashMap;

/// An arrow to be drawn.
pub struct Wish {
    pub from: Point,
    pub to: Point,
    /// Another arrow goes the other way, so that a straight one would lie on it.
    pub opposed: bool,
    /// Half of what the label takes, across and down.
    pub label: Point,
}

/// A curve from its start to the back of its head, that leaves towards `control`; the arrow's tip; and
/// the middle of its label.
pub struct Route {
    pub start: Point,
    pub control: Point,
    pub back: Point,
    pub tip: Point,
    pub label: Point,
    /// The cells that the curve lies in outside its ends, and those of its head and its label.
    line: Vec<Cell>,
    head: Vec<Cell>,
    label_cells: Vec<Cell>,
}

type Cell = (i64, i64);

/// The side of a cell.
const SIDE: i64 = 70;
/// What lies in a cell weighs so much: a subject, a label, an arrow's head, a curve.
const SUBJECT: i64 = 60;
const LABEL: i64 = 10;
const HEAD: i64 = 10;
const CURVE: i64 = 2;
/// Half of what a head takes.
const HEAD_ROOM: Point = Point { x: 70, y: 70 };

/// Points on a curve are numbered from 0 to this.
const STEPS: i64 = 256;
/// Between the outline of the receiver and the arrow's tip.
const GAP: i64 = 40;
/// How far one bend moves the curve's control.
const BEND: i64 = 240;
const MOST_BENDS: i64 = 9;
const BEND_COST: i64 = 4;
/// Where a label may be on its curve, the best place first.
const LABEL_PLACES: [i64; 9] = [128, 112, 144, 96, 160, 80, 176, 64, 192];
const LABEL_COST: i64 = 3;
/// How often all arrows are laid, each time with all others in their places.
const PASSES: usize = 3;

/// A route for each of the arrows.
pub fn routes(places: &[Point], wishes: &[Wish]) -> Vec<Route> {
    let mut page = Page::default();
    places.iter().for_each(|&place| page.add(&cells(place, HALF), SUBJECT));
    let mut routes: Vec<Option<Route>> = wishes.iter().map(|_| None).collect();
    for _ in 0..PASSES {
        for (wish, route) in wishes.iter().zip(&mut routes) {
            if let Some(old) = route.take() {
                page.lay(&old, -1);
            }
            let new = page.best(wish);
            page.lay(&new, 1);
            *route = Some(new);
        }
    }
    routes.into_iter().flatten().collect()
}

/// What lies in each cell, by weight.
#[derive(Default)]
struct Page {
    weights: HashMap<Cell, i64>,
}

impl Page {
    fn add(&mut self, cells: &[Cell], weight: i64) {
        cells.iter().for_each(|&cell| *self.weights.entry(cell).or_insert(0) += weight);
    }

    /// Lays a route, or with -1 takes it away.
    fn lay(&mut self, route: &Route, sign: i64) {
        self.add(&route.line, sign * CURVE);
        self.add(&route.head, sign * HEAD);
        self.add(&route.label_cells, sign * LABEL);
    }

    fn weight(&self, cells: &[Cell]) -> i64 {
        cells.iter().filter_map(|cell| self.weights.get(cell)).sum()
    }

    /// The route that meets least, and of several such the straightest.
    fn best(&self, wish: &Wish) -> Route {
        let bends = (0..=MOST_BENDS).flat_map(|bends| [bends, -bends]).filter(|&bends| bends != 0 || !wish.opposed);
        let costs = bends.map(|bends| {
            let (cost, route) = self.bent(wish, bends);
            (cost + BEND_COST * bends.abs(), route)
        });
        costs.min_by_key(|(cost, _)| *cost).expect("there are bends").1
    }

    /// The route with so many bends to one side, its label where it meets least, and what it meets.
    fn bent(&self, wish: &Wish, bends: i64) -> (i64, Route) {
        let curve = Curve::new(wish.from, wish.to, bends * BEND);
        let (first, last) = curve.visible();
        let ends = [rectangle(wish.from, HALF), rectangle(wish.to, HALF)];
        let seen = (first..=last).map(|step| cell(curve.at(step)));
        let line = distinct(seen.filter(|&cell| !ends.iter().any(|end| end.has(cell))));
        let places = LABEL_PLACES.iter().enumerate().map(|(rank, &place)| {
            let label = curve.at(first + (last - first) * place / STEPS);
            let cells = cells(label, wish.label);
            (self.weight(&cells) + LABEL_COST * rank as i64, label, cells)
        });
        let (cost, label, label_cells) = places.min_by_key(|place| place.0).expect("there are places");
        let tip = curve.at(last);
        let is_back = |&step: &i64| distance_squared(curve.at(step), tip) >= HEAD_LENGTH * HEAD_LENGTH;
        let back = (first..last).rev().find(is_back).unwrap_or(first);
        let (start, control, back) = (curve.at(first), curve.mixed(first, back), curve.at(back));
        let head = cells(Point { x: (back.x + tip.x) / 2, y: (back.y + tip.y) / 2 }, HEAD_ROOM);
        (cost + self.weight(&line), Route { start, control, back, tip, label, line, head, label_cells })
    }
}

impl Route {
    /// The same, further to the right and down.
    pub fn moved(self, by: Point) -> Route {
        let moved = |point: Point| Point { x: point.x + by.x, y: point.y + by.y };
        Route {
            start: moved(self.start),
            control: moved(self.control),
            back: moved(self.back),
            tip: moved(self.tip),
            label: moved(self.label),
            ..self
        }
    }

    /// Corners of the cells that it lies in.
    pub fn corners(&self) -> impl Iterator<Item = Point> + '_ {
        self.line.iter().chain(&self.label_cells).map(|&(x, y)| Point { x: x * SIDE, y: y * SIDE })
    }
}

/// A curve of the second degree between the middles of two subjects.
struct Curve {
    from: Point,
    control: Point,
    to: Point,
}

impl Curve {
    /// The control stands so far aside of the middle.
    fn new(from: Point, to: Point, aside: i64) -> Curve {
        let (dx, dy) = (to.x - from.x, to.y - from.y);
        let length = root(distance_squared(from, to)).max(1);
        let middle = Point { x: (from.x + to.x) / 2, y: (from.y + to.y) / 2 };
        let control = Point { x: middle.x - dy * aside / length, y: middle.y + dx * aside / length };
        Curve { from, control, to }
    }

    fn at(&self, step: i64) -> Point {
        self.mixed(step, step)
    }

    /// With two equal steps the point there, else the control of the part between them.
    fn mixed(&self, one: i64, other: i64) -> Point {
        let first = (STEPS - one) * (STEPS - other);
        let last = one * other;
        let middle = STEPS * STEPS - first - last;
        let mix = |a: i64, b: i64, c: i64| (first * a + middle * b + last * c) / (STEPS * STEPS);
        Point {
            x: mix(self.from.x, self.control.x, self.to.x),
            y: mix(self.from.y, self.control.y, self.to.y),
        }
    }

    /// The first step outside the giver, and the last one outside the receiver and the gap.
    fn visible(&self) -> (i64, i64) {
        let first = (0..STEPS).find(|&step| !covers(self.from, 0, self.at(step))).unwrap_or(0);
        let last = (first + 1..STEPS).rev().find(|&step| !covers(self.to, GAP, self.at(step))).unwrap_or(STEPS);
        (first, last)
    }
}

/// Whether the outline of the subject at a place, made larger by this much, has a point in it.
fn covers(place: Point, larger: i64, point: Point) -> bool {
    let half = Point { x: HALF.x + larger, y: HALF.y + larger };
    let (dx, dy) = ((point.x - place.x).abs(), (point.y - place.y).abs());
    // The outline's left and right ends are half circles.
    let beyond = (dx - (half.x - half.y)).max(0);
    beyond * beyond + dy * dy <= half.y * half.y
}

fn distance_squared(one: Point, other: Point) -> i64 {
    let (dx, dy) = (one.x - other.x, one.y - other.y);
    dx * dx + dy * dy
}

fn cell(point: Point) -> Cell {
    (point.x.div_euclid(SIDE), point.y.div_euclid(SIDE))
}

/// The cells of a rectangle: its first and its last.
struct Rectangle {
    first: Cell,
    last: Cell,
}

impl Rectangle {
    fn has(&self, (x, y): Cell) -> bool {
        self.first.0 <= x && x <= self.last.0 && self.first.1 <= y && y <= self.last.1
    }
}

/// That around a point.
fn rectangle(middle: Point, half: Point) -> Rectangle {
    Rectangle {
        first: cell(Point { x: middle.x - half.x, y: middle.y - half.y }),
        last: cell(Point { x: middle.x + half.x, y: middle.y + half.y }),
    }
}

fn cells(middle: Point, half: Point) -> Vec<Cell> {
    let Rectangle { first: (left, top), last: (right, bottom) } = rectangle(middle, half);
    (top..=bottom).flat_map(|y| (left..=right).map(move |x| (x, y))).collect()
}

fn distinct(cells: impl Iterator<Item = Cell>) -> Vec<Cell> {
    let mut cells: Vec<Cell> = cells.collect();
    cells.dedup();
    cells
}
