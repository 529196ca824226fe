//! SVG elements, written one to a line.

use crate::layout::{towards, Point};
use crate::routes::Route;

/// How a line and its arrowhead look.
#[derive(Clone, Copy)]
pub struct Pen {
    pub colour: &'static str,
    pub width: i64,
    pub dashed: bool,
}

/// How an arrowhead is filled.
#[derive(Clone, Copy)]
pub enum Head {
    Filled,
    Open,
}

/// How a text looks.
#[derive(Clone, Copy)]
pub struct Letters {
    pub size: i64,
    pub colour: &'static str,
    pub bold: bool,
}

impl Letters {
    /// About how long a text is; fonts differ.
    pub fn width(&self, text: &str) -> i64 {
        self.size * text.chars().count() as i64 * 60 / 100
    }
}

pub const INK: &str = "#1f2328";
pub const FAINT: &str = "#6e7781";
pub const WHITE: &str = "#ffffff";
pub const OUTLINE: Pen = Pen { colour: INK, width: 22, dashed: false };
pub const GONE: Pen = Pen { colour: FAINT, width: 18, dashed: true };

pub const TITLE: Letters = Letters { size: 180, colour: INK, bold: true };
pub const SMALL: Letters = Letters { size: 140, colour: INK, bold: false };

pub enum Anchor {
    Start,
    Middle,
    End,
}

pub struct Svg {
    lines: Vec<String>,
}

pub const HEAD_LENGTH: i64 = 130;
const HEAD_HALF: i64 = 60;

impl Svg {
    /// A white page; both lengths are in tenths of a pixel.
    pub fn new(width: i64, height: i64, title: &str) -> Svg {
        let (across, down) = (width / 10, height / 10);
        Svg {
            lines: vec![
                format!(
                    r#"<svg xmlns="http://www.w3.org/2000/svg" width="{across}" height="{down}" viewBox="0 0 {width} {height}" font-family="Helvetica, Arial, sans-serif">"#
                ),
                format!("<title>{title}</title>"),
                format!(r##"<rect width="{width}" height="{height}" rx="80" fill="#ffffff"/>"##),
            ],
        }
    }

    pub fn finish(mut self) -> String {
        self.lines.push("</svg>\n".to_string());
        self.lines.join("\n")
    }

    pub fn line(&mut self, from: Point, to: Point, pen: Pen) {
        let (Point { x: x1, y: y1 }, Point { x: x2, y: y2 }) = (from, to);
        self.lines.push(format!(r#"<line x1="{x1}" y1="{y1}" x2="{x2}" y2="{y2}"{}/>"#, stroke(pen)));
    }

    pub fn arrow(&mut self, from: Point, to: Point, pen: Pen) {
        let back = towards(to, from, HEAD_LENGTH);
        self.line(from, back, pen);
        self.head(back, to, Head::Filled, pen);
    }

    pub fn curved_arrow(&mut self, route: &Route, head: Head, pen: Pen) {
        let Route { start, control, back, .. } = route;
        let path = format!("M{},{} Q{},{} {},{}", start.x, start.y, control.x, control.y, back.x, back.y);
        self.lines.push(format!(r#"<path d="{path}" fill="none"{}/>"#, stroke(pen)));
        self.head(route.back, route.tip, head, pen);
    }

    /// The arrowhead, whose two corners at the back are a quarter turn from its direction.
    fn head(&mut self, back: Point, to: Point, head: Head, pen: Pen) {
        let (dx, dy) = (to.x - back.x, to.y - back.y);
        let side = |half: i64| Point { x: back.x - dy * half / HEAD_LENGTH, y: back.y + dx * half / HEAD_LENGTH };
        let (left, right) = (side(HEAD_HALF), side(-HEAD_HALF));
        let paint = match head {
            Head::Filled => format!(r#" fill="{}""#, pen.colour),
            Head::Open => format!(r#" fill="{WHITE}"{}"#, stroke(Pen { dashed: false, ..pen })),
        };
        self.lines.push(format!(
            r#"<polygon points="{},{} {},{} {},{}"{paint}/>"#,
            to.x, to.y, left.x, left.y, right.x, right.y
        ));
    }

    /// An outline whose left and right ends are half circles.
    pub fn outline(&mut self, middle: Point, half: Point, fill: &str, pen: Pen) {
        let (x, y, width, height) = (middle.x - half.x, middle.y - half.y, 2 * half.x, 2 * half.y);
        let rounded = half.y;
        self.lines.push(format!(
            r#"<rect x="{x}" y="{y}" width="{width}" height="{height}" rx="{rounded}" fill="{fill}"{}/>"#,
            stroke(pen)
        ));
    }

    /// White under a label.
    pub fn blank(&mut self, middle: Point, half: Point) {
        let (x, y, width, height) = (middle.x - half.x, middle.y - half.y, 2 * half.x, 2 * half.y);
        self.lines.push(format!(r#"<rect x="{x}" y="{y}" width="{width}" height="{height}" fill="{WHITE}"/>"#));
    }

    pub fn circle(&mut self, at: Point, radius: i64, fill: &str, pen: Pen) {
        let Point { x, y } = at;
        self.lines.push(format!(r#"<circle cx="{x}" cy="{y}" r="{radius}" fill="{fill}"{}/>"#, stroke(pen)));
    }

    /// A line of text, its middle at the height of the point.
    pub fn text(&mut self, at: Point, anchor: Anchor, letters: Letters, text: &str) {
        let anchor = match anchor {
            Anchor::Start => "start",
            Anchor::Middle => "middle",
            Anchor::End => "end",
        };
        let Letters { size, colour, bold } = letters;
        let weight = if bold { r#" font-weight="bold""# } else { "" };
        self.lines.push(format!(
            r#"<text x="{}" y="{}" text-anchor="{anchor}" font-size="{size}"{weight} fill="{colour}">{text}</text>"#,
            at.x,
            at.y + size * 35 / 100
        ));
    }
}

fn stroke(pen: Pen) -> String {
    let dashes = if pen.dashed { r#" stroke-dasharray="70 50""# } else { "" };
    format!(r#" stroke="{}" stroke-width="{}"{dashes}"#, pen.colour, pen.width)
}
