//! A box's outline, which tells its class: four ends on the left, four on the right.

/// A place on the picture, in pixels.
#[derive(Clone, Copy, Debug, PartialEq, Eq)]
pub(super) struct Rect {
    pub(super) x: i64,
    pub(super) y: i64,
    pub(super) w: i64,
    pub(super) h: i64,
}

impl Rect {
    pub(super) fn right(&self) -> i64 {
        self.x + self.w
    }
    pub(super) fn bottom(&self) -> i64 {
        self.y + self.h
    }
    pub(super) fn middle(&self) -> i64 {
        self.x + self.w / 2
    }
}

/// How far an end reaches into its box.
pub(super) const END: i64 = 9;

/// How many classes there are; a greater number, which no sheet has, is drawn as its remainder.
pub(super) const CLASSES: u32 = taskgraph::CLASSES as u32;

/// The styles of an end.
const ENDS: u32 = 4;

/// One end of a box, from the corner at height `from` to the one at `to`; `inner` is where the ends begin.
fn end(style: u32, inner: i64, outer: i64, from: i64, to: i64) -> String {
    let half = (from + to) / 2;
    match style % ENDS {
        0 => format!("H{}V{}H{}", outer, to, inner),
        1 => format!("A{} {} 0 0 1 {} {}", END, (to - from).abs() / 2, inner, to),
        2 => format!("L{} {}L{} {}", outer, half, inner, to),
        _ => format!("H{}L{} {}L{} {}H{}", outer, inner, half, outer, to, inner),
    }
}

/// The outline of a box of the class, as the data of an SVG path: the left end by class / 4, the right by class % 4.
pub(super) fn outline(class: u32, at: Rect) -> String {
    let (left, right) = (at.x + END, at.right() - END);
    let right_end = end(class % ENDS, right, at.right(), at.y, at.bottom());
    let left_end = end(class / ENDS, left, at.x, at.bottom(), at.y);
    format!("M{} {}H{}{}H{}{}Z", left, at.y, right, right_end, left, left_end)
}
