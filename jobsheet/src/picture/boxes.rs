//! The box of a job, the same in every picture.

use super::canvas::{Anchor, Canvas, NORMAL, SMALL};
use super::fill::Growers;
use super::shape::{Rect, END};
use super::text::width;
use super::{Drawn, Node};

/// The height of a box: its name, and class and grower below.
pub(super) const HEIGHT: i64 = 38;

/// The least width of a box.
const NARROWEST: i64 = 56;

/// Where the ground of the words begins and ends in a box, and how much wider than them it is.
const GROUND_DOWN: i64 = 5;
const GROUND_HIGH: i64 = 28;
const GROUND_WIDER: i64 = 4;

/// Where the lines of words stand in a box.
const NAME_DOWN: i64 = 17;
const BELOW_DOWN: i64 = 31;

/// How the boxes of a sheet look: as wide as its longest words need, the fills by its growers.
pub(super) struct Boxes {
    /// The width of each box.
    pub(super) width: i64,
    /// The growers, who have fills.
    pub(super) growers: Growers,
}

/// Class and grower in small letters, so that nothing is told by shape or colour alone.
fn below(node: &Node) -> String {
    format!("c{} g{}", node.class, node.grower)
}

/// How wide the words of a box are.
fn wide(node: &Node) -> i64 {
    width(&node.name.to_string(), NORMAL).max(width(&below(node), SMALL))
}

impl Boxes {
    pub(super) fn of(drawn: &Drawn) -> Boxes {
        let widest = drawn.nodes.iter().map(wide).max().unwrap_or(0);
        Boxes { width: (widest + 2 * END + 2 * GROUND_WIDER).max(NARROWEST), growers: Growers::of(&drawn.nodes) }
    }

    pub(super) fn draw(&self, canvas: &mut Canvas, node: &Node, x: i64, y: i64) {
        let at = Rect { x, y, w: self.width, h: HEIGHT };
        let fill = self.growers.fill(node.grower);
        canvas.shape(node.class, fill, at);
        let w = wide(node) + GROUND_WIDER;
        let ground = Rect { x: at.middle() - w / 2, y: y + GROUND_DOWN, w, h: GROUND_HIGH };
        canvas.ground(ground, fill);
        canvas.text(at.middle(), y + NAME_DOWN, NORMAL, Anchor::Middle, &node.name.to_string());
        canvas.text(at.middle(), y + BELOW_DOWN, SMALL, Anchor::Middle, &below(node));
    }
}
