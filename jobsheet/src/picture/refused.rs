//! The band of the entries that are refused.

use super::canvas::{Anchor, Canvas, LARGE, MARGIN, NORMAL};
use super::shape::Rect;
use super::text::{counted, plain};
use super::Refused;
use crate::number::grouped;

/// At most this many refused entries are drawn; how many more there are is said.
pub const SHOWN: usize = 40;

/// The marks of a refused entry beside the word: a dashed outline and a cross.
const OUTLINE: &str = "fill=\"#fff\" stroke=\"#a00000\" stroke-width=\"1.6\" stroke-dasharray=\"6 4\"";
const CROSS: &str = "fill=\"none\" stroke=\"#a00000\" stroke-width=\"3\"";

const WIDTH: i64 = 134;
const HEIGHT: i64 = 26;
const STEP: i64 = 34;

/// The name of a refused entry's job, where it can be read.
pub(super) fn name(refused: &Refused) -> String {
    refused.name.map_or("no name".to_string(), |name| format!("job {}", name))
}

/// Why an entry is refused.
pub(super) fn why(refused: &Refused) -> String {
    format!("entry {} refused: {}", refused.entry, plain(&refused.why))
}

/// Draws the band below `top` and gives its end; nothing if nothing is refused.
pub(super) fn band(canvas: &mut Canvas, refused: &[Refused], top: i64) -> i64 {
    if refused.is_empty() {
        return top;
    }
    let heading = format!("{} refused", counted(refused.len(), "entry", "entries"));
    let mut y = top + LARGE + MARGIN / 2;
    canvas.text(MARGIN, y, NORMAL + 2, Anchor::Start, &heading);
    y += MARGIN / 2;
    for entry in refused.iter().take(SHOWN) {
        one(canvas, entry, y);
        y += STEP;
    }
    if refused.len() > SHOWN {
        let more = format!("and {} more refused", grouped(refused.len() - SHOWN));
        canvas.text(MARGIN, y + NORMAL, NORMAL, Anchor::Start, &more);
        y += STEP;
    }
    y
}

fn one(canvas: &mut Canvas, entry: &Refused, y: i64) {
    let at = Rect { x: MARGIN, y, w: WIDTH, h: HEIGHT };
    canvas.rect(at, OUTLINE);
    canvas.path(&format!("M{} {}l14 14m0 -14l-14 14", at.x + 8, y + 6), CROSS);
    let line = y + HEIGHT / 2 + NORMAL / 3;
    canvas.text(at.x + 30, line, NORMAL, Anchor::Start, &name(entry));
    canvas.text(at.right() + 10, line, NORMAL, Anchor::Start, &why(entry));
}
