//! The picture of a sheet: boxes and arrows, or bars where there are too many.

use super::bars::bars;
use super::boxes::Boxes;
use super::canvas::{Anchor, Canvas, MARGIN, NORMAL, SMALL};
use super::grid::layers;
use super::heading::{heading, legend};
use super::layout::{Arc, Band, Layout};
use super::refused::band;
use super::text::{counted, titled};
use super::Drawn;

/// Up to this many jobs each has a box with its name; above, the layers are bars.
pub(super) const NAMED: usize = 200;

/// The space for the labels of the layers, and where their lines stand.
const LABELS: i64 = 84;
const LABEL_DOWN: i64 = 24;
const LABEL_LINE: i64 = 15;

/// The head of an arrow.
const HEAD: i64 = 7;

/// What an arrow means.
pub(super) const ARROW: &str = "an arrow runs from a job to one that needs it";

/// The arcs of one job have one of these colours, all dark, which helps to follow them.
const LINES: [&str; 6] = ["#222222", "#8a1c1c", "#1c4f8a", "#1f6b2d", "#6b1f7a", "#7a5200"];

/// What is on the sheet, in words.
pub(super) fn summary(drawn: &Drawn) -> String {
    let mut growers: Vec<u32> = drawn.nodes.iter().map(|node| node.grower).filter(|&grower| grower > 0).collect();
    growers.sort_unstable();
    growers.dedup();
    format!(
        "{} in {} for {}, {}",
        counted(drawn.nodes.len(), "job", "jobs"),
        counted(layers(&drawn.nodes).len(), "layer", "layers"),
        counted(growers.len(), "grower", "growers"),
        counted(drawn.refused.len(), "refused entry", "refused entries")
    )
}

/// The sheet as SVG: up to 200 jobs in layers with names and arrows, above that the layers as bars.
pub fn svg(drawn: &Drawn) -> String {
    if drawn.nodes.len() > NAMED {
        return bars(drawn);
    }
    let boxes = Boxes::of(drawn);
    let layout = Layout::of(&drawn.nodes, boxes.width, MARGIN + LABELS);
    let summary = summary(drawn);
    let mut canvas = Canvas::new();
    let y = heading(&mut canvas, &drawn.title, &[format!("{}; {}", summary, ARROW)]);
    let y = legend(&mut canvas, &drawn.nodes, &boxes.growers, y, layout.right());
    canvas.lower(y + MARGIN / 2, |canvas| graph(canvas, drawn, &boxes, &layout));
    let y = canvas.bottom();
    band(&mut canvas, &drawn.refused, y);
    canvas.finish(&titled(&drawn.title), &format!("Job sheet: {}; {}.", summary, ARROW))
}

/// Bands, arcs above them, and boxes above those.
fn graph(canvas: &mut Canvas, drawn: &Drawn, boxes: &Boxes, layout: &Layout) {
    layout.bands.iter().for_each(|band| layer(canvas, band));
    layout.arcs.iter().for_each(|arc| arrow(canvas, drawn, arc));
    for (node, at) in drawn.nodes.iter().zip(&layout.boxes) {
        boxes.draw(canvas, node, at.x, at.y);
    }
}

fn layer(canvas: &mut Canvas, band: &Band) {
    canvas.rect(band.at, "rx=\"6\" fill=\"#efefef\"");
    let y = band.at.y + LABEL_DOWN;
    canvas.text(MARGIN, y, NORMAL, Anchor::Start, &format!("depth {}", band.depth));
    canvas.text(MARGIN, y + LABEL_LINE, SMALL, Anchor::Start, &counted(band.jobs, "job", "jobs"));
}

/// A curve down from one point to another, which stays between their heights.
fn curve((x, y): (i64, i64), (to_x, to_y): (i64, i64)) -> String {
    let half = (y + to_y) / 2;
    format!("C{} {} {} {} {} {}", x, half, to_x, half, to_x, to_y)
}

/// The line of an arc, which ends at the head of its arrow.
pub(super) fn line(arc: &Arc) -> String {
    let end = (arc.end.0, arc.end.1 - HEAD);
    let run = match arc.lane {
        None => curve(arc.start, end),
        Some((x, from, to)) => format!("{}V{}{}", curve(arc.start, (x, from)), to, curve((x, to), end)),
    };
    format!("M{} {}{}", arc.start.0, arc.start.1, run)
}

fn arrow(canvas: &mut Canvas, drawn: &Drawn, arc: &Arc) {
    let colour = LINES[arc.from % LINES.len()];
    let words = format!("{} needs {}", drawn.nodes[arc.to].name, drawn.nodes[arc.from].name);
    canvas.told_path(&line(arc), &format!("fill=\"none\" stroke=\"{}\" stroke-width=\"1.3\"", colour), &words);
    let head = format!("M{} {}l-4 -{}h8Z", arc.end.0, arc.end.1, HEAD + 1);
    canvas.path(&head, &format!("fill=\"{}\"", colour));
}
