//! What stands above a picture: its title, what it shows in words, and the legend.

use super::canvas::{Anchor, Canvas, LARGE, MARGIN, NORMAL, SMALL};
use super::fill::Growers;
use super::shape::{Rect, CLASSES, END};
use super::text::{counted, titled, width};
use super::Node;
use crate::number::grouped;
use std::collections::BTreeMap;

/// At most this many growers are in a legend; how many more there are is said.
pub(super) const GROWERS: usize = 24;

/// A legend is at least this wide before it goes to the next line.
pub(super) const WIDE: i64 = 920;

const SAMPLE: i64 = 24;
const LINE: i64 = 30;
const BESIDE: i64 = 6;
const APART: i64 = 20;
const GROUND: i64 = 5;

/// A sample and what it means.
pub(super) struct Sample {
    pub(super) class: u32,
    pub(super) fill: usize,
    pub(super) inside: String,
    pub(super) meaning: String,
}

/// Writes title and lines and gives how far down they reach.
pub(super) fn heading(canvas: &mut Canvas, title: &str, lines: &[String]) -> i64 {
    let mut y = MARGIN + LARGE;
    canvas.text(MARGIN, y, LARGE, Anchor::Start, &titled(title));
    y += MARGIN / 4;
    for line in lines {
        y += LARGE;
        canvas.text(MARGIN, y, NORMAL, Anchor::Start, line);
    }
    y + MARGIN / 2
}

/// How often each value occurs.
fn tally<F: Fn(&Node) -> u32>(nodes: &[Node], value: F) -> BTreeMap<u32, usize> {
    let mut tally = BTreeMap::new();
    for node in nodes {
        *tally.entry(value(node)).or_insert(0) += 1;
    }
    tally
}

/// The classes that occur, each with the fill that is given for it.
pub(super) fn classes<F: Fn(u32) -> usize>(nodes: &[Node], fill: F) -> Vec<Sample> {
    let sample = |(class, jobs): (u32, usize)| Sample {
        class,
        fill: fill(class),
        inside: format!("c{}", class),
        meaning: format!("class {} · {}", class, counted(jobs, "job", "jobs")),
    };
    tally(nodes, |node| node.class % CLASSES).into_iter().map(sample).collect()
}

/// A grower with a number of jobs.
fn grower(growers: &Growers, grower: u32, jobs: usize) -> Sample {
    let who = if grower == 0 { "network".to_string() } else { format!("grower {}", grower) };
    Sample {
        class: 0,
        fill: growers.fill(grower),
        inside: format!("g{}", grower),
        meaning: format!("{} · {}", who, counted(jobs, "job", "jobs")),
    }
}

/// Draws the legend of classes and growers below `y`, up to `right`, and gives its end.
pub(super) fn legend(canvas: &mut Canvas, nodes: &[Node], growers: &Growers, y: i64, right: i64) -> i64 {
    let tally = tally(nodes, |node| node.grower);
    let shown: Vec<Sample> = tally.iter().take(GROWERS).map(|(&who, &jobs)| grower(growers, who, jobs)).collect();
    let more = tally.len() - shown.len();
    let y = samples(canvas, &classes(nodes, |_| 0), 0, y, right);
    samples(canvas, &shown, more, y, right)
}

/// Draws samples in lines and columns, then how many more there are, and gives the end.
pub(super) fn samples(canvas: &mut Canvas, samples: &[Sample], more: usize, top: i64, right: i64) -> i64 {
    let inside = samples.iter().map(|sample| width(&sample.inside, SMALL)).max().unwrap_or(0) + 2 * END + 4;
    let meaning = samples.iter().map(|sample| width(&sample.meaning, SMALL)).max().unwrap_or(0);
    let cell = inside + meaning + APART;
    let columns = ((right.max(WIDE) - MARGIN) / cell).max(1);
    for (place, sample) in samples.iter().enumerate() {
        let (x, y) = (MARGIN + place as i64 % columns * cell, top + place as i64 / columns * LINE);
        one(canvas, sample, Rect { x, y, w: inside, h: SAMPLE });
    }
    let lines = (samples.len() as i64 + columns - 1) / columns;
    if more > 0 {
        let y = top + lines * LINE + SMALL;
        canvas.text(MARGIN, y, SMALL, Anchor::Start, &format!("and {} more", grouped(more)));
        return y + MARGIN / 2;
    }
    top + lines * LINE + MARGIN / 5
}

fn one(canvas: &mut Canvas, sample: &Sample, at: Rect) {
    canvas.shape(sample.class, sample.fill, at);
    let w = width(&sample.inside, SMALL);
    canvas.ground(Rect { x: at.middle() - w / 2, y: at.y + GROUND, w, h: at.h - 2 * GROUND }, sample.fill);
    let line = at.y + at.h / 2 + SMALL / 3;
    canvas.text(at.middle(), line, SMALL, Anchor::Middle, &sample.inside);
    canvas.text(at.right() + BESIDE, line, SMALL, Anchor::Start, &sample.meaning);
}
