//! The picture of a sheet of many jobs: its layers as bars.

use super::canvas::{Anchor, Canvas, MARGIN, NORMAL, SMALL};
use super::grid::layers;
use super::heading::{classes, heading, samples};
use super::refused::band;
use super::shape::{Rect, CLASSES};
use super::sheet::summary;
use super::text::titled;
use super::{Drawn, Node};
use crate::number::grouped;

/// At most this many bars. With more layers a bar stands for several, since no fill can be seen in a thinner one.
pub(super) const BARS: usize = 64;

const LABELS: i64 = 150;
const LENGTH: i64 = 840;
const SHORTEST: i64 = 2;
const THICK: i64 = 18;
const STEP: i64 = 24;

/// What a bar means. Its parts are classes: there are few of them, so that each has a fill of its own.
const BAR: &str = "a bar is as long as its layer has jobs; its parts are the classes, which the fill tells here";

/// One bar: the first and the last depth, and the jobs of each class.
pub(super) struct Bar {
    pub(super) depths: (usize, usize),
    pub(super) classes: [usize; CLASSES as usize],
}

impl Bar {
    pub(super) fn jobs(&self) -> usize {
        self.classes.iter().sum()
    }
}

/// The bars, and how many layers each but the last stands for.
pub(super) fn cut(nodes: &[Node]) -> (Vec<Bar>, usize) {
    let layers: Vec<(usize, Vec<usize>)> = layers(nodes).into_iter().collect();
    let each = ((layers.len() + BARS - 1) / BARS).max(1);
    let bar = |layers: &[(usize, Vec<usize>)]| {
        let mut classes = [0; CLASSES as usize];
        for &place in layers.iter().flat_map(|(_, places)| places) {
            classes[(nodes[place].class % CLASSES) as usize] += 1;
        }
        Bar { depths: (layers[0].0, layers[layers.len() - 1].0), classes }
    };
    (layers.chunks(each).map(bar).collect(), each)
}

/// The sheet as bars.
pub(super) fn bars(drawn: &Drawn) -> String {
    let (bars, each) = cut(&drawn.nodes);
    let mut lines = vec![summary(drawn), BAR.to_string()];
    if each > 1 {
        lines.push(format!("each bar stands for {} layers", grouped(each)));
    }
    let mut canvas = Canvas::new();
    let y = heading(&mut canvas, &drawn.title, &lines);
    let right = MARGIN + LABELS + LENGTH;
    let y = samples(&mut canvas, &classes(&drawn.nodes, |class| class as usize), 0, y, right) + MARGIN / 2;
    let most = bars.iter().map(Bar::jobs).max().unwrap_or(1);
    for (place, bar) in bars.iter().enumerate() {
        one(&mut canvas, bar, most, y + STEP * place as i64);
    }
    band(&mut canvas, &drawn.refused, y + STEP * bars.len() as i64);
    canvas.finish(&titled(&drawn.title), &format!("Job sheet as bars: {}.", lines.join("; ")))
}

fn one(canvas: &mut Canvas, bar: &Bar, most: usize, y: i64) {
    let left = MARGIN + LABELS;
    let line = y + THICK / 2 + NORMAL / 3;
    let depths = match bar.depths {
        (first, last) if first == last => format!("depth {}", first),
        (first, last) => format!("depth {} to {}", first, last),
    };
    canvas.text(left - MARGIN / 2, line, NORMAL, Anchor::End, &depths);
    let (mut jobs, mut from) = (0, 0);
    for (class, &more) in bar.classes.iter().enumerate().filter(|&(_, &more)| more > 0) {
        jobs += more;
        let to = (jobs as i64 * LENGTH / most as i64).max(SHORTEST);
        let paint = canvas.paint(class);
        let at = Rect { x: left + from, y, w: to - from, h: THICK };
        canvas.rect(at, &format!("fill=\"{}\" stroke=\"#000\" stroke-width=\"0.8\"", paint));
        from = to;
    }
    canvas.text(left + from + MARGIN / 3, line, SMALL, Anchor::Start, &grouped(jobs));
}
