//! Where everything of a drawn sheet stands, in pixels. Nothing is written here.

use super::arcs::{Way, Ways};
use super::boxes::HEIGHT;
use super::grid::{arcs, Grid, Layer};
use super::shape::{Rect, END};
use super::Node;

/// The least widths of a gutter, between columns and outside them.
const GUTTER: i64 = 14;
const OUTSIDE: i64 = 6;

/// Free space in a gutter beside its lanes.
const BESIDE: i64 = 6;

/// From lane to lane, and in a gutter of more lanes than `MANY`; more than `MOST` lanes lie on each other.
const LANE: i64 = 5;
const NARROW_LANE: i64 = 3;
const MANY: usize = 12;
const MOST: usize = 40;

/// The height between two rows: with no arc, with some, what each adds, and how many may add.
const ROWS_APART: i64 = 22;
const ARCS_APART: i64 = 34;
const ARC_ADDS: i64 = 2;
const ADDING: usize = 40;

/// How far a layer's band reaches beyond its boxes.
const BAND: i64 = 7;

/// The greatest distance between the heads of two arrows.
const HEADS: i64 = 9;

/// An arc as it is drawn: down from `start`, along the lane (x, and from which y to which), down to `end`.
pub(super) struct Arc {
    pub(super) from: usize,
    pub(super) to: usize,
    pub(super) start: (i64, i64),
    pub(super) lane: Option<(i64, i64, i64)>,
    pub(super) end: (i64, i64),
}

/// A layer's band.
pub(super) struct Band {
    pub(super) depth: usize,
    pub(super) jobs: usize,
    pub(super) at: Rect,
}

/// A sheet with its places.
pub(super) struct Layout {
    pub(super) boxes: Vec<Rect>,
    pub(super) arcs: Vec<Arc>,
    pub(super) bands: Vec<Band>,
}

/// The left edges of the columns, and of the gutters' lanes, and the right end.
struct Across {
    columns: Vec<i64>,
    gutters: Vec<(i64, i64)>,
    right: i64,
}

impl Across {
    fn of(lanes: &[usize], left: i64, box_width: i64) -> Across {
        let mut across = Across { columns: Vec::new(), gutters: Vec::new(), right: left };
        for (gutter, &count) in lanes.iter().enumerate() {
            let least = if gutter == 0 || gutter + 1 == lanes.len() { OUTSIDE } else { GUTTER };
            let step = if count > MANY { NARROW_LANE } else { LANE };
            let taken = step * (count.min(MOST) as i64 - 1).max(0);
            let wide = if count == 0 { least } else { (taken + 2 * BESIDE).max(least) };
            if gutter > 0 {
                across.columns.push(across.right);
                across.right += box_width;
            }
            across.gutters.push((across.right + (wide - taken) / 2, step));
            across.right += wide;
        }
        across
    }

    fn lane(&self, (gutter, lane): (usize, usize)) -> i64 {
        let (left, step) = self.gutters[gutter];
        left + step * (lane % MOST) as i64
    }
}

/// The space above each row and below the last, where arcs turn: from which y to which.
fn between(turns: &[usize]) -> Vec<(i64, i64)> {
    let mut spaces = Vec::with_capacity(turns.len());
    let mut y = 0;
    for (row, &turning) in turns.iter().enumerate() {
        let high = match turning {
            0 if row == 0 => BAND,
            0 => ROWS_APART,
            _ => ARCS_APART + ARC_ADDS * turning.min(ADDING) as i64,
        };
        spaces.push((y, y + high));
        y += high + HEIGHT;
    }
    spaces
}

/// Sets the ends of the arcs to one job side by side, in the order in which the arcs come from the left.
fn spread(arcs: &mut [Arc], box_width: i64) {
    let aside = |arc: &Arc| arc.lane.map_or(arc.start.0, |lane| lane.0);
    arcs.sort_by_key(|arc| (arc.to, aside(arc), arc.from));
    let mut first = 0;
    while first < arcs.len() {
        let to = arcs[first].to;
        let count = arcs[first..].iter().take_while(|arc| arc.to == to).count();
        let gaps = count as i64 - 1;
        let step = HEADS.min((box_width - 3 * END) / gaps.max(1));
        for (place, arc) in arcs[first..first + count].iter_mut().enumerate() {
            arc.end.0 += step * place as i64 - step * gaps / 2;
        }
        first += count;
    }
}

impl Layout {
    /// Lays out the nodes, from `left` on and from 0 down.
    pub(super) fn of(nodes: &[Node], box_width: i64, left: i64) -> Layout {
        let arcs = arcs(nodes);
        let grid = Grid::of(nodes, &arcs);
        let ways = Ways::of(&grid, &arcs);
        let across = Across::of(&ways.lanes, left, box_width);
        let spaces = between(&ways.turns);
        let place = |&(row, column): &(usize, usize)| Rect {
            x: across.columns[column],
            y: spaces[row].1,
            w: box_width,
            h: HEIGHT,
        };
        let boxes: Vec<Rect> = grid.at.iter().map(place).collect();
        let run = |way: &Way| {
            let (out, into) = (spaces[grid.at[way.from].0 + 1], spaces[grid.at[way.to].0]);
            let start = (boxes[way.from].middle(), out.0);
            let lane = way.lane.map(|lane| (across.lane(lane), out.1, into.0));
            Arc { from: way.from, to: way.to, start, lane, end: (boxes[way.to].middle(), into.1) }
        };
        let mut arcs: Vec<Arc> = ways.ways.iter().map(run).collect();
        spread(&mut arcs, box_width);
        let band = |layer: &Layer| {
            let (first, last) = (spaces[layer.first_row].1, spaces[layer.first_row + layer.rows].0);
            let at = Rect { x: left, y: first - BAND, w: across.right - left, h: last - first + 2 * BAND };
            Band { depth: layer.depth, jobs: layer.places.len(), at }
        };
        Layout { boxes, arcs, bands: grid.layers.iter().map(band).collect() }
    }

    /// How far the layers reach to the right.
    pub(super) fn right(&self) -> i64 {
        self.bands.iter().map(|band| band.at.right()).max().unwrap_or(0)
    }
}
