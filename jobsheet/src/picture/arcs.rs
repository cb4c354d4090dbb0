//! Which way each arc runs: straight to the next row, or down a gutter between the columns.

use super::grid::Grid;
use std::collections::BTreeMap;

/// What a longer way weighs beside a fuller gutter.
const FAR: usize = 4;

/// What a gutter weighs less in which an arc of the same job runs already.
const SHARED: usize = 3;

/// The way of an arc.
pub(super) struct Way {
    pub(super) from: usize,
    pub(super) to: usize,
    /// The gutter and the lane in it, for an arc that passes rows.
    pub(super) lane: Option<(usize, usize)>,
}

/// The ways of all arcs.
pub(super) struct Ways {
    pub(super) ways: Vec<Way>,
    /// How many lanes each gutter has.
    pub(super) lanes: Vec<usize>,
    /// How many arcs turn above each row, and below the last.
    pub(super) turns: Vec<usize>,
}

/// Above which row a job's arcs enter a gutter first, and above which they leave it last, by the job's place. They
/// share a lane.
type Trunks = BTreeMap<usize, (usize, usize)>;

/// The gutter with the least way to the side, and of those the emptiest.
fn gutter(gutters: &[Trunks], from: usize, columns: (usize, usize)) -> usize {
    let side = |gutter: usize, column: usize| {
        let (gutter, column) = (2 * gutter, 2 * column + 1);
        gutter.max(column) - gutter.min(column)
    };
    let weight = |gutter: usize| {
        let trunks = &gutters[gutter];
        let shared = if trunks.contains_key(&from) { 0 } else { SHARED };
        FAR * (side(gutter, columns.0) + side(gutter, columns.1)) + trunks.len() + shared
    };
    (0..gutters.len()).min_by_key(|&gutter| weight(gutter)).unwrap_or(0)
}

/// A lane for each job with arcs in the gutter, and their number. Two jobs have the same one only where
/// the second's arcs enter below the place at which the first's have left.
fn lanes(trunks: &Trunks) -> (BTreeMap<usize, usize>, usize) {
    let mut sorted: Vec<(usize, usize, usize)> = trunks.iter().map(|(&from, &(lo, hi))| (lo, hi, from)).collect();
    sorted.sort_unstable();
    let mut ends: Vec<usize> = Vec::new();
    let mut lanes = BTreeMap::new();
    for (lo, hi, from) in sorted {
        let free = ends.iter().position(|&end| end < lo);
        let lane = free.unwrap_or(ends.len());
        match free {
            Some(lane) => ends[lane] = hi,
            None => ends.push(hi),
        }
        lanes.insert(from, lane);
    }
    (lanes, ends.len())
}

impl Ways {
    pub(super) fn of(grid: &Grid, arcs: &[(usize, usize)]) -> Ways {
        let mut gutters: Vec<Trunks> = vec![Trunks::new(); grid.columns + 1];
        let mut turns = vec![0; grid.rows() + 1];
        let mut chosen = Vec::with_capacity(arcs.len());
        for &(from, to) in arcs {
            let ((from_row, from_column), (to_row, to_column)) = (grid.at[from], grid.at[to]);
            turns[to_row] += 1;
            if to_row == from_row + 1 {
                chosen.push(None);
                continue;
            }
            turns[from_row + 1] += 1;
            let gutter = gutter(&gutters, from, (from_column, to_column));
            let (lo, hi) = ((from_row + 1).min(to_row), (from_row + 1).max(to_row));
            let trunk = gutters[gutter].entry(from).or_insert((lo, hi));
            *trunk = (trunk.0.min(lo), trunk.1.max(hi));
            chosen.push(Some(gutter));
        }
        let laned: Vec<(BTreeMap<usize, usize>, usize)> = gutters.iter().map(lanes).collect();
        let way = |(&(from, to), gutter): (&(usize, usize), Option<usize>)| {
            let lane = gutter.map(|gutter| (gutter, laned[gutter].0.get(&from).copied().unwrap_or(0)));
            Way { from, to, lane }
        };
        let ways = arcs.iter().zip(chosen).map(way).collect();
        Ways { ways, lanes: laned.iter().map(|lanes| lanes.1).collect(), turns }
    }
}
