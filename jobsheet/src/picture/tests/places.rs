//! Where things stand.

use super::given::{add, sheet, SEEDS};
use crate::picture::arcs::Ways;
use crate::picture::boxes::Boxes;
use crate::picture::grid::{arcs, fit, Grid};
use crate::picture::layout::{Arc, Layout};
use crate::picture::shape::{Rect, END};
use crate::picture::sheet::NAMED;
use crate::picture::*;

fn laid_out(drawn: &Drawn) -> Layout {
    Layout::of(&drawn.nodes, Boxes::of(drawn).width, 100)
}

fn overlap(a: &Rect, b: &Rect) -> bool {
    a.x < b.right() && b.x < a.right() && a.y < b.bottom() && b.y < a.bottom()
}

/// Points of an arc as it is drawn: the same curves that the path has.
fn points(arc: &Arc) -> Vec<(f64, f64)> {
    let mut corners = vec![arc.start];
    if let Some((x, from, to)) = arc.lane {
        corners.extend([(x, from), (x, to)]);
    }
    corners.push(arc.end);
    let mut points = Vec::new();
    for pair in corners.windows(2) {
        let [(x, y), (to_x, to_y)] = [pair[0], pair[1]].map(|(x, y)| (x as f64, y as f64));
        let half = (y + to_y) / 2.0;
        for part in 0..=24 {
            let (t, u) = (part as f64 / 24.0, 1.0 - part as f64 / 24.0);
            let (a, b, c, d) = (u * u * u, 3.0 * u * u * t, 3.0 * u * t * t, t * t * t);
            points.push(((a + b) * x + (c + d) * to_x, a * y + (b + c) * half + d * to_y));
        }
    }
    points
}

fn inside(at: &Rect, (x, y): (f64, f64)) -> bool {
    at.x as f64 + 0.5 < x && x < at.right() as f64 - 0.5 && at.y as f64 + 0.5 < y && y < at.bottom() as f64 - 0.5
}

#[test]
fn no_two_boxes_overlap_and_each_is_in_the_band_of_its_depth() {
    for seed in 1..=SEEDS {
        let drawn = sheet(seed, NAMED);
        let layout = laid_out(&drawn);
        for (place, at) in layout.boxes.iter().enumerate() {
            assert!(layout.boxes[..place].iter().all(|other| !overlap(at, other)));
            let around: Vec<_> = layout.bands.iter().filter(|band| overlap(at, &band.at)).collect();
            assert_eq!(around.len(), 1);
            assert_eq!(around[0].depth, drawn.nodes[place].depth);
            assert!(around[0].at.y <= at.y && at.bottom() <= around[0].at.bottom());
            assert!(around[0].at.x <= at.x && at.right() <= around[0].at.right());
        }
    }
}

#[test]
fn no_arc_passes_behind_a_box() {
    for seed in 1..=SEEDS {
        let layout = laid_out(&sheet(seed, NAMED));
        for arc in &layout.arcs {
            let (from, to) = (layout.boxes[arc.from], layout.boxes[arc.to]);
            assert_eq!(arc.start, (from.middle(), from.bottom()));
            assert!(arc.end.1 == to.y && to.x + END <= arc.end.0 && arc.end.0 <= to.right() - END);
            for point in points(arc) {
                assert!(layout.boxes.iter().all(|at| !inside(at, point)), "{} to {}", arc.from, arc.to);
            }
        }
    }
}

/// How many pairs of lanes there are; a whole row lies between two in one place, else one would seem to go on as the
/// other.
fn lanes_apart(layout: &Layout) -> usize {
    let lanes: Vec<_> = layout.arcs.iter().filter_map(|arc| arc.lane.map(|lane| (arc.from, lane))).collect();
    let row_between = |from: i64, to: i64| layout.boxes.iter().any(|at| from <= at.y && at.bottom() <= to);
    for (place, &(from, (x, top, bottom))) in lanes.iter().enumerate() {
        for &(other, (_, other_top, other_bottom)) in lanes[..place].iter().filter(|lane| lane.1 .0 == x) {
            let apart = row_between(bottom, other_top) || row_between(other_bottom, top);
            assert!(from == other || apart, "{} and {}", from, other);
        }
    }
    lanes.len() * lanes.len().saturating_sub(1) / 2
}

#[test]
fn arcs_of_different_jobs_share_no_lane_at_the_same_height() {
    let pairs: usize = (1..=SEEDS).map(|seed| lanes_apart(&laid_out(&sheet(seed, 60)))).sum();
    assert!(pairs > 1_000);
    let mut chain = Vec::new();
    for place in 0..40usize {
        let needs = [1, 3].iter().filter_map(|&back| place.checked_sub(back)).collect();
        add(&mut chain, 0, 0, needs);
    }
    assert!(lanes_apart(&Layout::of(&chain, 60, 0)) > 100);
}

#[test]
fn arcs_are_those_between_jobs_that_there_are_each_once() {
    let node = |needs| Node { name: 1, class: 0, grower: 0, depth: 1, needs };
    assert_eq!(arcs(&[node(vec![]), node(vec![0, 0, 1, 2]), node(vec![1, 0, 1])]), [(0, 1), (2, 1), (0, 2), (1, 2)]);
}

#[test]
fn an_arc_to_the_next_row_takes_no_gutter() {
    let mut nodes = Vec::new();
    add(&mut nodes, 0, 0, vec![]);
    add(&mut nodes, 0, 0, vec![0]);
    add(&mut nodes, 0, 0, vec![0, 1]);
    let arcs = arcs(&nodes);
    let ways = Ways::of(&Grid::of(&nodes, &arcs), &arcs);
    let lanes: Vec<bool> = ways.ways.iter().map(|way| way.lane.is_some()).collect();
    assert_eq!(arcs, vec![(0, 1), (0, 2), (1, 2)]);
    assert_eq!(lanes, vec![false, true, false]);
}

#[test]
fn slots_are_near_the_wishes_and_rise() {
    assert_eq!(fit(&[0, 4_000, 9_000], 10), vec![0, 4, 9]);
    assert_eq!(fit(&[5_000, 5_000, 5_000], 10), vec![4, 5, 6]);
    assert_eq!(fit(&[9_000, 9_000, 9_000], 10), vec![7, 8, 9]);
    assert_eq!(fit(&[0, 0, 0], 3), vec![0, 1, 2]);
    assert_eq!(fit(&[], 0), Vec::<usize>::new());
}
