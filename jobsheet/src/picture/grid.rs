//! Which row and column each job stands in: layers by depth, and few crossings.

use super::Node;
use std::collections::BTreeMap;

/// A layer with more jobs than this has more than one row.
pub(super) const COLUMNS: usize = 12;

/// How often the layers are ordered by their neighbours, downwards and upwards.
const SWEEPS: usize = 6;

/// Parts of a column, for means.
const PARTS: i64 = 1_000;

/// The places of the jobs by depth, each layer in the order of the entries.
pub(super) fn layers(nodes: &[Node]) -> BTreeMap<usize, Vec<usize>> {
    let mut layers: BTreeMap<usize, Vec<usize>> = BTreeMap::new();
    for (place, node) in nodes.iter().enumerate() {
        layers.entry(node.depth).or_default().push(place);
    }
    layers
}

/// From a prerequisite to its dependent, by their places: each once, and only those that there are.
pub(super) fn arcs(nodes: &[Node]) -> Vec<(usize, usize)> {
    let mut arcs = Vec::new();
    for (place, node) in nodes.iter().enumerate() {
        let mut needs: Vec<usize> = node.needs.iter().copied().filter(|&n| n < nodes.len() && n != place).collect();
        needs.sort_unstable();
        needs.dedup();
        arcs.extend(needs.into_iter().map(|need| (need, place)));
    }
    arcs
}

/// How many columns a layer takes if its rows are about equally long.
fn balanced(jobs: usize) -> usize {
    let rows = ((jobs + COLUMNS - 1) / COLUMNS).max(1);
    (jobs + rows - 1) / rows
}

/// The rows of one depth.
pub(super) struct Layer {
    pub(super) depth: usize,
    pub(super) places: Vec<usize>,
    pub(super) first_row: usize,
    pub(super) rows: usize,
}

/// All jobs on one grid.
pub(super) struct Grid {
    pub(super) columns: usize,
    pub(super) layers: Vec<Layer>,
    /// Row and column of each job.
    pub(super) at: Vec<(usize, usize)>,
}

impl Grid {
    pub(super) fn of(nodes: &[Node], arcs: &[(usize, usize)]) -> Grid {
        let mut grid = Grid::in_order(nodes);
        let mut before = vec![Vec::new(); nodes.len()];
        let mut after = vec![Vec::new(); nodes.len()];
        for &(from, to) in arcs {
            before[to].push(from);
            after[from].push(to);
        }
        for _ in 0..SWEEPS {
            for layer in (0..grid.layers.len()).rev() {
                grid.settle(layer, &after);
            }
            for layer in 0..grid.layers.len() {
                grid.settle(layer, &before);
            }
        }
        grid
    }

    /// Each layer in the order of the entries, its rows in the middle.
    fn in_order(nodes: &[Node]) -> Grid {
        let layers = layers(nodes);
        let columns = layers.values().map(|places| balanced(places.len())).max().unwrap_or(1);
        let mut grid = Grid { columns, layers: Vec::new(), at: vec![(0, 0); nodes.len()] };
        let mut first_row = 0;
        for (depth, places) in layers {
            let rows = (places.len() + columns - 1) / columns;
            for (row, in_row) in places.chunks(columns).enumerate() {
                let left = (columns - in_row.len()) / 2;
                for (column, &place) in in_row.iter().enumerate() {
                    grid.at[place] = (first_row + row, left + column);
                }
            }
            grid.layers.push(Layer { depth, places, first_row, rows });
            first_row += rows;
        }
        grid
    }

    /// How many rows there are.
    pub(super) fn rows(&self) -> usize {
        self.layers.last().map_or(0, |layer| layer.first_row + layer.rows)
    }

    /// Moves the jobs of a layer to the mean of their neighbours' columns. A layer without neighbours stays.
    fn settle(&mut self, layer: usize, neighbours: &[Vec<usize>]) {
        let Layer { places, first_row, rows, .. } = &self.layers[layer];
        if places.iter().all(|&place| neighbours[place].is_empty()) {
            return;
        }
        let mut wishes: Vec<(i64, usize)> =
            places.iter().map(|&place| (self.wish(place, &neighbours[place]), place)).collect();
        wishes.sort_unstable();
        let slots: Vec<i64> = wishes.iter().map(|&(wish, _)| wish * *rows as i64).collect();
        let slots = fit(&slots, (self.columns * *rows) as i64);
        for (slot, (_, place)) in slots.into_iter().zip(wishes) {
            self.at[place] = (first_row + slot % rows, slot / rows);
        }
    }

    fn wish(&self, place: usize, neighbours: &[usize]) -> i64 {
        let column = |place: usize| self.at[place].1 as i64 * PARTS;
        if neighbours.is_empty() {
            return column(place);
        }
        neighbours.iter().map(|&n| column(n)).sum::<i64>() / neighbours.len() as i64
    }
}

/// Slots below `room`, each greater than the one before, as near to the wishes as that allows. The wishes rise, and
/// there are no more than `room`. Wishes that are too near each other move apart round their mean.
pub(super) fn fit(wishes: &[i64], room: i64) -> Vec<usize> {
    let mut blocks: Vec<(i64, i64)> = Vec::new();
    for (place, wish) in wishes.iter().enumerate() {
        let mut block = (wish - place as i64 * PARTS, 1);
        while let Some(&(sum, count)) = blocks.last() {
            if sum * block.1 <= block.0 * count {
                break;
            }
            block = (block.0 + sum, block.1 + count);
            blocks.pop();
        }
        blocks.push(block);
    }
    let most = room - wishes.len() as i64;
    let mut slots = Vec::with_capacity(wishes.len());
    for (sum, count) in blocks {
        let base = (sum + count * PARTS / 2).div_euclid(count * PARTS).min(most).max(0);
        for _ in 0..count {
            slots.push(base as usize + slots.len());
        }
    }
    slots
}
