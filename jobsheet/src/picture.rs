//! What is drawn of a sheet and of its day.

mod arcs;
mod bars;
mod boxes;
mod canvas;
mod day;
mod dot;
mod fill;
mod grid;
mod heading;
mod layout;
mod refused;
mod shape;
mod sheet;
mod text;

#[cfg(test)]
mod tests;

pub use day::day;
pub use dot::dot;
pub use refused::SHOWN as REFUSED;
pub use sheet::svg;

/// A job that the graph accepts, as it is drawn.
#[derive(Clone, Debug, PartialEq, Eq)]
pub struct Node {
    /// Its name.
    pub name: u32,
    /// Its class, 0 to 15.
    pub class: u32,
    /// Its grower, 0 to 65,535; 0 is the network.
    pub grower: u32,
    /// 1 more than the greatest depth among its prerequisites, or 1 with none.
    pub depth: usize,
    /// The places of its prerequisites among the nodes; each is smaller than its own.
    pub needs: Vec<usize>,
}

/// An entry that is refused, as it is drawn.
#[derive(Clone, Debug, PartialEq, Eq)]
pub struct Refused {
    /// Its number in the sheet, from 0.
    pub entry: usize,
    /// The name of its job, where that can be read.
    pub name: Option<u32>,
    /// Why, in a few words: `needs job 12, which no earlier entry adds`.
    pub why: String,
}

/// What is drawn.
#[derive(Clone, Debug, PartialEq, Eq)]
pub struct Drawn {
    /// The heading: a stranger's file name perhaps, so it is escaped.
    pub title: String,
    /// The accepted jobs, in the order of their entries.
    pub nodes: Vec<Node>,
    /// The entries that are refused, in order.
    pub refused: Vec<Refused>,
}

/// A day of rounds: in each round, which worker works on which of the nodes, workers rising.
pub type Rounds = Vec<Vec<(u32, usize)>>;
