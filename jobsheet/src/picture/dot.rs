//! The sheet for Graphviz.

use super::fill::{colour, Growers};
use super::grid::{arcs, layers};
use super::refused::{name, why, SHOWN};
use super::sheet::{summary, ARROW};
use super::text::titled;
use super::{Drawn, Node};
use crate::number::grouped;
use std::fmt::Write;

/// The shape of each class.
pub(super) const SHAPES: [&str; 16] = [
    "box",
    "ellipse",
    "hexagon",
    "octagon",
    "house",
    "invhouse",
    "trapezium",
    "invtrapezium",
    "parallelogram",
    "pentagon",
    "cds",
    "tab",
    "folder",
    "component",
    "note",
    "cylinder",
];

/// Words within quotes. A backslash or an ampersand would begin something of Graphviz's own.
pub(super) fn quoted(words: &str) -> String {
    words.replace('\\', "\\\\").replace('"', "\\\"").replace('&', "&amp;")
}

/// The sheet for Graphviz: a rank for each depth, shapes by class, colours by grower.
pub fn dot(drawn: &Drawn) -> String {
    let layers = layers(&drawn.nodes);
    let growers = Growers::of(&drawn.nodes);
    let mut out = String::from("digraph jobsheet {\n");
    let words = format!("{}; {}; c is the class, g the grower", summary(drawn), ARROW);
    put(&mut out, format_args!("  label=\"{}\\n{}\";\n", quoted(&titled(&drawn.title)), words));
    out.push_str("  labelloc=t;\n  fontname=\"DejaVu Sans\";\n");
    out.push_str("  node [style=filled, fontname=\"DejaVu Sans\"];\n");
    for places in layers.values() {
        out.push_str("  {\n    rank=same;\n");
        places.iter().for_each(|&place| node(&mut out, place, &drawn.nodes[place], &growers));
        out.push_str("  }\n");
    }
    for (from, to) in arcs(&drawn.nodes) {
        put(&mut out, format_args!("  n{} -> n{};\n", from, to));
    }
    refused(&mut out, drawn);
    out.push_str("}\n");
    out
}

fn put(out: &mut String, words: std::fmt::Arguments) {
    // A String takes everything that is written to it.
    let _ = out.write_fmt(words);
}

fn node(out: &mut String, place: usize, node: &Node, growers: &Growers) {
    let shape = SHAPES[node.class as usize % SHAPES.len()];
    let fill = colour(growers.fill(node.grower));
    let label = format!("{}\\nc{} g{}", node.name, node.class, node.grower);
    put(out, format_args!("    n{} [label=\"{}\", shape={}, fillcolor=\"{}\"];\n", place, label, shape, fill));
}

fn refused(out: &mut String, drawn: &Drawn) {
    if drawn.refused.is_empty() {
        return;
    }
    out.push_str("  subgraph cluster_refused {\n    label=\"refused\";\n    style=dashed;\n");
    out.push_str("    node [shape=box, style=dashed, color=\"#a00000\"];\n");
    for (place, entry) in drawn.refused.iter().take(SHOWN).enumerate() {
        let label = format!("✗ {}\\n{}", name(entry), quoted(&why(entry)));
        put(out, format_args!("    r{} [label=\"{}\"];\n", place, label));
    }
    if drawn.refused.len() > SHOWN {
        let more = grouped(drawn.refused.len() - SHOWN);
        put(out, format_args!("    more [label=\"✗ and {} more refused\"];\n", more));
    }
    out.push_str("  }\n");
}
