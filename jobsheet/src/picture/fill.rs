//! A box's fill, which tells its grower: colours that are apart in grey too, and drawings over them.

use super::Node;

/// The colours, each apart from the others in grey; neighbours are far apart, since neighbouring growers meet.
pub(super) const COLOURS: [&str; 6] = ["#ffffff", "#a8d196", "#fceb9c", "#b287c2", "#b9dcf7", "#ec9a72"];

/// The ink of the drawings over each colour. Black words are to be read on it too, so it is no dark one.
pub(super) const INKS: [&str; 6] = ["#a0a0a0", "#ffffff", "#a8a080", "#ffffff", "#8f9ca8", "#ffffff"];

/// The drawings over a colour: none, rising lines, dots, level lines.
const DRAWINGS: [&str; 4] = [
    "",
    "<path d=\"M-2 2L2 -2M0 8L8 0M6 10L10 6\" stroke=\"INK\" stroke-width=\"2\"/>",
    "<circle cx=\"2\" cy=\"2\" r=\"1.6\" fill=\"INK\"/><circle cx=\"6\" cy=\"6\" r=\"1.6\" fill=\"INK\"/>",
    "<path d=\"M0 4H8\" stroke=\"INK\" stroke-width=\"2\"/>",
];

/// How many fills growers have.
pub(super) const FILLS: usize = COLOURS.len() * DRAWINGS.len();

/// The growers of a sheet, rising, with the network first whether it has jobs or not.
pub(super) struct Growers {
    rising: Vec<u32>,
}

impl Growers {
    pub(super) fn of(nodes: &[Node]) -> Growers {
        let mut rising: Vec<u32> = nodes.iter().map(|node| node.grower).collect();
        rising.push(0);
        rising.sort_unstable();
        rising.dedup();
        Growers { rising }
    }

    /// The number of a grower's fill. The network's is white, and nobody else's; where the fills are used up they
    /// begin again, and the number in the box tells.
    pub(super) fn fill(&self, grower: u32) -> usize {
        match self.rising.binary_search(&grower) {
            Ok(0) | Err(_) => 0,
            Ok(place) => 1 + (place - 1) % (FILLS - 1),
        }
    }
}

/// The colour below the drawing of a fill.
pub(super) fn colour(fill: usize) -> &'static str {
    COLOURS[fill % COLOURS.len()]
}

/// Whether a fill has a drawing over its colour.
pub(super) fn drawn_over(fill: usize) -> bool {
    fill >= COLOURS.len()
}

/// What an SVG attribute `fill` says.
pub(super) fn paint(fill: usize) -> String {
    if drawn_over(fill) {
        return format!("url(#fill{})", fill);
    }
    colour(fill).to_string()
}

/// The pattern that `paint` names, if it names one.
pub(super) fn pattern(fill: usize) -> String {
    if !drawn_over(fill) {
        return String::new();
    }
    let ink = INKS[fill % INKS.len()];
    let drawing = DRAWINGS[fill / COLOURS.len() % DRAWINGS.len()];
    format!(
        "<pattern id=\"fill{}\" width=\"8\" height=\"8\" patternUnits=\"userSpaceOnUse\">\
         <rect width=\"8\" height=\"8\" fill=\"{}\"/>{}</pattern>\n",
        fill,
        colour(fill),
        drawing.replace("INK", ink)
    )
}
