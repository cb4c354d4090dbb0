//! What the tests are given, and the check of XML.

use crate::picture::*;

pub(super) const SEEDS: u64 = 60;

/// A small generator of numbers (xorshift), so that each test can be run again by its seed.
struct Random(u64);

impl Random {
    pub(super) fn below(&mut self, end: usize) -> usize {
        self.0 ^= self.0 << 13;
        self.0 ^= self.0 >> 7;
        self.0 ^= self.0 << 17;
        (self.0 >> 11) as usize % end.max(1)
    }
}

pub(super) fn add(nodes: &mut Vec<Node>, class: u32, grower: u32, mut needs: Vec<usize>) {
    needs.sort_unstable();
    needs.dedup();
    let depth = needs.iter().map(|&need| nodes[need].depth).max().unwrap_or(0) + 1;
    let name = 1_000_000 + nodes.len() as u32;
    nodes.push(Node { name, class, grower, depth, needs });
}

/// A sheet of up to `most` jobs, wide or deep, with few arcs or many.
pub(super) fn sheet(seed: u64, most: usize) -> Drawn {
    println!("seed {}", seed);
    let mut random = Random(seed.wrapping_mul(0x9e37_79b9_7f4a_7c15) | 1);
    let (count, first, degree) = (random.below(most + 1), 1 + random.below(40), 1 + random.below(32));
    let mut nodes = Vec::new();
    for place in 0..count {
        let wanted = if place < first { 0 } else { random.below(degree + 1) };
        let needs = (0..wanted).map(|_| place - 1 - random.below(place.min(2 * first))).collect();
        add(&mut nodes, random.below(16) as u32, random.below(40) as u32, needs);
    }
    let refused = (0..random.below(60)).map(|entry| refusal(entry, "needs a job that is not there")).collect();
    Drawn { title: format!("seed {}", seed), nodes, refused }
}

pub(super) fn refusal(entry: usize, why: &str) -> Refused {
    Refused { entry, name: Some(7), why: why.to_string() }
}

/// Says what is wrong with the XML, if anything is: tags that do not balance, a raw sign, a control character.
pub(super) fn flaw(xml: &str) -> Option<String> {
    let mut open: Vec<&str> = Vec::new();
    let mut rest = xml;
    if let Some(odd) = xml.chars().find(|&c| c.is_control() && c != '\n') {
        return Some(format!("control character {:?}", odd));
    }
    while let Some(start) = rest.find('<') {
        let (text, tag) = rest.split_at(start);
        let end = tag.find('>').unwrap_or(0);
        let (tag, after) = (&tag[1..end.max(1)], &tag[end + 1..]);
        if text.contains('>') || tag.contains('<') || !entities(text) || !entities(tag) {
            return Some(format!("raw sign near {:?}", tag));
        }
        if tag.matches('"').count() % 2 == 1 {
            return Some(format!("quotes of {:?}", tag));
        }
        if let Some(name) = tag.strip_prefix('/') {
            if open.pop() != Some(name) {
                return Some(format!("{:?} closes nothing", name));
            }
        } else if !tag.ends_with('/') {
            open.push(tag.split(' ').next().unwrap_or(""));
        }
        rest = after;
    }
    open.pop().map(|name| format!("{:?} stays open", name))
}

fn entities(text: &str) -> bool {
    let known = ["amp;", "lt;", "gt;", "quot;", "#39;"];
    text.split('&').skip(1).all(|after| known.iter().any(|name| after.starts_with(name)))
}

pub(super) fn assert_sound(svg: &str) {
    assert_eq!(flaw(svg), None);
    assert!(svg.starts_with("<svg xmlns=\"http://www.w3.org/2000/svg\" width="));
    assert!(svg.ends_with("</svg>\n") && svg.contains("<title>") && svg.contains("<desc>"));
}

#[test]
fn the_check_of_xml_finds_flaws() {
    for bad in ["<a>", "<a></b>", "<a>&</a>", "<a>></a>", "<a b=\"></a>", "<a>\u{1}</a>", "<a <b/></a>"] {
        assert!(flaw(bad).is_some(), "{}", bad);
    }
    assert_eq!(flaw("<a b=\"&lt;\">&amp;<c/></a>"), None);
}

/// Sheets as no graph gives them.
pub(super) fn hostile() -> Vec<Drawn> {
    let node = |place: u32, depth, needs| Node { name: place, class: place, grower: place, depth, needs };
    let titles = ["", "<&\"'>]]>", "\u{0}\u{8}\u{1b}[2J\u{202e}\u{feff}", "-->", "\\\"];}\n", "&#0;&lt;"];
    let nodes = vec![
        vec![],
        vec![node(u32::MAX, usize::MAX, vec![0, 1, usize::MAX]), node(u32::MAX, 0, vec![0, 0, 0])],
        (0..150).map(|place| node(place, 1, (0..150).collect())).collect(),
        (0..150).map(|place| node(place, 150 - place as usize, (0..150).collect())).collect(),
        (0..4_096).map(|place| node(place, 1, vec![])).collect(),
        (0..4_096).map(|place| node(place, place as usize * 1_000, vec![0; 8])).collect(),
    ];
    let drawn = |(title, nodes): (&str, Vec<Node>)| Drawn {
        title: title.repeat(1 + nodes.len() * 10),
        nodes,
        refused: vec![refusal(usize::MAX, title), Refused { entry: 0, name: None, why: title.repeat(1_000) }],
    };
    titles.into_iter().zip(nodes).map(drawn).collect()
}
