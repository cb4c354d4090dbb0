//! Whole pictures.

use super::given::{assert_sound, hostile, refusal, sheet, SEEDS};
use crate::picture::bars::{cut, Bar, BARS};
use crate::picture::boxes::Boxes;
use crate::picture::day::cells;
use crate::picture::layout::Layout;
use crate::picture::sheet::NAMED;
use crate::picture::*;

#[test]
fn every_name_is_drawn_once_and_every_arc() {
    let mut arcs = 0;
    for seed in 1..=SEEDS {
        let drawn = sheet(seed, NAMED);
        let picture = svg(&drawn);
        assert_sound(&picture);
        for node in &drawn.nodes {
            assert_eq!(picture.matches(&format!(">{}</text>", node.name)).count(), 1);
        }
        let mut wanted: Vec<String> = Vec::new();
        for node in &drawn.nodes {
            wanted.extend(node.needs.iter().map(|&need| format!("{} needs {}", node.name, drawn.nodes[need].name)));
        }
        assert_eq!(picture.matches(" needs 1").count(), wanted.len());
        assert!(wanted.iter().all(|words| picture.contains(&format!("<title>{}</title>", words))));
        arcs += wanted.len();
    }
    assert!(arcs > 1_000);
}

#[test]
fn refused_entries_are_marked_and_their_number_is_bounded() {
    let refused: Vec<Refused> = (0..100_000).map(|entry| refusal(entry, "<why>")).collect();
    let mut drawn = Drawn { title: String::new(), nodes: vec![], refused };
    for picture in [svg(&drawn), day(&drawn, &vec![], 2)] {
        assert_sound(&picture);
        assert_eq!(picture.matches("refused: &lt;why&gt;").count(), 40);
        assert_eq!(picture.matches("stroke-dasharray").count(), 40);
        assert!(picture.contains("and 99,960 more refused") && picture.len() < 40_000);
    }
    assert!(dot(&drawn).contains("and 99,960 more refused") && dot(&drawn).len() < 10_000);
    drawn.refused = vec![Refused { entry: 12, name: None, why: "no name".to_string() }];
    assert!(svg(&drawn).contains("entry 12 refused: no name"));
}

/// The number that follows the words for the first time.
fn number_after(picture: &str, words: &str) -> i64 {
    let rest = &picture[picture.find(words).expect(words) + words.len()..];
    rest.chars().take_while(char::is_ascii_digit).collect::<String>().parse().expect(words)
}

#[test]
fn layers_are_within_the_picture_and_above_what_is_refused() {
    for seed in 1..=SEEDS {
        let mut drawn = sheet(seed, NAMED);
        drawn.refused = vec![refusal(0, "why")];
        let picture = svg(&drawn);
        let layout = Layout::of(&drawn.nodes, Boxes::of(&drawn).width, 0);
        let bottom = layout.bands.iter().map(|band| band.at.bottom()).max().unwrap_or(0);
        let end = number_after(&picture, "translate(0 ") + bottom;
        let heading = picture.lines().find(|line| line.ends_with("1 entry refused</text>")).expect("a heading");
        assert!(end < number_after(heading, " y=\""));
        assert!(number_after(heading, " y=\"") < number_after(&picture, " height=\""));
        assert!(layout.right() <= number_after(&picture, " width=\""));
    }
}

#[test]
fn bars_have_every_job_and_are_bounded() {
    for seed in 1..=SEEDS {
        let drawn = sheet(seed, 4_096);
        let (bars, each) = cut(&drawn.nodes);
        assert!(bars.len() <= BARS);
        assert_eq!(bars.iter().map(Bar::jobs).sum::<usize>(), drawn.nodes.len());
        for bar in &bars {
            let within = |node: &&Node| (bar.depths.0..=bar.depths.1).contains(&node.depth);
            assert_eq!(bar.jobs(), drawn.nodes.iter().filter(within).count());
            assert!(bar.depths.1 - bar.depths.0 < each);
        }
        let picture = svg(&drawn);
        assert_sound(&picture);
        assert!(drawn.nodes.len() <= NAMED || picture.len() < 250_000);
    }
}

#[test]
fn a_day_has_each_job_at_its_place_and_idle_places() {
    let mut drawn = sheet(5, 30);
    drawn.nodes.truncate(3);
    drawn.refused.clear();
    let rounds = vec![vec![(0, 2), (1, 0)], vec![(1, 1)]];
    assert_eq!(cells(&drawn, &rounds, 2), vec![vec![Some(2), Some(0)], vec![None, Some(1)]]);
    let picture = day(&drawn, &rounds, 2);
    assert_sound(&picture);
    assert!(picture.contains("3 jobs in 2 rounds by 2 workers, 1 idle place<"));
    assert!(picture.contains(">a round is one job for each worker, however many minutes it takes<"));
    assert_eq!(picture.matches("stroke-dasharray").count(), 1);
    assert_eq!(picture.matches(">idle<").count(), 1);
    for node in &drawn.nodes {
        assert_eq!(picture.matches(&format!(">{}</text>", node.name)).count(), 1);
    }
    assert!(day(&drawn, &rounds[..1].to_vec(), 2).contains("1 job of the sheet in none of the rounds"));
    let long = vec![vec![(0, 0)]; 300];
    assert_eq!(cells(&drawn, &long, 2).len(), 256);
    assert!(day(&drawn, &long, 2).contains(">44 more rounds not drawn<"));
}

#[test]
fn no_input_is_too_strange() {
    for drawn in hostile() {
        let odd = vec![vec![(0, 0), (0, usize::MAX), (u32::MAX, 0), (1, 1)]; 300];
        for picture in [svg(&drawn), day(&drawn, &odd, u32::MAX), day(&drawn, &odd, 0), day(&drawn, &vec![], 1)] {
            assert_sound(&picture);
            assert!(picture.len() < 12_000_000);
        }
        let graph = dot(&drawn);
        assert!(graph.starts_with("digraph jobsheet {\n") && graph.ends_with("}\n"));
        let quotes = graph.replace("\\\\", "").replace("\\\"", "").matches('"').count();
        assert_eq!(quotes % 2, 0);
    }
}

#[test]
fn the_same_sheet_gives_the_same_picture() {
    let (a, b) = (sheet(9, NAMED), sheet(9, NAMED));
    assert_eq!((svg(&a), dot(&a)), (svg(&b), dot(&b)));
}

#[test]
fn dot_has_every_job_and_arc() {
    let mut arcs = 0;
    for seed in 1..=SEEDS {
        let drawn = sheet(seed, 400);
        let graph = dot(&drawn);
        let needs: usize = drawn.nodes.iter().map(|node| node.needs.len()).sum();
        assert_eq!(graph.matches(" -> ").count(), needs);
        assert_eq!(graph.matches("fillcolor").count(), drawn.nodes.len());
        let deepest = drawn.nodes.iter().map(|node| node.depth).max().unwrap_or(0);
        assert_eq!(graph.matches("rank=same").count(), deepest);
        arcs += needs;
    }
    assert!(arcs > 1_000);
}
