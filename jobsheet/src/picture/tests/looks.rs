//! Outlines, fills and words.

use super::given::{sheet, SEEDS};
use crate::number::grouped;
use crate::picture::dot::{quoted, SHAPES};
use crate::picture::fill::{drawn_over, paint, Growers, COLOURS, FILLS, INKS};
use crate::picture::shape::{outline, Rect, CLASSES};
use crate::picture::sheet::NAMED;
use crate::picture::text::{escaped, plain, titled, LONGEST};
use crate::picture::*;

/// How far the greys of two colours are apart, of 255.
const GREYS_APART: f64 = 15.0;

/// The contrast that black words have on every colour (WCAG 2, level AAA).
const CONTRAST: f64 = 7.0;

#[test]
fn greys_are_apart_and_black_words_are_read_on_them() {
    let linear = |part: f64| if part <= 0.04045 { part / 12.92 } else { ((part + 0.055) / 1.055).powf(2.4) };
    let parts = |colour: &str| {
        let part = |at: usize| f64::from(u8::from_str_radix(&colour[at..at + 2], 16).unwrap()) / 255.0;
        [part(1), part(3), part(5)]
    };
    let luminance = |colour: &str| {
        let [r, g, b] = parts(colour).map(linear);
        0.2126 * r + 0.7152 * g + 0.0722 * b
    };
    let luma = |colour: &str| {
        let [r, g, b] = parts(colour);
        255.0 * (0.299 * r + 0.587 * g + 0.114 * b)
    };
    let grey = |colour: &str| 255.0 * (1.055 * luminance(colour).powf(1.0 / 2.4) - 0.055);
    for (place, colour) in COLOURS.iter().enumerate() {
        assert!((luminance(colour) + 0.05) / 0.05 >= CONTRAST, "{}", colour);
        assert!((luminance(INKS[place]) + 0.05) / 0.05 >= CONTRAST, "{}", INKS[place]);
        assert!((grey(colour) - grey(INKS[place])).abs() >= 2.0 * GREYS_APART, "{} on {}", INKS[place], colour);
        for other in &COLOURS[..place] {
            assert!((grey(colour) - grey(other)).abs() >= GREYS_APART, "{} {}", colour, other);
            assert!((luma(colour) - luma(other)).abs() >= GREYS_APART, "{} {}", colour, other);
        }
    }
}

#[test]
fn classes_have_outlines_and_shapes_of_their_own() {
    let at = Rect { x: 10, y: 20, w: 80, h: 38 };
    let distinct = |mut all: Vec<String>| {
        all.sort();
        all.dedup();
        all.len()
    };
    assert_eq!(distinct((0..CLASSES).map(|class| outline(class, at)).collect()), CLASSES as usize);
    assert_eq!(distinct(SHAPES.iter().map(|shape| shape.to_string()).collect()), CLASSES as usize);
}

#[test]
fn growers_have_fills_of_their_own_and_only_the_network_is_white() {
    let node = |grower| Node { name: 1, class: 0, grower, depth: 1, needs: vec![] };
    let growers = Growers::of(&(1..100).map(|place| node(place * 650)).collect::<Vec<_>>());
    let mut fills: Vec<String> = (0..FILLS as u32).map(|place| paint(growers.fill(place * 650))).collect();
    fills.sort();
    fills.dedup();
    assert_eq!(fills.len(), FILLS);
    assert_eq!(paint(growers.fill(0)), "#ffffff");
    assert!((1..100).all(|place| (1..FILLS).contains(&growers.fill(place * 650))));
}

#[test]
fn patterns_that_are_named_are_in_the_picture() {
    for seed in 1..=SEEDS {
        let picture = svg(&sheet(seed, NAMED));
        for fill in (0..FILLS).filter(|&fill| drawn_over(fill)) {
            let named = picture.contains(&format!("\"{}\"", paint(fill)));
            assert_eq!(named, picture.contains(&format!("<pattern id=\"fill{}\"", fill)));
        }
    }
}

#[test]
fn words_are_escaped_cut_and_without_control_characters() {
    assert_eq!(escaped("<&>\"'"), "&lt;&amp;&gt;&quot;&#39;");
    assert_eq!(plain("a\u{0}\u{7f}\u{202e}b\n\t c\u{ffff}"), "ab c");
    assert_eq!(plain(&"é".repeat(1_000)).chars().count(), LONGEST + 1);
    assert_eq!(plain(&"é".repeat(LONGEST)).chars().count(), LONGEST);
    assert_eq!([titled("\u{0} \u{200b}"), titled("a")], ["job sheet", "a"]);
    assert_eq!(quoted("a\\\"&lt;"), "a\\\\\\\"&amp;lt;");
    assert_eq!([1, 999, 1_000, 1_234_567].map(grouped), ["1", "999", "1,000", "1,234,567"]);
}
