//! The SVG text: what is drawn so far, and how large it has become.

use super::fill::{colour, drawn_over, paint, pattern, FILLS};
use super::shape::{outline, Rect};
use super::text::{escaped, width};
use std::fmt::Write;

/// Free space round the picture.
pub(super) const MARGIN: i64 = 20;

/// Sizes of words in pixels: the heading, names, and what stands small.
pub(super) const LARGE: i64 = 20;
pub(super) const NORMAL: i64 = 13;
pub(super) const SMALL: i64 = 11;

/// Which point of the words is given.
#[derive(Clone, Copy, PartialEq, Eq)]
pub(super) enum Anchor {
    Start,
    Middle,
    End,
}

/// A picture in the making. It grows with what is drawn.
pub(super) struct Canvas {
    body: String,
    right: i64,
    bottom: i64,
    lowered: i64,
    fills: [bool; FILLS],
}

impl Canvas {
    pub(super) fn new() -> Canvas {
        Canvas { body: String::new(), right: 0, bottom: 0, lowered: 0, fills: [false; FILLS] }
    }

    fn grow(&mut self, right: i64, bottom: i64) {
        self.right = self.right.max(right);
        self.bottom = self.bottom.max(bottom + self.lowered);
    }

    /// How far down anything has been drawn.
    pub(super) fn bottom(&self) -> i64 {
        self.bottom
    }

    /// Draws all that `draw` draws, lower by so much.
    pub(super) fn lower<F: FnOnce(&mut Canvas)>(&mut self, by: i64, draw: F) {
        self.put(format_args!("<g transform=\"translate(0 {})\">\n", by));
        self.lowered += by;
        draw(self);
        self.lowered -= by;
        self.body.push_str("</g>\n");
    }

    fn put(&mut self, words: std::fmt::Arguments) {
        // A String takes everything that is written to it.
        let _ = self.body.write_fmt(words);
    }

    /// Words, which are escaped here and nowhere else.
    pub(super) fn text(&mut self, x: i64, y: i64, size: i64, anchor: Anchor, words: &str) {
        let (where_to, beyond) = match anchor {
            Anchor::Start => ("", width(words, size)),
            Anchor::Middle => (" text-anchor=\"middle\"", width(words, size) / 2),
            Anchor::End => (" text-anchor=\"end\"", 0),
        };
        self.grow(x + beyond, y + size / 2);
        let words = escaped(words);
        self.put(format_args!("<text x=\"{}\" y=\"{}\" font-size=\"{}\"{}>{}</text>\n", x, y, size, where_to, words));
    }

    /// A rectangle with the attributes.
    pub(super) fn rect(&mut self, at: Rect, attributes: &str) {
        self.grow(at.right(), at.bottom());
        let Rect { x, y, w, h } = at;
        self.put(format_args!("<rect x=\"{}\" y=\"{}\" width=\"{}\" height=\"{}\" {}/>\n", x, y, w, h, attributes));
    }

    /// A path with the attributes. It lies within what is drawn otherwise.
    pub(super) fn path(&mut self, data: &str, attributes: &str) {
        self.put(format_args!("<path d=\"{}\" {}/>\n", data, attributes));
    }

    /// A path of which a browser tells the words where the pointer rests.
    pub(super) fn told_path(&mut self, data: &str, attributes: &str, words: &str) {
        let words = escaped(words);
        self.put(format_args!("<path d=\"{}\" {}><title>{}</title></path>\n", data, attributes, words));
    }

    /// A box: its class by the outline, its grower by the fill.
    pub(super) fn shape(&mut self, class: u32, fill: usize, at: Rect) {
        self.grow(at.right(), at.bottom());
        let paint = self.paint(fill);
        self.path(&outline(class, at), &format!("fill=\"{}\" stroke=\"#000\" stroke-width=\"1.4\"", paint));
    }

    /// A plain ground for words on a fill with a drawing.
    pub(super) fn ground(&mut self, at: Rect, fill: usize) {
        if drawn_over(fill) {
            self.rect(at, &format!("rx=\"5\" fill=\"{}\"", colour(fill)));
        }
    }

    /// What the attribute `fill` says, with its pattern kept in the picture.
    pub(super) fn paint(&mut self, fill: usize) -> String {
        let fill = fill % FILLS;
        self.fills[fill] = true;
        paint(fill)
    }

    /// The whole picture.
    pub(super) fn finish(self, title: &str, description: &str) -> String {
        let (w, h) = (self.right + MARGIN, self.bottom + MARGIN);
        let patterns: String = (0..FILLS).filter(|&fill| self.fills[fill]).map(pattern).collect();
        format!(
            "<svg xmlns=\"http://www.w3.org/2000/svg\" width=\"{w}\" height=\"{h}\" viewBox=\"0 0 {w} {h}\" \
             role=\"img\" font-family=\"DejaVu Sans, Verdana, sans-serif\">\n\
             <title>{}</title>\n<desc>{}</desc>\n<defs>\n{}</defs>\n\
             <rect width=\"{w}\" height=\"{h}\" fill=\"#fff\"/>\n{}</svg>\n",
            escaped(title),
            escaped(description),
            patterns,
            self.body,
            w = w,
            h = h
        )
    }
}
