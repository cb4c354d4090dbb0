//! The picture of a day: who works on what in each round.

use super::boxes::{Boxes, HEIGHT};
use super::canvas::{Anchor, Canvas, MARGIN, NORMAL, SMALL};
use super::heading::{heading, legend};
use super::refused::band;
use super::shape::Rect;
use super::text::{counted, titled};
use super::{Drawn, Rounds};

/// At most this many rounds and workers are drawn.
pub(super) const ROUNDS: usize = 256;
pub(super) const WORKERS: usize = 16;

/// A line of rounds is about as wide as a sheet of paper, and the next ones stand below it.
const PAPER: i64 = 1_200;

/// Lines of rounds begin at multiples of this.
const STEP: usize = 5;

/// The space for the workers' numbers, and between two boxes.
const LABELS: i64 = 84;
const APART: i64 = 8;

/// What a round is.
const ROUND: &str = "a round is one job for each worker, however many minutes it takes";

/// How an idle place looks.
const IDLE: &str = "fill=\"#fff\" stroke=\"#6a6a6a\" stroke-dasharray=\"2 3\"";

/// Which job each worker has in each round that is drawn. What names no worker and no job is left out.
pub(super) fn cells(drawn: &Drawn, rounds: &Rounds, workers: usize) -> Vec<Vec<Option<usize>>> {
    let lane = |round: &Vec<(u32, usize)>| {
        let mut cells = vec![None; workers];
        for &(worker, place) in round.iter().filter(|&&(_, place)| place < drawn.nodes.len()) {
            if let Some(cell) = cells.get_mut(worker as usize) {
                *cell = Some(place);
            }
        }
        cells
    };
    rounds.iter().take(ROUNDS).map(lane).collect()
}

/// The day as SVG: rounds from left to right in lines, a lane for each worker.
pub fn day(drawn: &Drawn, rounds: &Rounds, workers: u32) -> String {
    let workers = (workers as usize).min(WORKERS);
    let cells = cells(drawn, rounds, workers);
    let boxes = Boxes::of(drawn);
    let lines = words(drawn, rounds.len(), &cells, workers);
    let mut canvas = Canvas::new();
    let y = heading(&mut canvas, &drawn.title, &lines);
    let y = legend(&mut canvas, &drawn.nodes, &boxes.growers, y, PAPER);
    let fitting = ((PAPER - LABELS) / (boxes.width + APART)).max(1) as usize;
    let in_line = (fitting / STEP * STEP).max(STEP);
    let mut y = y + MARGIN / 2;
    for (place, line) in cells.chunks(in_line).enumerate() {
        y = rounds_line(&mut canvas, drawn, &boxes, line, (place * in_line, y));
    }
    band(&mut canvas, &drawn.refused, y);
    canvas.finish(&titled(&drawn.title), &format!("A day: {}.", lines.join("; ")))
}

/// What the day shows, in words.
fn words(drawn: &Drawn, rounds: usize, cells: &[Vec<Option<usize>>], workers: usize) -> Vec<String> {
    let mut seen = vec![false; drawn.nodes.len()];
    cells.iter().flatten().flatten().for_each(|&place| seen[place] = true);
    let idle = cells.iter().flatten().filter(|cell| cell.is_none()).count();
    let jobs = counted(seen.iter().filter(|&&seen| seen).count(), "job", "jobs");
    let day = format!(
        "{} in {} by {}, {}",
        jobs,
        counted(rounds, "round", "rounds"),
        counted(workers, "worker", "workers"),
        counted(idle, "idle place", "idle places")
    );
    let mut lines = vec![day, ROUND.to_string()];
    let missing = seen.iter().filter(|&&seen| !seen).count();
    if missing > 0 {
        lines.push(format!("{} of the sheet in none of the rounds that are drawn", counted(missing, "job", "jobs")));
    }
    if rounds > cells.len() {
        lines.push(format!("{} not drawn", counted(rounds - cells.len(), "more round", "more rounds")));
    }
    lines
}

/// Draws some rounds side by side, numbered from `first`, and gives the end.
fn rounds_line(
    canvas: &mut Canvas,
    drawn: &Drawn,
    boxes: &Boxes,
    rounds: &[Vec<Option<usize>>],
    (first, top): (usize, i64),
) -> i64 {
    let left = MARGIN + LABELS;
    let lane = |worker: usize| top + MARGIN + (HEIGHT + APART) * worker as i64;
    let workers = rounds.first().map_or(0, Vec::len);
    canvas.text(MARGIN, top + NORMAL, SMALL, Anchor::Start, "round");
    for worker in 0..workers {
        let line = lane(worker) + HEIGHT / 2 + NORMAL / 3;
        canvas.text(MARGIN, line, NORMAL, Anchor::Start, &format!("worker {}", worker));
    }
    for (column, cells) in rounds.iter().enumerate() {
        let x = left + (boxes.width + APART) * column as i64;
        let number = (first + column).to_string();
        canvas.text(x + boxes.width / 2, top + NORMAL, NORMAL, Anchor::Middle, &number);
        for (worker, cell) in cells.iter().enumerate() {
            match cell {
                Some(place) => boxes.draw(canvas, &drawn.nodes[*place], x, lane(worker)),
                None => idle(canvas, Rect { x, y: lane(worker), w: boxes.width, h: HEIGHT }),
            }
        }
    }
    lane(workers) + MARGIN
}

fn idle(canvas: &mut Canvas, at: Rect) {
    canvas.rect(at, IDLE);
    canvas.text(at.middle(), at.y + HEIGHT / 2 + SMALL / 3, SMALL, Anchor::Middle, "idle");
}
