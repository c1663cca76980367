//! The page map as a drawing: rows of 64 pages, coloured and signed by the commit that holds them; the commits stand below.
use crate::map::{ACROSS, Map, Row, sign};
use crate::words;
use std::fmt::Write;

const CELL: usize = 14;
const LEFT: usize = 100;
const LINE: usize = 20;
/// Colours that stay apart for most eyes; with more commits they come round again, and the sign tells.
const COLOURS: [&str; 8] = ["#e69f00", "#56b4e9", "#009e73", "#f0e442", "#0072b2", "#d55e00", "#cc79a7", "#999999"];

/// How every drawing begins.
pub const BEGINS: &str = "<svg ";

/// A drawing that grows downwards.
struct Drawing {
    body: String,
    y: usize,
}

impl Drawing {
    fn text(&mut self, x: usize, text: &str) {
        let _ = writeln!(self.body, "<text x=\"{x}\" y=\"{}\">{text}</text>", self.y + 11);
    }

    /// Squares of one commit side by side, with what a pointer over them is told.
    fn squares(&mut self, x: usize, squares: usize, colour: &str, label: &str, told: &str) {
        let (y, width) = (self.y, squares * CELL - 1);
        let _ = writeln!(
            self.body,
            "<g><title>{told}</title><rect x=\"{x}\" y=\"{y}\" width=\"{width}\" height=\"{}\" fill=\"{colour}\"/>",
            CELL - 1
        );
        let _ = writeln!(self.body, "<text x=\"{}\" y=\"{}\" text-anchor=\"middle\">{label}</text></g>", x + width / 2, y + 11);
    }
}

/// The map of a volume as SVG.
pub fn drawn(map: &Map) -> String {
    let mut drawing = Drawing { body: String::new(), y: 10 };
    drawing.text(10, &format!("volume {}: which commit holds which of its {} pages", words::hex(&map.volume.vid.0), map.snapshot.count.0));
    drawing.y += LINE;
    for row in map.rows() {
        draw_row(&mut drawing, map, &row);
    }
    drawing.y += LINE;
    for (i, item) in map.items.iter().enumerate() {
        let pages = words::counted(item.gift.len().0 as usize, "page", "pages");
        drawing.squares(10, 1, colour(i), &sign(i).to_string(), &words::pages(&item.gift));
        drawing.text(34, &format!("commit {} of the {} log {}: {pages}", item.lsn.get(), map.whose(item), words::hex(&item.log.0)));
        drawing.y += LINE;
    }
    let (width, height) = (LEFT + ACROSS as usize * CELL + 10, drawing.y + 10);
    format!(
        "{BEGINS}xmlns=\"http://www.w3.org/2000/svg\" width=\"{width}\" height=\"{height}\" viewBox=\"0 0 {width} {height}\" \
         font-family=\"monospace\" font-size=\"11\">\n<rect width=\"{width}\" height=\"{height}\" fill=\"#ffffff\"/>\n{}</svg>\n",
        drawing.body
    )
}

fn draw_row(drawing: &mut Drawing, map: &Map, row: &Row) {
    match row {
        Row::Pages(first, cells) => {
            drawing.text(10, &first.to_string());
            draw_runs(drawing, map, *first, cells);
            drawing.y += CELL;
            return;
        }
        Row::Bare(first, last) => drawing.text(10, &format!("{}: in no commit", words::span(*first, *last))),
        Row::Rest(first) => drawing.text(10, &format!("{first} and on: not drawn")),
    }
    drawing.y += LINE;
}

/// The pages of a row, those side by side of one commit as one shape.
fn draw_runs(drawing: &mut Drawing, map: &Map, first: u64, cells: &[Option<usize>]) {
    let mut at = 0;
    for run in cells.chunk_by(|a, b| a == b) {
        let (start, end) = (first + at as u64, first + (at + run.len()) as u64 - 1);
        let x = LEFT + at * CELL;
        match run[0].and_then(|i| Some((i, map.items.get(i)?))) {
            Some((i, item)) => {
                let told = format!("{}: commit {} of the {} log", words::span(start, end), item.lsn.get(), map.whose(item));
                drawing.squares(x, run.len(), colour(i), &sign(i).to_string(), &told);
            }
            None => drawing.squares(x, run.len(), "#eeeeee", "", &format!("{}: in no commit", words::span(start, end))),
        }
        at += run.len();
    }
}

fn colour(item: usize) -> &'static str {
    COLOURS[item % COLOURS.len()]
}
