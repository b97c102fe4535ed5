//! `room --svg`: the first cells of a table and both pools as a picture.

use crate::room::{Owned, Room};
use crate::walk::Content;
use std::fmt::Write;

/// The side of the field of first cells, in pixels.
const FIELD: usize = 512;
/// Chunks in a row of a pool, and the step from one to the next.
const ROW: usize = 64;
const STEP: usize = 8;
/// Margins: left for the row labels, above for the titles.
const LEFT: usize = 40;
const TOP: usize = 44;
/// Between the field and the pools.
const GAP: usize = 40;

const STYLE: &str =
    "text{font:12px sans-serif;fill:#222}.s{font-size:10px;fill:#555}.n{fill:#e6e6e6}.h{fill:#7fb8b4}.c{fill:#12395b}";

/// The class of a first cell: no route, a hop, a chunk.
fn class(cell: u16) -> &'static str {
    match Content::of(cell) {
        Content::Leaf(None) => "n",
        Content::Leaf(Some(_)) => "h",
        Content::Chunk(_) => "c",
    }
}

/// The height of a pool of so many chunks.
fn height(chunks: usize) -> usize {
    chunks.div_ceil(ROW) * STEP
}

pub fn svg(room: &Room) -> String {
    let (t, report) = (&room.boxed.table, room.report);
    let g = t.geometry;
    let side = 1 << g.p1.div_ceil(2);
    let rows = t.first.len() / side;
    let pools = height(t.own2.len()) + height(t.own3.len()) + 2 * TOP;
    let (width, high) = (LEFT + FIELD + GAP + ROW * STEP + 16, (TOP + rows * FIELD / side + 40).max(pools + 16));
    let mut out = String::new();
    let mut line = |text: String| {
        out.push_str(&text);
        out.push('\n');
    };
    let (second, third) = (t.own2.len(), t.own3.len());
    line(format!(
        r#"<svg xmlns="http://www.w3.org/2000/svg" width="{width}" height="{high}" viewBox="0 0 {width} {high}">"#
    ));
    let title = format!("table ({}, {}): {} routes", g.p1, g.p2, report.routes);
    line(format!("<title>{title}, second {} of {second}, third {} of {third}</title>", report.second, report.third));
    line(format!("<style>{STYLE}</style>"));
    line(format!(
        r#"<defs><pattern id="free" width="{STEP}" height="{STEP}" patternUnits="userSpaceOnUse"><rect class="n" width="7" height="7"/></pattern></defs>"#
    ));
    line(format!(r##"<rect width="{width}" height="{high}" fill="#fff"/>"##));
    line(format!(r#"<text x="{LEFT}" y="16">{title}</text>"#));
    first_cells(&mut line, &t.first, side, rows);
    let x = LEFT + FIELD + GAP;
    pool(&mut line, "second", &room.second, second, (x, 0));
    pool(&mut line, "third", &room.third, third, (x, TOP + height(second)));
    line("</svg>".into());
    out
}

/// The field of first cells: equal ones that follow each other in a row are one element.
fn first_cells(line: &mut impl FnMut(String), first: &[u16], side: usize, rows: usize) {
    let px = FIELD / side;
    let high = rows * px;
    let each = 1 << (32 - first.len().ilog2());
    line(format!(
        r#"<text class="s" x="{LEFT}" y="32">{} first cells of {each} addresses, row by row</text>"#,
        first.len()
    ));
    line(format!(r#"<g transform="translate({LEFT},{TOP})"><rect class="n" width="{FIELD}" height="{high}"/>"#));
    for (y, row) in first.chunks_exact(side).enumerate() {
        let mut x = 0;
        for run in row.chunk_by(|a, b| class(*a) == class(*b)) {
            let class = class(run[0]);
            if class != "n" {
                let (at, wide) = (x * px, run.len() * px);
                line(format!(r#"<rect class="{class}" x="{at}" y="{}" width="{wide}" height="{px}"/>"#, y * px));
            }
            x += run.len();
        }
    }
    // Eight rows have the first address of the row in front.
    for k in 0..8 {
        let row = k * rows / 8;
        let [a, b, ..] = ((row * side * each) as u32).to_be_bytes();
        let name = if side * each == 1 << 24 { format!("{a}.") } else { format!("{a}.{b}") };
        line(format!(r#"<text class="s" x="-4" y="{}" text-anchor="end">{name}</text>"#, row * px + 9));
    }
    let mut x = 0;
    for (class, name) in [("n", "no route"), ("h", "hop"), ("c", "chunk")] {
        let y = high + 12;
        line(format!(
            r#"<rect class="{class}" x="{x}" y="{y}" width="10" height="10"/><text x="{}" y="{}">{name}</text>"#,
            x + 16,
            y + 9
        ));
        x += 90;
    }
    line("</g>".into());
}

/// A pool: a pattern of free chunks, and an element with a title for each one in use.
fn pool(line: &mut impl FnMut(String), name: &str, owned: &[Owned], lent: usize, (x, y): (usize, usize)) {
    line(format!(r#"<g transform="translate({x},{})">"#, y + TOP));
    line(format!(r#"<text y="-8">{name} chunks: {} of {lent}</text>"#, owned.len()));
    let (whole, rest) = (lent / ROW, lent % ROW);
    for (rows, from, wide) in [(whole, 0, ROW), (1, whole, rest)] {
        if rows > 0 && wide > 0 {
            let (wide, high) = (wide * STEP, rows * STEP);
            line(format!(r#"<rect fill="url(#free)" y="{}" width="{wide}" height="{high}"/>"#, from * STEP));
        }
    }
    for o in owned {
        let mut text = String::new();
        let (at, down) = ((o.chunk - 1) % ROW * STEP, (o.chunk - 1) / ROW * STEP);
        let _ = write!(text, r#"<rect class="c" x="{at}" y="{down}" width="7" height="7">"#);
        let _ = write!(text, "<title>chunk {}: {}, longer routes {}</title></rect>", o.chunk, o.owner, o.longer);
        line(text);
    }
    line("</g>".into());
}
