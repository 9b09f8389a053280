//! `card draw`: a picture of a card's layout, made from the card itself. One row for
//! each MST block, two units for each byte; every record with its leader, directory
//! and data, in the colour of its state; arrows from changed records back to their
//! settled versions; below, the entries of the XRF.

use crate::arguments::Arguments;
use crate::check::opened;
use crate::files::Files;
use crate::layout::{BLOCK, Entry, FIRST, LEADER, Place, Store, block_and_offset};
use crate::picture;
use crate::say::print;
use crate::survey::{self, Part, Span};
use crate::trouble::Trouble;
use isis::Mark;

/// At most so many blocks, and so many entries, are drawn.
const MOST_BLOCKS: usize = 24;
const MOST_ENTRIES: usize = 24;

/// The drawing's measures.
const LEFT: usize = 90;
const TOP: usize = 84;
const ROW: usize = 58;
const BAR: usize = 34;
const SCALE: usize = 2;
const WIDTH: usize = LEFT + BLOCK * SCALE + 30;

const STYLE: &str = "<style>
text { font: 13px sans-serif; fill: #222 }
.title { font-size: 18px; font-weight: bold }
.small { font-size: 11px; fill: #555 }
.in { font-size: 12px }
rect { stroke: #444; stroke-width: 0.7 }
.control { fill: #c9c3dd } .settled { fill: #a9cbe8 } .changed { fill: #f6c47f }
.new { fill: #b5dda4 } .deleted { fill: #e9a3a0 } .kept { fill: #fbe6c4 }
.lost { fill: #cfcfcf } .unreadable { fill: #777 } .free { fill: #fff; stroke-dasharray: 3 3 }
.leader { fill: #000; fill-opacity: 0.22; stroke: none }
.directory { fill: #000; fill-opacity: 0.1; stroke: none }
.back { fill: none; stroke: #a35a00; stroke-width: 1.6; marker-end: url(#tip) }
</style>
<defs><marker id=\"tip\" markerWidth=\"8\" markerHeight=\"8\" refX=\"7\" refY=\"4\" orient=\"auto\">\
<path d=\"M0,0 L8,4 L0,8 z\" fill=\"#a35a00\"/></marker></defs>\n";

/// How the title of every picture begins.
pub const TITLE: &str = "The master file (MST): end at block ";

/// `card draw`.
pub fn draw(mut arguments: Arguments) -> Result<(), Trouble> {
    let paths = arguments.files()?;
    let before = arguments.flag("--replace");
    let to = arguments.unless_flag()?;
    let replace = before || arguments.flag("--replace");
    arguments.none_left()?;
    let files = Files::read(paths)?;
    let svg = picture(&opened(&files)?);
    match to {
        Some(path) if path != "-" => picture::put(&files, path.as_ref(), replace, &svg),
        _ => print(&svg),
    }
}

/// The whole picture.
fn picture(store: &Store) -> String {
    let (blocks, used) = (store.mst.len() / BLOCK, store.end.div_ceil(BLOCK));
    let shown = used.min(MOST_BLOCKS);
    let spans = survey::spans(store);
    let mut body = String::new();
    for row in 0..shown {
        let y = TOP + row * ROW;
        text(&mut body, 10, y + 22, "", &format!("block {}", row + 1));
    }
    bytes(&mut body, shown, 0..FIRST, "control", "control record");
    for span in &spans {
        record(&mut body, shown, store, span);
    }
    bytes(&mut body, shown, store.end..shown * BLOCK, "free", "free");
    for span in &spans {
        arrow(&mut body, shown, store, span);
    }
    let y = TOP + shown * ROW + 8;
    if shown < blocks {
        let what = if used > shown {
            " are not drawn"
        } else {
            ": free"
        };
        let words = format!("blocks {} to {blocks}{what}", shown + 1);
        text(&mut body, LEFT, y, "", &words);
    }
    let height = entries(&mut body, store, y + 36);
    let mut svg = format!(
        "<svg xmlns=\"http://www.w3.org/2000/svg\" viewBox=\"0 0 {WIDTH} {height}\" \
         width=\"{WIDTH}\" height=\"{height}\">\n{STYLE}\
         <rect width=\"{WIDTH}\" height=\"{height}\" fill=\"#fff\" stroke=\"none\"/>\n"
    );
    heading(&mut svg, store);
    svg + &body + "</svg>\n"
}

/// The title and the key to the colours.
fn heading(svg: &mut String, store: &Store) {
    let (block, offset) = block_and_offset(store.end);
    let title = format!("{TITLE}{block}, offset {offset}; next MFN {}", store.next);
    text(svg, 10, 28, "title", &title);
    let key = [
        ("settled", "settled"),
        ("changed", "changed, pending"),
        ("new", "new, pending"),
        ("deleted", "deleted"),
        ("kept", "settled version, kept"),
        ("lost", "lost"),
        ("free", "free"),
    ];
    let mut x = LEFT;
    for (class, words) in key {
        rect(svg, x, 44, 16, 14, class);
        text(svg, x + 22, 56, "small", words);
        x += 40 + words.len() * 7;
    }
    text(
        svg,
        x,
        56,
        "small",
        "shaded: leader, directory; then the data",
    );
}

/// The entries of the XRF as a table; gives the picture's height.
fn entries(svg: &mut String, store: &Store, top: usize) -> usize {
    text(svg, 10, top, "title", "The cross-reference file (XRF)");
    let mut y = top + 24;
    for mfn in (1..store.next).take(MOST_ENTRIES) {
        let words = match store.entry(mfn) {
            Entry::At(place) => place_words(place),
            Entry::Gone => "gone (physically deleted)".into(),
            Entry::Unused => "never used, but below the next MFN".into(),
            Entry::PastEnd => "past the end".into(),
            Entry::Wrong(words) => words,
        };
        text(svg, LEFT, y, "", &format!("MFN {mfn}"));
        let value = store.slot(mfn);
        text(svg, LEFT + 90, y, "", &format!("entry {value}"));
        text(svg, LEFT + 220, y, "", &words);
        y += 20;
    }
    let more = (store.next - 1).saturating_sub(MOST_ENTRIES);
    if more > 0 {
        text(svg, LEFT, y, "small", &format!("and {more} more"));
        y += 20;
    }
    y + 10
}

/// A place in words.
fn place_words(place: Place) -> String {
    let (block, offset) = block_and_offset(place.at);
    let deleted = if place.deleted { "deleted, " } else { "" };
    let mark = place.mark.words();
    format!("block {block}, offset {offset}, {deleted}{mark}")
}

/// The class of the part that a span plays.
fn class(part: Part) -> &'static str {
    match part {
        Part::Current(place) if place.deleted => "deleted",
        Part::Current(place) => match place.mark {
            Mark::Settled => "settled",
            Mark::Changed => "changed",
            Mark::New => "new",
        },
        Part::Kept => "kept",
        Part::Lost => "lost",
        Part::Unreadable => "unreadable",
    }
}

/// A record: its bytes, and over them the shades of leader and directory.
fn record(svg: &mut String, rows: usize, store: &Store, span: &Span) {
    let Span { at, len, mfn, part } = *span;
    let label = match part {
        Part::Lost => "lost".to_string(),
        Part::Unreadable => "unreadable".to_string(),
        _ => format!("MFN {mfn}"),
    };
    bytes(svg, rows, at..at + len, class(part), &label);
    if matches!(part, Part::Current(_) | Part::Kept) {
        let base = store.record(at).base().clamp(LEADER, len);
        bytes(svg, rows, at..at + LEADER, "leader", "");
        bytes(svg, rows, at + LEADER..at + base, "directory", "");
    }
}

/// An arrow from a changed record back to its settled version.
fn arrow(svg: &mut String, rows: usize, store: &Store, span: &Span) {
    let Part::Current(Place {
        mark: Mark::Changed,
        ..
    }) = span.part
    else {
        return;
    };
    let Some(back) = store.record(span.at).back_at(store.end) else {
        return;
    };
    if span.at.max(back) >= rows * BLOCK {
        return;
    }
    let (x1, y1) = point(span.at);
    let (x2, y2) = point(back);
    let bend = y1.min(y2) - 22;
    svg.push_str(&format!(
        "<path class=\"back\" d=\"M{x1},{y1} C{x1},{bend} {x2},{bend} {x2},{y2}\"/>\n"
    ));
}

/// Where an arrow touches the record at an address.
fn point(at: usize) -> (usize, usize) {
    (LEFT + at % BLOCK * SCALE + 18, TOP + at / BLOCK * ROW)
}

/// Bytes of the MST, cut at the ends of blocks; the first part has the label.
fn bytes(svg: &mut String, rows: usize, range: std::ops::Range<usize>, class: &str, label: &str) {
    let (mut from, to) = (range.start, range.end.min(rows * BLOCK));
    let mut label = label;
    while from < to {
        let stop = to.min((from / BLOCK + 1) * BLOCK);
        let (x, y) = (LEFT + from % BLOCK * SCALE, TOP + from / BLOCK * ROW);
        let width = (stop - from) * SCALE;
        rect(svg, x, y, width, BAR, class);
        if width > label.len() * 7 {
            text(svg, x + 4, y + 22, "in", label);
            label = "";
        }
        from = stop;
    }
}

fn rect(svg: &mut String, x: usize, y: usize, width: usize, height: usize, class: &str) {
    svg.push_str(&format!(
        "<rect class=\"{class}\" x=\"{x}\" y=\"{y}\" width=\"{width}\" height=\"{height}\"/>\n"
    ));
}

fn text(svg: &mut String, x: usize, y: usize, class: &str, words: &str) {
    if !words.is_empty() {
        svg.push_str(&format!(
            "<text class=\"{class}\" x=\"{x}\" y=\"{y}\">{words}</text>\n"
        ));
    }
}
