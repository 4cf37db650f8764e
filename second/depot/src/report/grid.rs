//! The bytes of a message as a grid, sixteen to a row.

use std::ops::Range;

use super::html::Html;
use super::layout::{Byte, Head, Layout};
use super::shape::{Kind, What};
use super::Place;

const ROW: usize = 16;

/// So many bytes have rows of their own; what comes after them is counted.
const LIMIT: usize = 2_048;

/// From so many on, rows that are masked alike stand as one.
const FOLDED: usize = 3;

/// Puts the grid of the message whose number on the page is `item`.
pub fn put(html: &mut Html, layout: &Layout<'_>, item: usize) {
    let bytes = layout.bytes();
    html.markup(
        "<table class=\"grid\"><caption>Bytes</caption><thead><tr><th scope=\"col\">At</th>",
    );
    html.markup(
        "<th scope=\"col\">Hex</th><th scope=\"col\" class=\"x\">Text</th></tr></thead><tbody>\n",
    );
    let rows: Vec<&[Byte]> = bytes[..bytes.len().min(LIMIT)].chunks(ROW).collect();
    let mut at = 0;
    for alike in rows.chunk_by(|one, two| is_blank(one) && one == two) {
        let places = at * ROW..(at + alike.len()) * ROW;
        if alike.len() >= FOLDED {
            put_folded(html, layout, item, places);
        } else {
            for row in at..at + alike.len() {
                let end = (row * ROW + ROW).min(bytes.len());
                put_row(html, layout, item, row * ROW..end);
            }
        }
        at += alike.len();
    }
    if bytes.len() > LIMIT {
        html.markup("<tr><th scope=\"row\"></th><td colspan=\"2\">")
            .text(bytes.len() - LIMIT);
        html.markup(" bytes more, which this page leaves out</td></tr>\n");
    }
    html.markup("</tbody></table>\n");
}

/// Whether a row is whole, of one part and masked.
fn is_blank(row: &[Byte]) -> bool {
    row.len() == ROW && row.iter().all(|byte| !byte.shown && *byte == row[0])
}

fn put_at(html: &mut Html, place: usize) {
    html.markup("<tr><th scope=\"row\">")
        .text(format_args!("{place:04X}"))
        .markup("</th><td>");
}

fn put_folded(html: &mut Html, layout: &Layout<'_>, item: usize, places: Range<usize>) {
    put_at(html, places.start);
    open(html, layout, item, places.clone());
    html.text(places.len())
        .markup(" bytes masked</span></td><td class=\"x\"></td></tr>\n");
}

/// A row, in runs of bytes that are alike. A field begins a run.
fn put_row(html: &mut Html, layout: &Layout<'_>, item: usize, places: Range<usize>) {
    put_at(html, places.start);
    let bytes = layout.bytes();
    let mut start = places.start;
    for place in places.clone() {
        let next = place + 1;
        let ends = next == places.end || bytes[next] != bytes[place] || begins(layout, next);
        if ends {
            put_run(html, layout, item, start..next);
            start = next;
        }
    }
    html.markup("</td><td class=\"x\">");
    for place in places {
        match layout.message[place] {
            _ if !bytes[place].shown => html.markup("\u{2022}"),
            byte @ b'!'..=b'~' => html.text(char::from(byte)),
            _ => html.markup("\u{B7}"),
        };
    }
    html.markup("</td></tr>\n");
}

fn starts(head: &Head) -> Option<usize> {
    head.range().map(|range| range.start)
}

fn begins(layout: &Layout<'_>, place: usize) -> bool {
    layout.heads.iter().any(|head| starts(head) == Some(place))
}

fn put_run(html: &mut Html, layout: &Layout<'_>, item: usize, places: Range<usize>) {
    let link = open(html, layout, item, places.clone());
    for place in places.clone() {
        if place > places.start {
            html.markup(" ");
        }
        if layout.bytes()[place].shown {
            html.text(format_args!("{:02X}", layout.message[place]));
        } else {
            html.markup("\u{2022}\u{2022}");
        }
    }
    html.markup(if link { "</a> " } else { "</span> " });
}

/// Opens a run: a link where it is a head that points into the message. Says which.
fn open(html: &mut Html, layout: &Layout<'_>, item: usize, places: Range<usize>) -> bool {
    let byte = layout.bytes()[places.start];
    let target = match byte.what {
        What::Head(number) if byte.shown => target(layout, number),
        _ => None,
    };
    if let Some(number) = target {
        html.markup("<a href=\"#m")
            .text(item)
            .markup("-f")
            .text(number)
            .markup("\" class=\"r ");
    } else {
        html.markup("<span class=\"r ");
    }
    put_class(html, byte);
    html.markup("\" data-k=\"")
        .markup(if byte.failed { "\u{2717}" } else { "" });
    put_mark(html, layout.kind, byte.what);
    html.markup(if byte.shared { "+" } else { "" })
        .markup("\" title=\"");
    html.text(name(layout.kind, byte.what))
        .markup(", ")
        .text(Place(places.clone()))
        .markup("\">");
    put_anchors(html, layout, item, places);
    target.is_some()
}

fn put_class(html: &mut Html, byte: Byte) {
    html.markup(class(byte.what));
    html.markup(if byte.shown { "" } else { " masked" });
    html.markup(if byte.shared { " shared" } else { "" });
    html.markup(if byte.failed { " failed" } else { "" });
}

/// What the fields that begin here are linked by.
fn put_anchors(html: &mut Html, layout: &Layout<'_>, item: usize, places: Range<usize>) {
    let here = |head: &&Head| starts(head).is_some_and(|start| places.contains(&start));
    for head in layout.heads.iter().filter(here) {
        html.markup("<i id=\"m")
            .text(item)
            .markup("-f")
            .text(head.field.number)
            .markup("\"></i>");
    }
}

/// The field that a head points at, where its first byte has a place in the grid.
pub fn target(layout: &Layout<'_>, number: u8) -> Option<u8> {
    let head = layout
        .heads
        .iter()
        .find(|head| head.field.number == number)?;
    let start = starts(head)?;
    (start < layout.message.len().min(LIMIT) && layout.is_shown(head.place())).then_some(number)
}

/// The letter or number by which a part is told where colours aren't.
pub fn put_mark(html: &mut Html, kind: Kind, what: What) {
    match what {
        What::Signature => html.markup("S"),
        What::Type => html.markup("T"),
        What::Flags => html.markup("F"),
        What::ServerChallenge => html.markup("C"),
        What::Reserved => html.markup("R"),
        What::Version => html.markup("V"),
        What::Mic => html.markup("M"),
        What::Head(number) => html.markup("\u{2192}").text(number),
        What::Field(string @ 1..=5) if kind == Kind::NlAuth => {
            html.text(char::from(b'A' + string - 1))
        }
        What::Field(number) => html.text(number),
        What::Pair(id) => html.markup("p").text(id),
        What::Left => html.markup("\u{2013}"),
    };
}

/// The class of a part's colour.
pub const fn class(what: What) -> &'static str {
    match what {
        What::Signature | What::Type | What::Reserved | What::Version => "fixed",
        What::Flags => "flags",
        What::ServerChallenge | What::Mic => "mic",
        What::Head(1) => "head n1",
        What::Head(2) => "head n2",
        What::Head(3) => "head n3",
        What::Head(4) => "head n4",
        What::Head(5) => "head n5",
        What::Head(_) => "head n6",
        What::Field(1) => "n1",
        What::Field(2) | What::Pair(_) => "n2",
        What::Field(3) => "n3",
        What::Field(4) => "n4",
        What::Field(5) => "n5",
        What::Field(_) => "n6",
        What::Left => "left",
    }
}

/// What a part is called.
pub fn name(kind: Kind, what: What) -> String {
    match what {
        What::Signature => "signature".to_owned(),
        What::Type => "type".to_owned(),
        What::Flags => "flags".to_owned(),
        What::ServerChallenge => "server challenge".to_owned(),
        What::Reserved => "reserved".to_owned(),
        What::Version => "Version".to_owned(),
        What::Mic => "MIC".to_owned(),
        What::Head(number) => format!("head of the {}", kind.field_name(number)),
        What::Field(number) => kind.field_name(number).to_owned(),
        What::Pair(id) => format!("pair {id}"),
        What::Left => "in no field".to_owned(),
    }
}
