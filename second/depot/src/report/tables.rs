//! What stands where in a message, its flags, its pairs and its checks.

use std::ops::Range;

use reader::{nl_auth_name, NegotiateFlags, TargetInfo, LINE_LIMIT};

use super::grid::{class, name, put_mark, target};
use super::html::Html;
use super::layout::{Head, Layout};
use super::name::{self, Time};
use super::named;
use super::shape::{number, Kind, Role, What};
use super::Place;
use crate::words::meaning;

/// Puts a row for each part: its mark, its name, its place and what it says.
pub fn put_parts(html: &mut Html, layout: &Layout<'_>, item: usize) {
    html.markup("<table class=\"parts\"><caption>What stands where</caption><thead><tr>");
    html.markup(
        "<th scope=\"col\">Mark</th><th scope=\"col\">Part</th><th scope=\"col\">Place</th>",
    );
    html.markup("<th scope=\"col\">Says</th></tr></thead><tbody>\n");
    for (what, range) in layout.kind.shape().parts {
        put_fixed(html, layout, *what, range.clone());
    }
    for head in &layout.heads {
        put_field(html, layout, head, item);
    }
    for part in &layout.parts {
        match part.what {
            What::Version | What::Mic => put_fixed(html, layout, part.what, part.range.clone()),
            What::Field(string) if layout.kind == Kind::NlAuth => {
                put_string(html, layout, string, part.range.clone());
            }
            _ => {}
        }
    }
    put_left(html, layout);
    html.markup("</tbody></table>\n");
}

/// Begins a row.
fn put_what(html: &mut Html, layout: &Layout<'_>, what: What) {
    html.markup("<tr><td><span class=\"r ")
        .markup(class(what))
        .markup("\">");
    put_mark(html, layout.kind, what);
    html.markup("</span></td><th scope=\"row\">")
        .text(name(layout.kind, what))
        .markup("</th><td>");
}

fn put_masked(html: &mut Html, len: usize) {
    html.text(Bytes(len)).markup(", <em>masked</em>");
}

fn put_fixed(html: &mut Html, layout: &Layout<'_>, what: What, range: Range<usize>) {
    if range.start >= layout.message.len() {
        return;
    }
    put_what(html, layout, what);
    html.text(Place(range.clone())).markup("</td><td>");
    let value = number(layout.message, range.clone());
    match (what, value) {
        _ if range.end > layout.message.len() => {
            html.markup("cut off");
        }
        _ if !layout.is_shown(range.clone()) => put_masked(html, range.len()),
        (What::Type, Some(value)) => {
            html.text(value);
        }
        (What::Flags, Some(value)) => {
            html.text(format_args!("{value:08X}"));
        }
        (What::Signature, _) => name::put(html, &layout.message[range], false),
        _ => {
            html.text(Bytes(range.len()));
        }
    }
    html.markup("</td></tr>\n");
}

/// A field with its head.
fn put_field(html: &mut Html, layout: &Layout<'_>, head: &Head, item: usize) {
    put_what(html, layout, What::Field(head.field.number));
    html.markup("head at ").text(head.field.head);
    if !layout.is_shown(head.place()) {
        html.markup("</td><td><em>masked</em>: a secret lies over its head</td></tr>\n");
        return;
    }
    if let Some(range) = head.range() {
        html.markup(", field ");
        if let Some(number) = target(layout, head.field.number) {
            html.markup("<a href=\"#m")
                .text(item)
                .markup("-f")
                .text(number)
                .markup("\">");
            html.text(Place(range)).markup("</a>");
        } else {
            html.text(Place(range));
        }
    }
    html.markup("</td><td>");
    put_says(html, layout, head);
    if head.counts && head.max_len != head.len {
        html.markup(", MaxLen ").text(head.max_len);
    }
    put_shared(html, layout, head);
    html.markup("</td></tr>\n");
}

fn put_says(html: &mut Html, layout: &Layout<'_>, head: &Head) {
    let Some(range) = head.range() else {
        html.markup(if head.counts {
            "empty"
        } else {
            "doesn\u{2019}t count: its flag is clear"
        });
        return;
    };
    let len = range.len();
    if range.end > layout.message.len() {
        html.text(Bytes(len))
            .markup(", which end past the message of ");
        html.text(Bytes(layout.message.len()));
    } else if head.field.role == Role::Pairs && layout.taken {
        html.text(Bytes(len)).markup(", in the table of pairs");
    } else if layout.is_shown(range.clone()) {
        name::put(html, &layout.message[range], is_unicode(layout));
    } else {
        put_masked(html, len);
    }
}

/// Whether the names are UTF-16LE: those of a NEGOTIATE never are.
fn is_unicode(layout: &Layout<'_>) -> bool {
    let flags = layout.kind.shape().flags;
    let flags = number(layout.message, flags..flags + 4).unwrap_or(0);
    flags & NegotiateFlags::UNICODE != 0 && layout.kind != Kind::Negotiate
}

/// The fields that have bytes in common with this one.
fn put_shared(html: &mut Html, layout: &Layout<'_>, head: &Head) {
    let own = head.range().unwrap_or_default();
    let shown = |other: &&Head| layout.is_shown(other.place());
    for other in layout.heads.iter().filter(shown) {
        let theirs = other.range().unwrap_or_default();
        let both = own.start.max(theirs.start)..own.end.min(theirs.end);
        if other.field.number != head.field.number && both.start < both.end {
            html.markup("; <strong>shares</strong> ")
                .text(Place(both))
                .markup(" with the ");
            html.text(other.field.name);
        }
    }
    let fixed = layout.kind.shape().fixed;
    if own.start < fixed && own.end > own.start {
        html.markup("; <strong>begins in the fixed part</strong>, which has ")
            .text(Bytes(fixed));
    }
}

/// A string of NL_AUTH, with its text where the message was taken.
fn put_string(html: &mut Html, layout: &Layout<'_>, string: u8, range: Range<usize>) {
    put_what(html, layout, What::Field(string));
    html.text(Place(range.clone())).markup("</td><td>");
    let mut room = vec![0; LINE_LIMIT];
    match nl_auth_name(layout.message, u32::from(string), &mut room) {
        Ok(len) if layout.taken => name::put(html, &room[..len], false),
        _ => put_masked(html, range.len()),
    }
    html.markup("</td></tr>\n");
}

/// What no part has.
fn put_left(html: &mut Html, layout: &Layout<'_>) {
    let bytes = layout.bytes();
    let mut at = 0;
    let mut places = Vec::new();
    for run in bytes.chunk_by(|one, two| one.what == two.what) {
        if run[0].what == What::Left {
            places.push(at..at + run.len());
        }
        at += run.len();
    }
    if places.is_empty() {
        return;
    }
    put_what(html, layout, What::Left);
    let total = places.iter().map(Range::len).sum();
    let most = 4;
    for (count, place) in places.iter().take(most).enumerate() {
        html.markup(if count > 0 { ", " } else { "" })
            .text(Place(place.clone()));
    }
    html.markup(if places.len() > most {
        " and others"
    } else {
        ""
    })
    .markup("</td><td>");
    put_masked(html, total);
    html.markup("</td></tr>\n");
}

/// Puts the names of the flags that are set.
pub fn put_flags(html: &mut Html, layout: &Layout<'_>) {
    let at = layout.kind.shape().flags;
    let flags = number(layout.message, at..at + 4);
    let Some(flags) = flags.filter(|_| layout.is_shown(at..at + 4)) else {
        return;
    };
    html.markup("<h4>Flags <code>")
        .text(format_args!("{flags:08X}"));
    html.markup("</code></h4>\n<ul class=\"chips\">");
    for bit in (0..32).map(|bit| 1 << bit).filter(|bit| flags & bit != 0) {
        html.markup("<li>");
        match flag_name(layout.kind, bit) {
            Some(name) => html.text(name),
            None => html.markup("no name"),
        };
        html.markup(" <code>")
            .text(format_args!("{bit:X}"))
            .markup("</code></li>");
    }
    html.markup(if flags == 0 {
        "<li>none is set</li></ul>\n"
    } else {
        "</ul>\n"
    });
}

fn flag_name(kind: Kind, bit: u32) -> Option<&'static str> {
    if kind != Kind::NlAuth {
        return named::flag(bit);
    }
    let strings = [
        "A, NetBIOS domain",
        "B, NetBIOS computer",
        "C, DNS domain",
        "D, DNS host",
        "E, NetBIOS computer in UTF-8",
    ];
    strings.get(bit.trailing_zeros() as usize).copied()
}

/// So many pairs have rows.
const MOST_PAIRS: usize = 64;

/// Puts the pairs of TargetInfo of a message that was taken.
pub fn put_pairs(html: &mut Html, layout: &Layout<'_>) {
    let pairs = |head: &&Head| head.field.role == Role::Pairs;
    let list = layout.heads.iter().find(pairs).and_then(Head::range);
    let Some(list) = list.filter(|_| layout.taken) else {
        return;
    };
    let end = list.end.min(layout.message.len());
    let start = list.start.min(end);
    html.markup(
        "<table class=\"pairs\"><caption>Pairs</caption><thead><tr><th scope=\"col\">Id</th>",
    );
    html.markup("<th scope=\"col\">Name</th><th scope=\"col\">Place</th>");
    html.markup("<th scope=\"col\">Value</th></tr></thead><tbody>\n");
    let mut walk = TargetInfo(&layout.message[start..end]).walk();
    for _ in 0..MOST_PAIRS {
        match walk.ask() {
            Ok(Some(pair)) => {
                let value = start + pair.place;
                put_pair(html, layout, pair.id.0, value..value + pair.value.len());
            }
            Ok(None) => {
                html.markup("<tr><td colspan=\"4\">the end</td></tr>\n");
                break;
            }
            Err(_) => {
                html.markup(
                    "<tr class=\"failed\"><td colspan=\"4\">\u{2717} the list fails at byte ",
                );
                html.text(start + walk.at()).markup("</td></tr>\n");
                break;
            }
        }
    }
    html.markup("</tbody></table>\n");
}

fn put_pair(html: &mut Html, layout: &Layout<'_>, id: u16, value: Range<usize>) {
    html.markup("<tr><td>")
        .text(id)
        .markup("</td><th scope=\"row\">");
    match named::pair(id) {
        Some(name) => html.text(name),
        None => html.markup("no name"),
    };
    html.markup("</th><td>")
        .text(Place(value.start - 4..value.end))
        .markup("</td><td>");
    let bytes = layout.message.get(value.clone()).unwrap_or_default();
    match (id, bytes.first_chunk::<8>()) {
        _ if !layout.is_shown(value) => put_masked(html, bytes.len()),
        (7, Some(time)) => {
            let time = u64::from_le_bytes(*time);
            html.markup("<code>")
                .text(format_args!("{time:016X}"))
                .markup("</code> ");
            html.text(Time(time));
        }
        (6, _) => {
            let flags = number(bytes, 0..4).unwrap_or(0);
            html.markup("<code>")
                .text(format_args!("{flags:08X}"))
                .markup("</code>");
        }
        _ => name::put(html, bytes, true),
    }
    html.markup("</td></tr>\n");
}

/// Puts the checks of a message as a program printed them, one to a row.
pub fn put_checks(html: &mut Html, printed: &[u8]) {
    html.markup(
        "<table class=\"checks\"><caption>Checks, as the proved program printed them</caption>",
    );
    html.markup("<thead><tr><th scope=\"col\">No.</th><th scope=\"col\">Refuses</th>");
    html.markup("<th scope=\"col\">Here</th></tr></thead><tbody>\n");
    for line in String::from_utf8_lossy(printed).lines() {
        let (number, found) = line
            .strip_prefix("check ")
            .and_then(|row| row.split_once(' '))
            .unwrap_or(("", line));
        let (state, mark) = match found.split(' ').next() {
            Some("held") => ("<tr class=\"held\">", "\u{2713} "),
            Some("failed") => ("<tr class=\"failed\">", "\u{2717} "),
            _ => ("<tr class=\"unreached\">", "\u{2013} "),
        };
        html.markup(state)
            .markup("<td>")
            .text(number)
            .markup("</td><th scope=\"row\">");
        html.text(
            number
                .parse()
                .ok()
                .and_then(meaning)
                .unwrap_or("another check"),
        );
        html.markup("</th><td>")
            .markup(mark)
            .text(found)
            .markup("</td></tr>\n");
    }
    html.markup("</tbody></table>\n");
}

/// A count of bytes.
pub struct Bytes(pub usize);

impl std::fmt::Display for Bytes {
    fn fmt(&self, f: &mut std::fmt::Formatter<'_>) -> std::fmt::Result {
        let noun = if self.0 == 1 { "byte" } else { "bytes" };
        write!(f, "{} {noun}", self.0)
    }
}
