//! The page itself: an index, and a section for each message.

use std::fmt;

use super::html::Html;
use super::layout::Layout;
use super::tables::Bytes;
use super::{grid, tables, Counts, Found, Gathered, Item, Said};
use crate::form;
use crate::program::Answer;
use crate::summary::Outcome;
use crate::words::{self, ReadAs};

const STYLE: &str = include_str!("style.css");

/// The page of a folder's messages.
pub fn page(folder: &str, gathered: &Gathered) -> String {
    let items = &gathered.items;
    let mut order: Vec<&Item> = items.iter().collect();
    order.sort_by_key(|item| rank(item.state()));
    let mut html = Html::default();
    put_start(&mut html, folder, Counts::of(items));
    put_index(&mut html, &order);
    put_passed_over(&mut html, &gathered.passed_over);
    html.markup("<h2>Messages</h2>\n");
    for (number, item) in order.iter().enumerate() {
        put_item(&mut html, item, number + 1);
    }
    html.markup("</main>\n</body>\n</html>\n");
    html.into_string()
}

fn put_start(html: &mut Html, folder: &str, counts: Counts) {
    html.markup("<!DOCTYPE html>\n<html lang=\"en\">\n<head>\n<meta charset=\"utf-8\">\n");
    html.markup("<meta http-equiv=\"Content-Security-Policy\" content=\"default-src 'none'; style-src 'unsafe-inline'\">\n");
    html.markup("<meta name=\"viewport\" content=\"width=device-width, initial-scale=1\">\n");
    html.markup("<meta name=\"color-scheme\" content=\"light dark\">\n<title>Messages of ");
    html.text(folder)
        .markup("</title>\n<style>\n")
        .markup(STYLE);
    html.markup(
        "</style>\n</head>\n<body>\n<a class=\"skip\" href=\"#index\">Go to the index</a>\n",
    );
    html.markup("<header><h1>Messages of <span class=\"file\">")
        .text(folder);
    html.markup("</span></h1>\n<p class=\"counts\">")
        .text(counts)
        .markup("</p>\n");
    html.markup(LEGEND).markup("</header>\n<main>\n");
}

const LEGEND: &str = "<details class=\"legend\"><summary>How to read this page</summary>\n\
<p>A message is <strong>taken</strong> or <strong>refused</strong> as the proved program says; where the second program says \
something else they are <strong>different</strong>. The picture of the bytes is the second program\u{2019}s reading.</p>\n\
<ul class=\"chips\"><li><span class=\"r fixed\">S</span> signature</li><li><span class=\"r fixed\">T</span> type</li>\
<li><span class=\"r flags\">F</span> flags</li><li><span class=\"r head n4\">\u{2192}4</span> head of field 4, a link to its bytes</li>\
<li><span class=\"r n4\">4</span> bytes of field 4</li><li><span class=\"r n2\">p7</span> pair 7 of the target info</li>\
<li><span class=\"r n3\">C</span> string C of NL_AUTH</li><li><span class=\"r fixed\">V</span> Version</li>\
<li><span class=\"r fixed\">R</span> reserved</li>\
<li><span class=\"r mic\">M</span> MIC</li><li><span class=\"r mic\">C</span> server challenge</li>\
<li><span class=\"r left masked\">\u{2013}</span> in no field</li>\
<li><span class=\"r n4 shared\">4+</span> shared with another part</li><li><span class=\"r n4 failed\">\u{2717}4</span> what failed a check</li>\
<li><span class=\"r n1 masked\">\u{2022}\u{2022}</span> masked</li></ul>\n\
<p>Masked are the LM and the NT response, the session key, the MIC, the server challenge, and each byte of which the reading \
can\u{2019}t say what it is. A byte in two fields is masked where one of them is. Of a message that isn\u{2019}t taken, only the right \
bytes of its signature, its type, flags and heads are shown. Places are counted from 0.</p></details>\n";

/// What needs a look comes first.
const fn rank(state: Outcome) -> u8 {
    match state {
        Outcome::Different => 0,
        Outcome::NotRead => 1,
        Outcome::Refused => 2,
        Outcome::Taken => 3,
    }
}

/// The word for a state, with a sign.
const fn word(state: Outcome) -> &'static str {
    match state {
        Outcome::Different => "\u{2260} different",
        Outcome::NotRead => "? not read",
        Outcome::Refused => "\u{2717} refused",
        Outcome::Taken => "\u{2713} taken",
    }
}

const fn class(state: Outcome) -> &'static str {
    match state {
        Outcome::Different => "different",
        Outcome::NotRead => "unread",
        Outcome::Refused => "refused",
        Outcome::Taken => "taken",
    }
}

fn put_index(html: &mut Html, order: &[&Item]) {
    html.markup("<h2 id=\"index\" tabindex=\"-1\">Index</h2>\n<table class=\"index\"><thead><tr>");
    html.markup(
        "<th scope=\"col\">State</th><th scope=\"col\">Message</th><th scope=\"col\">Kind</th>",
    );
    html.markup("<th scope=\"col\">What was said</th></tr></thead><tbody>\n");
    for (number, item) in (1..).zip(order) {
        let state = item.state();
        html.markup("<tr><td class=\"state ")
            .markup(class(state))
            .markup("\">")
            .markup(word(state));
        html.markup("</td><th scope=\"row\"><a href=\"#m")
            .text(number)
            .markup("\">");
        put_name(html, item);
        html.markup("</a></th><td>")
            .text(kind(item))
            .markup("</td><td>");
        put_told(html, item);
        html.markup("</td></tr>\n");
    }
    html.markup("</tbody></table>\n");
}

/// What was passed over, as `make run` tells it.
fn put_passed_over(html: &mut Html, told: &[String]) {
    if told.is_empty() {
        return;
    }
    html.markup("<h2>Passed over</h2>\n<ul class=\"passed\">\n");
    for line in told {
        html.markup("<li>").text(line).markup("</li>\n");
    }
    html.markup("</ul>\n");
}

fn put_name(html: &mut Html, item: &Item) {
    html.text(&item.file);
    if let Some(line) = item.line {
        html.markup(", line ").text(line);
    }
}

/// What a message is read as.
fn kind(item: &Item) -> &'static str {
    match &item.found {
        Found::Message { bytes, .. } => match form::Kind::of(bytes) {
            form::Kind::Ntlm => super::shape::Kind::of_ntlm(bytes).name(),
            form::Kind::NlAuth => "NL_AUTH",
            form::Kind::Unclear => "of no kind",
        },
        Found::NotImported { .. } => "header line",
        Found::NotRead(_) => "",
    }
}

/// In a few words what was said of a message.
fn put_told(html: &mut Html, item: &Item) {
    match &item.found {
        Found::NotRead(why) => {
            html.text(why);
        }
        Found::NotImported { words, proved, .. } => {
            html.text(words.as_ref().unwrap_or(proved));
        }
        Found::Message { bytes, said } => {
            for (count, said) in said.iter().enumerate() {
                html.markup(if count > 0 { "; " } else { "" });
                html.text(words_of(said, bytes));
            }
        }
    }
}

/// Why a message is refused, in words; the line of one that is taken. 14 tells the flags of
/// NL_AUTH: those that have other bits are masked.
fn words_of(said: &Said, bytes: &[u8]) -> String {
    let words = match said.number() {
        Some(14) if bytes.get(4..8) != Some(&[0; 4]) => words::meaning(14).map(str::to_owned),
        Some(number) => words::of(number, said.read_as, bytes),
        None => None,
    };
    words.unwrap_or_else(|| said.proved.to_string())
}

fn put_item(html: &mut Html, item: &Item, number: usize) {
    let state = item.state();
    html.markup("<section class=\"item ").markup(class(state));
    html.markup("\" id=\"m")
        .text(number)
        .markup("\" tabindex=\"-1\" aria-labelledby=\"m");
    html.text(number)
        .markup("-h\">\n<h3 id=\"m")
        .text(number)
        .markup("-h\">");
    put_name(html, item);
    html.markup(" <small>")
        .text(Size(item))
        .markup("</small></h3>\n");
    match &item.found {
        Found::Message { bytes, said } => put_message(html, bytes, said, number, state),
        Found::NotImported {
            proved,
            second,
            same,
            words,
            ..
        } => {
            put_banner(html, state, words.as_ref().unwrap_or(proved));
            put_lines(html, "As a header line, ", [proved, second], *same);
        }
        Found::NotRead(why) => put_banner(html, state, why),
    }
    html.markup("<p class=\"back\"><a href=\"#index\">Back to the index</a></p>\n</section>\n");
}

/// What a message is, how it stands in its file and how long it is.
struct Size<'a>(&'a Item);

impl fmt::Display for Size<'_> {
    fn fmt(&self, f: &mut fmt::Formatter<'_>) -> fmt::Result {
        let Self(item) = self;
        match &item.found {
            Found::NotRead(_) => Ok(()),
            Found::NotImported { characters, .. } => {
                write!(f, "{}, {characters} characters", item.form)
            }
            Found::Message { bytes, .. } => {
                write!(f, "{}, {}, {}", kind(item), item.form, Bytes(bytes.len()))
            }
        }
    }
}

fn put_banner(html: &mut Html, state: Outcome, words: &str) {
    html.markup("<p class=\"banner\"><strong>")
        .markup(word(state))
        .markup("</strong> ");
    html.text(words).markup("</p>\n");
}

/// What both programs printed, of a message that they read as `kind`.
fn put_lines(html: &mut Html, kind: &'static str, [proved, second]: [&str; 2], same: bool) {
    html.markup("<p class=\"said\">").markup(kind);
    if same && proved == second {
        html.markup("both programs say <code>")
            .text(proved)
            .markup("</code></p>\n");
        return;
    }
    html.markup("the proved program says <code>")
        .text(proved)
        .markup("</code></p>\n<p class=\"said\">");
    html.markup(kind)
        .markup("the second program says <code>")
        .text(second)
        .markup("</code></p>\n");
}

/// A reading of a message: what became of it, and what both programs printed.
fn put_reading(html: &mut Html, said: &Said, bytes: &[u8]) {
    let same = said.is_same();
    match (same, said.is_refusal()) {
        (false, _) => put_banner(
            html,
            Outcome::Different,
            "the two programs don't say the same",
        ),
        (true, true) => put_banner(html, Outcome::Refused, &words_of(said, bytes)),
        (true, false) => put_banner(html, Outcome::Taken, "and both programs agree"),
    }
    let kind = match said.read_as {
        ReadAs::Ntlm => "Read as NTLM, ",
        ReadAs::NlAuth => "Read as NL_AUTH, ",
        ReadAs::HeaderText => "",
    };
    put_lines(
        html,
        kind,
        [&said.proved.to_string(), &said.second.to_string()],
        same,
    );
}

fn put_message(html: &mut Html, bytes: &[u8], said: &[Said], item: usize, state: Outcome) {
    for said in said {
        put_reading(html, said, bytes);
    }
    if let Some(told) = form::inside(bytes).filter(|_| state != Outcome::Taken) {
        html.markup("<p class=\"said\">")
            .text(told)
            .markup("</p>\n");
    }
    html.markup(if state == Outcome::Taken {
        "<details>"
    } else {
        "<details open>"
    });
    html.markup(
        "<summary>Bytes, parts, flags and checks</summary>\n<div class=\"columns\">\n<div>\n",
    );
    let layout = Layout::of(bytes, said.iter().all(Said::is_taken));
    grid::put(html, &layout, item);
    for said in said {
        put_checks(html, said);
    }
    html.markup("</div>\n<div>\n");
    tables::put_parts(html, &layout, item);
    tables::put_flags(html, &layout);
    tables::put_pairs(html, &layout);
    html.markup("</div>\n</div>\n</details>\n");
}

fn put_checks(html: &mut Html, said: &Said) {
    match (&said.checks, said.read_as) {
        (Some([Answer::Printed(printed), second]), _) => {
            tables::put_checks(html, printed);
            let same = matches!(second, Answer::Printed(other) if other == printed);
            html.markup(if same {
                "<p class=\"said\">Both programs print the same checks.</p>\n"
            } else {
                "<p class=\"said\"><strong>The second program prints other checks.</strong></p>\n"
            });
        }
        (Some([Answer::Fault(_), _]), _) => {
            html.markup("<p class=\"said\">The proved program printed no checks.</p>\n");
        }
        (None, ReadAs::NlAuth) => {
            html.markup("<p class=\"said\">The checks of NL_AUTH have no print: a refusal names the one that failed.</p>\n");
        }
        (None, _) => {
            html.markup("<p class=\"said\">No check refuses this message.</p>\n");
        }
    }
}
