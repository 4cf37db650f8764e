//! Text for a page: what comes from a message or a file is always escaped.

use std::fmt::{self, Display, Write};

/// A page, or a part of one. Markup is the program's own, so it is `'static`; whatever
/// else there is goes in as text.
#[derive(Default)]
pub struct Html(String);

impl Html {
    /// The page's own markup.
    pub fn markup(&mut self, markup: &'static str) -> &mut Self {
        self.0.push_str(markup);
        self
    }

    /// Any text, escaped as [`Escaped`] has it.
    pub fn text(&mut self, text: impl Display) -> &mut Self {
        // Writing to a string doesn't fail.
        let _ = write!(Escaped(&mut self.0), "{text}");
        self
    }

    /// The page.
    pub fn into_string(self) -> String {
        self.0
    }
}

/// Escapes what it is written: the characters that mark up a page, and as numbers those
/// that aren't visible, so that no control character and no change of direction passes.
struct Escaped<'a>(&'a mut String);

impl Write for Escaped<'_> {
    fn write_str(&mut self, text: &str) -> fmt::Result {
        for c in text.chars() {
            match c {
                '&' => self.0.push_str("&amp;"),
                '<' => self.0.push_str("&lt;"),
                '>' => self.0.push_str("&gt;"),
                '"' => self.0.push_str("&quot;"),
                '\'' => self.0.push_str("&#39;"),
                ' '..='~' => self.0.push(c),
                _ if c.is_alphanumeric() => self.0.push(c),
                _ => write!(self.0, "&lt;U+{:04X}&gt;", u32::from(c))?,
            }
        }
        Ok(())
    }
}

#[cfg(test)]
mod tests {
    use super::Html;

    fn escaped(text: &str) -> String {
        let mut html = Html::default();
        html.text(text);
        html.into_string()
    }

    #[test]
    fn what_marks_up_is_escaped() {
        assert_eq!(
            escaped("<a b='c\"&d'>"),
            "&lt;a b=&#39;c&quot;&amp;d&#39;&gt;"
        );
    }

    #[test]
    fn what_is_not_visible_is_a_number() {
        assert_eq!(escaped("a\n\u{7F}"), "a&lt;U+000A&gt;&lt;U+007F&gt;");
        assert_eq!(escaped("\u{202E}\u{200B}"), "&lt;U+202E&gt;&lt;U+200B&gt;");
        assert_eq!(escaped("J\u{FC}rgen \u{540D}"), "J\u{FC}rgen \u{540D}");
    }
}
