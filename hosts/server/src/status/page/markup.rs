//! What goes into HTML and SVG.
use std::fmt::{self, Write};

/// Text that shows as it is, in an element or an attribute.
pub fn escape(text: &str) -> String {
    let mut escaped = String::with_capacity(text.len());
    for character in text.chars() {
        match character {
            '&' => escaped.push_str("&amp;"),
            '<' => escaped.push_str("&lt;"),
            '>' => escaped.push_str("&gt;"),
            '"' => escaped.push_str("&quot;"),
            '\'' => escaped.push_str("&#39;"),
            _ => escaped.push(character),
        }
    }
    escaped
}

/// Markup that grows, a piece at a time.
#[derive(Debug, Default)]
pub struct Markup(String);

impl Markup {
    /// Adds a piece. Whatever in it is not ours has to be escaped.
    pub fn add(&mut self, piece: fmt::Arguments<'_>) {
        // Writing to a string does not fail.
        let _ = self.0.write_fmt(piece);
        self.0.push('\n');
    }

    pub fn text(self) -> String {
        self.0
    }
}

/// A number for arithmetic of pictures.
pub fn number(count: usize) -> f64 {
    f64::from(u32::try_from(count).unwrap_or(u32::MAX))
}

/// Numbers of clients as words: `3`, `3 and 5`, `3, 5 and 7`.
pub fn list(clients: &[u8]) -> String {
    match clients {
        [] => "nobody".to_string(),
        [one] => one.to_string(),
        [some @ .., last] => {
            let some: Vec<_> = some.iter().map(u8::to_string).collect();
            format!("{} and {last}", some.join(", "))
        }
    }
}

#[cfg(test)]
mod tests {
    use super::*;

    #[test]
    fn nothing_that_is_shown_is_markup() {
        assert_eq!(escape("a<b>&\"c'"), "a&lt;b&gt;&amp;&quot;c&#39;");
        assert_eq!(escape("[::1]:7400"), "[::1]:7400");
    }

    #[test]
    fn lists_are_words() {
        assert_eq!([list(&[]), list(&[3]), list(&[3, 5])], ["nobody", "3", "3 and 5"]);
        assert_eq!(list(&[3, 5, 7]), "3, 5 and 7");
    }
}
