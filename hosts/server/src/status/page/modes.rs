//! What the modes of locks mean, in words and by colors.
use krl::operate::Mode;

/// What a client may do, with the class that gives it its color.
pub const LEGEND: [(&str, &str); 4] = [
    ("reads", "reads"),
    ("updates", "reads, writes next"),
    ("inserts", "inserts"),
    ("writes", "writes"),
];

/// The class of a mode.
pub fn class(mode: Mode) -> &'static str {
    match mode.name() {
        name if name.contains('X') => "writes",
        name if name.ends_with('U') => "updates",
        name if name.contains("I-") => "inserts",
        _ => "reads",
    }
}

/// A mode in the words of the legend.
pub fn words(mode: Mode) -> &'static str {
    let found = LEGEND.iter().find(|(name, _)| *name == class(mode));
    found.map_or("", |(_, words)| words)
}

/// The same with the mode's own name.
pub fn words_and_name(mode: Mode) -> String {
    format!("{} ({mode})", words(mode))
}

#[cfg(test)]
mod tests {
    use super::*;

    #[test]
    fn modes_have_words_and_colors() {
        for (mode, class_of_it, words_of_it) in [
            (Mode::S, "reads", "reads (S)"),
            (Mode::RangeSS, "reads", "reads (RangeS-S)"),
            (Mode::U, "updates", "reads, writes next (U)"),
            (Mode::RangeSU, "updates", "reads, writes next (RangeS-U)"),
            (Mode::RangeIN, "inserts", "inserts (RangeI-N)"),
            (Mode::RangeIS, "inserts", "inserts (RangeI-S)"),
            (Mode::RangeIX, "writes", "writes (RangeI-X)"),
            (Mode::RangeXS, "writes", "writes (RangeX-S)"),
            (Mode::X, "writes", "writes (X)"),
        ] {
            assert_eq!((class(mode), &*words_and_name(mode)), (class_of_it, words_of_it));
        }
    }
}
