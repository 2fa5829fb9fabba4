//! The picture of how long something takes, as SVG.
use super::markup::{Markup, number};
use krl::operate::Counts;
use std::time::Duration;

const WIDTH: f64 = 320.0;
const HEIGHT: f64 = 96.0;
const FLOOR: f64 = 74.0;
const HIGHEST: f64 = 66.0;
const LEFT: f64 = 8.0;

/// The picture of measurements of this name. Times are in microseconds.
pub fn svg(name: &str, counts: &Counts) -> String {
    let buckets = buckets(counts);
    let most = buckets.iter().map(|(_, count)| *count).max().unwrap_or(0).max(1);
    let step = (WIDTH - 2.0 * LEFT) / number(buckets.len().max(1));
    let mut svg = Markup::default();
    svg.add(format_args!(
        "<svg viewBox=\"0 0 {WIDTH} {HEIGHT}\" class=\"picture\" id=\"{name}\" role=\"img\" \
         aria-labelledby=\"{name}-title\"><title id=\"{name}-title\">{}</title>\
         <line x1=\"{LEFT}\" x2=\"{}\" y1=\"{FLOOR}\" y2=\"{FLOOR}\" class=\"edge\"/>",
        summary(name, counts),
        WIDTH - LEFT
    ));
    if counts.count > 0 {
        let (y, end) = (FLOOR - HIGHEST, WIDTH - LEFT);
        svg.add(format_args!(
            "<line x1=\"{LEFT}\" x2=\"{end}\" y1=\"{y}\" y2=\"{y}\" class=\"edge\"/>\
             <text x=\"{end}\" y=\"{}\" text-anchor=\"end\" class=\"note\">{most}</text>",
            y + 11.0
        ));
    }
    for (place, (bound, count)) in buckets.iter().enumerate() {
        let (x, height) = (LEFT + step * number(place), HIGHEST * share(*count, most));
        let up_to = bound.map_or_else(|| "more".to_string(), |it| format!("up to {}", time(it)));
        if *count > 0 {
            svg.add(format_args!(
                "<rect x=\"{x:.1}\" y=\"{:.1}\" width=\"{:.1}\" height=\"{:.1}\" class=\"count\">\
                 <title>{up_to}: {count}</title></rect>",
                FLOOR - height.max(1.0),
                step - 2.0,
                height.max(1.0)
            ));
        }
        // The bounds go by 1, 2 and 5: each sixth is a hundred times the sixth before it.
        if let (Some(bound), 0) = (bound, place % 6) {
            svg.add(format_args!(
                "<text x=\"{x:.1}\" y=\"90\" class=\"note\">{}</text>",
                time(*bound)
            ));
        }
    }
    svg.add(format_args!("</svg>"));
    svg.text()
}

/// In words: how many there were, and below which time nearly all of them lie.
pub fn summary(name: &str, counts: &Counts) -> String {
    match counts.count {
        0 => format!("{name}: none"),
        count => format!("{name}: 99 percent within {}, of {count}", percentile(counts)),
    }
}

/// The bound of the bucket within which 99 percent of the measurements lie.
fn percentile(counts: &Counts) -> String {
    let enough = counts.count - counts.count / 100;
    let bucket = counts.buckets.iter().find(|(_, below)| *below >= enough);
    bucket.map_or_else(|| "more than 10 s".to_string(), |(bound, _)| time(*bound))
}

/// How many lie in each bucket by itself, the last of which has no bound.
fn buckets(counts: &Counts) -> Vec<(Option<u64>, u64)> {
    let (mut buckets, mut below) = (Vec::new(), 0);
    for (bound, count) in &counts.buckets {
        buckets.push((Some(*bound), count.saturating_sub(below)));
        below = *count;
    }
    buckets.push((None, counts.count.saturating_sub(below)));
    buckets
}

fn share(count: u64, most: u64) -> f64 {
    let thousandths = u32::try_from(u128::from(count) * 1000 / u128::from(most)).unwrap_or(1000);
    f64::from(thousandths) / 1000.0
}

fn time(microseconds: u64) -> String {
    match microseconds {
        0..1_000 => format!("{microseconds} \u{b5}s"),
        1_000..1_000_000 => format!("{} ms", microseconds / 1_000),
        _ => format!("{} s", Duration::from_micros(microseconds).as_secs()),
    }
}

#[cfg(test)]
mod tests {
    use super::*;

    #[test]
    fn each_bucket_that_has_some_is_a_bar() {
        let counts = Counts { buckets: vec![(10, 1), (20, 1), (50_000, 99)], count: 101, sum: 0 };
        let svg = svg("commit", &counts);
        assert_eq!(svg.matches("class=\"count\"").count(), 3, "{svg}");
        assert!(
            svg.contains("height=\"66.0\" class=\"count\"><title>up to 50 ms: 98</title>"),
            "{svg}"
        );
        assert!(svg.contains("<title>more: 2</title>"), "{svg}");
    }

    #[test]
    fn nearly_all_is_99_percent() {
        let counts = |within: u64, all: u64| Counts {
            buckets: vec![(500, within), (2_000_000, all)],
            count: all,
            sum: 0,
        };
        let grants = |within| summary("grant", &counts(within, 100));
        assert_eq!(grants(99), "grant: 99 percent within 500 \u{b5}s, of 100");
        assert_eq!(grants(98), "grant: 99 percent within 2 s, of 100");
        assert_eq!(summary("grant", &Counts::default()), "grant: none");
        let beyond = Counts { buckets: vec![(10, 0)], count: 1, sum: 0 };
        assert_eq!(summary("grant", &beyond), "grant: 99 percent within more than 10 s, of 1");
    }
}
