//! What the marks of a picture mean.

use super::svg::{self, width_of, Span, LINE};

/// The room of a mark, and between two meanings.
const MARK: i32 = 22;
const GAP: i32 = 18;
const ROW: i32 = LINE + 8;

/// Each mark, drawn with its middle at x and y, with its meaning.
type Meaning = (fn(i32, i32) -> String, &'static str);

const MEANINGS: [Meaning; 9] = [
    (|x, y| sample("union", x, y), "union, open while unfinished"),
    (|x, y| sample("same-set", x, y), "same-set"),
    (|x, y| svg::tick(x, y, "a grant"), "grant, no word changes"),
    (|x, y| svg::wrote(x, y, "a grant that changes a word"), "changes a word"),
    (|x, y| svg::failed(x, y, "a swap that fails"), "swap fails"),
    (|x, y| svg::link(x, y, "a link"), "link"),
    (|x, y| svg::idle(x, y, "an idle grant"), "idle"),
    (|x, y| svg::entry(x, y, false, "an entry of the line-up"), "takes effect"),
    (
        |x, y| svg::entry(x, y, true, "an entry at an earlier point"),
        "a \"no\", which is known only later",
    ),
];

fn sample(class: &str, x: i32, y: i32) -> String {
    let span = Span { left: x - 8, right: x + 8, open_left: false, open_right: false };
    svg::bar(class, span, y, class)
}

/// The legend in rows of at most a width, and its foot.
pub fn drawn(left: i32, top: i32, width: i32) -> (String, i32) {
    let (mut drawn, mut x, mut y) = (String::new(), left, top + ROW / 2);
    for (mark, meaning) in MEANINGS {
        let wide = MARK + width_of(meaning) + GAP;
        if x > left && x + wide > left + width {
            (x, y) = (left, y + ROW + 4);
        }
        drawn += &mark(x + MARK / 2, y);
        drawn += &svg::words("faint", x + MARK + 4, y + 4, meaning);
        x += wide;
    }
    (drawn, y + ROW / 2)
}
