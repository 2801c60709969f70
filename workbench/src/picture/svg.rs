//! Marks and words of a picture, as SVG. Every mark has a title, which a pointer shows.

/// Width of a character.
pub const CHARACTER: i32 = 7;
/// Height of a line of words.
pub const LINE: i32 = 14;

/// Words with the characters that XML keeps for itself written out.
pub fn escaped(words: &str) -> String {
    words.replace('&', "&amp;").replace('<', "&lt;").replace('>', "&gt;").replace('"', "&quot;")
}

/// The width of words.
pub fn width_of(words: &str) -> i32 {
    CHARACTER * words.chars().count() as i32
}

/// Words from a place to the right, their foot on y.
pub fn words(class: &str, x: i32, y: i32, said: &str) -> String {
    format!("<text class=\"{class}\" x=\"{x}\" y=\"{y}\">{}</text>\n", escaped(said))
}

/// Words with a title, if there are any.
pub fn titled_words(class: &str, x: i32, y: i32, said: &str, title: &str) -> String {
    if said.is_empty() {
        return String::new();
    }
    let (said, title) = (escaped(said), escaped(title));
    format!("<text class=\"{class}\" x=\"{x}\" y=\"{y}\">{said}<title>{title}</title></text>\n")
}

/// A line along a path.
pub fn line(class: &str, path: &str) -> String {
    format!("<path class=\"{class}\" d=\"{path}\"/>\n")
}

fn shape(class: &str, path: &str, title: &str) -> String {
    let title = escaped(title);
    format!("<path class=\"{class}\" d=\"{path}\"><title>{title}</title></path>\n")
}

fn circle(class: &str, x: i32, y: i32, radius: i32, title: &str) -> String {
    let title = escaped(title);
    format!(
        "<circle class=\"{class}\" cx=\"{x}\" cy=\"{y}\" r=\"{radius}\"><title>{title}</title></circle>\n"
    )
}

/// A grant that changes no word: a stroke.
pub fn tick(x: i32, y: i32, title: &str) -> String {
    shape("tick", &format!("M{x} {}V{}", y - 5, y + 5), title)
}

/// A grant that changes a word: a broad stroke.
pub fn wrote(x: i32, y: i32, title: &str) -> String {
    shape("tick wrote", &format!("M{x} {}V{}", y - 7, y + 7), title)
}

/// A grant whose swap fails: a cross.
pub fn failed(x: i32, y: i32, title: &str) -> String {
    let (left, right, top, foot) = (x - 4, x + 4, y - 4, y + 4);
    shape("failed", &format!("M{left} {top}L{right} {foot}M{left} {foot}L{right} {top}"), title)
}

/// A link: a filled dot.
pub fn link(x: i32, y: i32, title: &str) -> String {
    circle("link", x, y, 6, title)
}

/// An idle grant: a ring.
pub fn idle(x: i32, y: i32, title: &str) -> String {
    circle("idle", x, y, 4, title)
}

/// An entry of the line-up: a diamond, empty where it went in at an earlier point.
pub fn entry(x: i32, y: i32, earlier: bool, title: &str) -> String {
    let class = if earlier { "earlier" } else { "entry" };
    shape(class, &format!("M{x} {}L{} {y}L{x} {}L{} {y}Z", y - 6, x + 6, y + 6, x - 6), title)
}

/// From the grant at which a "no" is known back to its point: a line with a head.
pub fn back(from: i32, to: i32, y: i32, title: &str) -> String {
    let path =
        format!("M{from} {}V{y}H{to}M{} {}L{to} {y}L{} {}", y - 4, to + 4, y - 3, to + 4, y + 3);
    shape("back", &path, title)
}

/// A request from its first grant to its last; an end is open where it goes on.
#[derive(Clone, Copy)]
pub struct Span {
    pub left: i32,
    pub right: i32,
    pub open_left: bool,
    pub open_right: bool,
}

/// Half a bar's height.
pub const HALF: i32 = 10;

/// A request's bar of a class, its middle on y.
pub fn bar(class: &str, span: Span, y: i32, title: &str) -> String {
    let Span { left, right, open_left, open_right } = span;
    let (top, foot, width) = (y - HALF, y + HALF, right - left);
    let edge = |x: i32, open| if open { String::new() } else { format!("M{x} {top}V{foot}") };
    let edges = edge(left, open_left) + &edge(right, open_right);
    format!(
        "<g class=\"bar {class}\"><title>{}</title><rect x=\"{left}\" y=\"{top}\" width=\"{width}\" height=\"{}\"/>\
         <path d=\"M{left} {top}H{right}M{left} {foot}H{right}{edges}\"/></g>\n",
        escaped(title),
        2 * HALF
    )
}

/// Puts words that stand at places into as few rows as keep them apart: each goes into the first
/// row that is free there. Gives the row of each, and how many rows there are.
pub fn stacked(spans: impl IntoIterator<Item = (i32, i32)>) -> (Vec<usize>, usize) {
    let mut ends: Vec<i32> = Vec::new();
    let mut rows = Vec::new();
    for (left, right) in spans {
        let row = ends.iter().position(|&end| end + CHARACTER <= left).unwrap_or(ends.len());
        if row == ends.len() {
            ends.push(right);
        }
        ends[row] = right;
        rows.push(row);
    }
    (rows, ends.len())
}
