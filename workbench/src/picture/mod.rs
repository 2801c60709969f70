//! A picture of a run, as SVG: a lane for each head, the line-up below, the groups beside.

mod columns;
mod forest;
mod lanes;
mod legend;
mod lineup;
mod svg;

use columns::Columns;
use forest::Forest;
use lanes::Lanes;
use lineup::Lineup;
use svg::LINE;

use crate::explain::heading;
use crate::job::Job;
use crate::story::Story;

const MARGIN: i32 = 16;
/// The room of the lanes' names.
const NAMES: i32 = 64;
/// The least width, for the legend's sake.
const LEAST: i32 = 640;
const STYLE: &str = include_str!("style.css");

/// Draws the grants of a story and what stands after them.
pub fn draw(job: &Job, story: &Story) -> String {
    let columns = Columns::of(story, MARGIN + NAMES);
    let axis = MARGIN + 3 * LINE;
    let lanes = Lanes::of(job, story, &columns, axis + 6);
    let lineup = Lineup::of(job, story, &columns, lanes.foot());
    let forest = Forest::of(&story.left, axis, lineup.foot - axis);
    let width = (columns.right + MARGIN + forest.width()).max(LEAST);
    let (legend, foot) = legend::drawn(MARGIN, lineup.foot.max(forest.foot) + LINE, width - MARGIN);
    let height = foot + MARGIN;
    let title = svg::escaped(&heading(job, story.window));
    let sections: String = [
        ("axis", columns.axis(MARGIN, axis)),
        ("ties", lineup.ties(&lanes)),
        ("heads", lanes.drawn(MARGIN)),
        ("line-up", lineup.drawn(&lanes, MARGIN)),
        ("groups", forest.drawn(columns.right + MARGIN + 8)),
        ("legend", legend),
    ]
    .into_iter()
    .map(|(id, drawn)| format!("<g id=\"{id}\">\n{drawn}</g>\n"))
    .collect();
    format!(
        "<svg xmlns=\"http://www.w3.org/2000/svg\" width=\"{width}\" height=\"{height}\" \
         viewBox=\"0 0 {width} {height}\" role=\"img\">\n<title>{title}</title>\n\
         <style>\n{STYLE}</style>\n{HATCH}\
         <rect class=\"paper\" width=\"{width}\" height=\"{height}\"/>\n\
         <text class=\"name\" x=\"{MARGIN}\" y=\"{}\">{title}</text>\n{sections}</svg>\n",
        MARGIN + LINE
    )
}

/// What fills the bar of a same-set.
const HATCH: &str = "\
<pattern id=\"hatch\" width=\"6\" height=\"6\" patternUnits=\"userSpaceOnUse\" patternTransform=\"rotate(45)\">
<rect class=\"paper\" width=\"6\" height=\"6\"/><path class=\"hatch\" d=\"M1 0V6\"/>
</pattern>
";
