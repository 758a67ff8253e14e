//! Writes a picture: black on white, in elements that every viewer knows.
use crate::layout::{Layout, Node, Point, Side, WIDTH};
use crate::plan::{Arrow, Plan};
use crate::shape::{dots, number_width, state_box, state_words, DOT};
use crate::text::{width, FIXED, INTERNAL, LINE, NO_NUMBER, NUMBER, SIZE};

const HEAD_LENGTH: i32 = 9;
const HEAD_BREADTH: i32 = 4;

pub fn svg(plan: &Plan) -> String {
    let Layout { of, height, states, .. } = plan.layout;
    let legend = legend(plan);
    let total = height + LINE * legend.len() as i32 + 10;
    let mut out = format!(
        "<svg xmlns=\"http://www.w3.org/2000/svg\" \
         width=\"{WIDTH}\" height=\"{total}\" viewBox=\"0 0 {WIDTH} {total}\" \
         font-family=\"Helvetica, Arial, Liberation Sans, sans-serif\" font-size=\"{SIZE}\">\n\
         <title>{}</title>\n\
         <rect width=\"{WIDTH}\" height=\"{total}\" fill=\"white\"/>\n",
        of.title()
    );
    for &(state, middle) in states {
        out += &state_text(&plan.layout, state, middle);
    }
    for arrow in &plan.arrows {
        out += &arrow_text(arrow);
    }
    for (line, items) in legend.iter().enumerate() {
        out += &legend_text(items, height + 12 + LINE * line as i32);
    }
    out + "</svg>\n"
}

fn state_text(layout: &Layout, state: u8, middle: Point) -> String {
    let rect = state_box(layout, middle);
    let (left, top, height) = (rect.left, rect.top, rect.bottom - rect.top);
    let mut out = format!(
        "<rect x=\"{left}\" y=\"{top}\" width=\"{}\" height=\"{height}\" rx=\"8\" fill=\"white\" stroke=\"black\" \
         stroke-width=\"1.5\"/>\n",
        rect.right - left
    );
    let wide = number_width(layout);
    let bar = left + wide;
    if wide > 0 {
        out += &format!("<path d=\"M{bar} {top}V{}\" stroke=\"black\"/>\n", rect.bottom);
        out += &lines_text(&[state.to_string()], (left + wide / 2, middle.1), Side::Middle, true);
    }
    out + &lines_text(&state_words(layout, state), ((bar + rect.right) / 2, middle.1), Side::Middle, true)
}

fn arrow_text(arrow: &Arrow) -> String {
    let route = &arrow.route;
    let mut way = route.way.to_vec();
    let last = way.len() - 1;
    let ahead = direction(way[last - 1], way[last]);
    if route.to == Node::NoRecord {
        way[last] = (way[last].0 - ahead.0 * (DOT + 1), way[last].1 - ahead.1 * (DOT + 1));
    }
    let mut out: String = dots(route).map(|dot| dot_text(dot, dot == route.way[0])).collect();
    let points: Vec<String> = way.iter().map(|(x, y)| format!("{x} {y}")).collect();
    out +=
        &format!("<path d=\"M{}\" fill=\"none\" stroke=\"black\" stroke-width=\"1.2\"/>\n", points.join("L"));
    out += &head_text(way[last], ahead);
    out + &lines_text(&arrow.lines, route.label, route.side, false)
}

fn direction((x, y): Point, (u, v): Point) -> Point {
    ((u - x).signum(), (v - y).signum())
}

fn head_text((x, y): Point, (along, down): Point) -> String {
    let (u, v) = (x - along * HEAD_LENGTH, y - down * HEAD_LENGTH);
    let (a, b) = (down * HEAD_BREADTH, along * HEAD_BREADTH);
    format!("<path d=\"M{x} {y}L{} {}L{} {}Z\"/>\n", u + a, v + b, u - a, v - b)
}

/// Full where a transition begins, ringed where it ends.
fn dot_text((x, y): Point, begins: bool) -> String {
    match begins {
        true => format!("<circle cx=\"{x}\" cy=\"{y}\" r=\"{}\"/>\n", DOT - 1),
        false => format!(
            "<circle cx=\"{x}\" cy=\"{y}\" r=\"{DOT}\" fill=\"white\" stroke=\"black\" stroke-width=\"1.2\"/>\n\
             <circle cx=\"{x}\" cy=\"{y}\" r=\"{}\"/>\n",
            DOT - 3
        ),
    }
}

/// Lines of text; the point is at half their height.
pub fn lines_text(lines: &[String], (x, y): Point, side: Side, bold: bool) -> String {
    let anchor = match side {
        Side::Start => "start",
        Side::Middle => "middle",
        Side::End => "end",
    };
    let weight = if bold { " font-weight=\"bold\"" } else { "" };
    // A letter's own middle is about a third of its size above the line it stands on.
    let first = y - LINE * (lines.len() as i32 - 1) / 2 + SIZE / 3 + 1;
    let line = |(place, line): (usize, &String)| {
        let y = first + LINE * place as i32;
        format!("<text x=\"{x}\" y=\"{y}\" text-anchor=\"{anchor}\"{weight}>{line}</text>\n")
    };
    lines.iter().enumerate().map(line).collect()
}

enum Key {
    Made,
    Gone,
    Mark(&'static str),
}

/// The marks that this picture uses, in lines.
fn legend(plan: &Plan) -> Vec<Vec<(Key, String)>> {
    let ends = |node| plan.arrows.iter().any(|arrow| arrow.route.from == node || arrow.route.to == node);
    let marked =
        |mark: &str| plan.arrows.iter().flat_map(|arrow| &arrow.lines).any(|line| line.ends_with(mark));
    let mut lines = Vec::new();
    if let Some(table) = plan.layout.of.table() {
        let mut numbers = vec![(Key::Mark(NUMBER), format!("transition of the standard's Table {table}"))];
        if marked(NO_NUMBER) {
            numbers.push((Key::Mark(NO_NUMBER), "none there".into()));
        }
        lines.push(numbers);
    }
    if ends(Node::NoRecord) {
        lines.push(vec![(Key::Made, "record made".into()), (Key::Gone, "record gone".into())]);
    }
    let marks = [(INTERNAL, "in an internal buffer tool alone"), (FIXED, "in a fixed buffer tool alone")];
    let used = marks.into_iter().filter(|(mark, _)| marked(mark));
    let used: Vec<_> = used.map(|(mark, text)| (Key::Mark(mark), String::from(text))).collect();
    if !used.is_empty() {
        lines.push(used);
    }
    if plan.fixed_alone {
        lines.push(vec![(Key::Mark(""), "all of it in a fixed buffer tool alone".into())]);
    }
    lines
}

fn legend_text(items: &[(Key, String)], y: i32) -> String {
    let (mut out, mut x) = (String::new(), 20);
    for (key, text) in items {
        out += &match key {
            Key::Made => dot_text((x, y), true),
            Key::Gone => dot_text((x, y), false),
            Key::Mark(mark) => lines_text(&[mark.to_string()], (x, y), Side::Middle, false),
        };
        let wide = if let Key::Mark(mark) = key { width(mark) / 2 } else { DOT };
        out += &lines_text(std::slice::from_ref(text), (x + wide + 6, y), Side::Start, false);
        x += width(text) + wide + 45;
    }
    out
}
