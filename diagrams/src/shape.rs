//! The rectangles of a picture, and the check that a reader can tell them apart.
use crate::layout::{Layout, Node, Point, Route, Side, BOX_HEIGHT, WIDTH};
use crate::plan::{Arrow, Plan};
use crate::subject::Subject;
use crate::text::{self, LINE};

/// A dot's radius.
pub const DOT: i32 = 6;
/// What a label keeps free around it.
const GAP: i32 = 4;

#[derive(Clone, Copy, Debug, PartialEq, Eq)]
pub struct Rect {
    pub left: i32,
    pub top: i32,
    pub right: i32,
    pub bottom: i32,
}

impl Rect {
    fn around((x, y): Point, width: i32, height: i32) -> Rect {
        let (left, top) = (x - width / 2, y - height / 2);
        Rect { left, top, right: left + width, bottom: top + height }
    }

    /// Whether they share more than a border. A line is a rectangle without breadth.
    fn meets(&self, other: &Rect) -> bool {
        let across = self.left < other.right && other.left < self.right;
        across && self.top < other.bottom && other.top < self.bottom
    }

    fn grown(self, by: i32) -> Rect {
        Rect { left: self.left - by, top: self.top - by, right: self.right + by, bottom: self.bottom + by }
    }

    fn on_border(&self, (x, y): Point) -> bool {
        let inside = (self.left..=self.right).contains(&x) && (self.top..=self.bottom).contains(&y);
        inside && (x == self.left || x == self.right || y == self.top || y == self.bottom)
    }

    fn inside(&self, other: &Rect) -> bool {
        let across = other.left <= self.left && self.right <= other.right;
        across && other.top <= self.top && self.bottom <= other.bottom
    }
}

/// The part of a state's box that has its number; the states of a request and of hands have none.
pub fn number_width(layout: &Layout) -> i32 {
    match layout.of {
        Subject::Model(_) => 24,
        Subject::Request | Subject::Hands => 0,
    }
}

/// A state's box.
pub fn state_box(layout: &Layout, middle: Point) -> Rect {
    Rect::around(middle, layout.box_width, BOX_HEIGHT)
}

/// A state's words, in the lines that its box has room for.
pub fn state_words(layout: &Layout, state: u8) -> Vec<String> {
    text::wrapped(layout.of.state(state), word_room(layout))
}

fn word_room(layout: &Layout) -> i32 {
    layout.box_width - number_width(layout) - 2 * GAP
}

/// The room that a label takes.
pub fn label(arrow: &Arrow) -> Rect {
    let (x, y) = arrow.route.label;
    let width = arrow.lines.iter().map(|line| text::width(line)).max().unwrap_or(0);
    let height = LINE * arrow.lines.len() as i32;
    let left = match arrow.route.side {
        Side::Start => x,
        Side::Middle => x - width / 2,
        Side::End => x - width,
    };
    let top = y - height / 2;
    Rect { left, top, right: left + width, bottom: top + height }
}

/// The dots of a route: at its start, at its end.
pub fn dots(route: &Route) -> impl Iterator<Item = Point> {
    let start = (!matches!(route.from, Node::State(_))).then(|| route.way[0]);
    let end = (!matches!(route.to, Node::State(_))).then(|| route.way[route.way.len() - 1]);
    start.into_iter().chain(end)
}

/// Something that is drawn. Parts of one route may meet, but for its label.
struct Item {
    what: String,
    route: Option<usize>,
    is_label: bool,
    rect: Rect,
}

/// Fails on the first two things that lie on each other, or on a way that doesn't begin or end where it should.
pub fn check(plan: &Plan) -> Result<(), String> {
    let Layout { file, height, .. } = plan.layout;
    for &(state, _) in plan.layout.states {
        check_words(&plan.layout, state)?;
    }
    for arrow in &plan.arrows {
        check_way(&plan.layout, &arrow.route)?;
    }
    let (items, page) = (items(plan), Rect { left: 0, top: 0, right: WIDTH, bottom: height });
    for (place, item) in items.iter().enumerate() {
        if !item.rect.inside(&page) {
            return Err(format!("{file}: {} lies outside the picture", item.what));
        }
        if let Some(other) = items[..place].iter().find(|other| clash(item, other)) {
            return Err(format!("{file}: {} lies on {}", item.what, other.what));
        }
    }
    Ok(())
}

fn clash(item: &Item, other: &Item) -> bool {
    let labelled = item.is_label || other.is_label;
    if item.route.is_some() && item.route == other.route && !labelled {
        return false;
    }
    item.rect.grown(if labelled { GAP } else { 0 }).meets(&other.rect)
}

fn items(plan: &Plan) -> Vec<Item> {
    let mut items = Vec::new();
    for &(state, middle) in plan.layout.states {
        let what = format!("the box of state {state}");
        items.push(Item { what, route: None, is_label: false, rect: state_box(&plan.layout, middle) });
    }
    for (place, arrow) in plan.arrows.iter().enumerate() {
        let words = arrow.lines.join(", ");
        let mut add = |what: &str, is_label, rect| {
            items.push(Item { what: format!("the {what} of {words}"), route: Some(place), is_label, rect })
        };
        for pair in arrow.route.way.windows(2) {
            add("line", false, span(pair[0], pair[1]));
        }
        for dot in dots(&arrow.route) {
            add("dot", false, Rect::around(dot, 2 * DOT, 2 * DOT));
        }
        add("label", true, label(arrow));
    }
    items
}

fn span((x, y): Point, (u, v): Point) -> Rect {
    Rect { left: x.min(u), top: y.min(v), right: x.max(u), bottom: y.max(v) }
}

fn check_words(layout: &Layout, state: u8) -> Result<(), String> {
    let (words, room) = (state_words(layout, state), word_room(layout));
    let fits = LINE * words.len() as i32 <= BOX_HEIGHT && words.iter().all(|line| text::width(line) <= room);
    match fits {
        true => Ok(()),
        false => Err(format!("{}: the box of state {state} is too small for its words", layout.file)),
    }
}

fn check_way(layout: &Layout, route: &Route) -> Result<(), String> {
    let way = route.way;
    let told =
        |what: &str| Err(format!("{}: the way {:?} to {:?} {what}", layout.file, route.from, route.to));
    if way.len() < 2 {
        return told("has less than two points");
    }
    if way.windows(2).any(|pair| pair[0].0 != pair[1].0 && pair[0].1 != pair[1].1) {
        return told("has a slanting part");
    }
    let starts = on_state(layout, route.from, way[0]);
    if !starts || !on_state(layout, route.to, way[way.len() - 1]) {
        return told("doesn't begin or end on the border of its box");
    }
    Ok(())
}

fn on_state(layout: &Layout, node: Node, point: Point) -> bool {
    let Node::State(state) = node else { return true };
    layout
        .states
        .iter()
        .any(|&(placed, middle)| placed == state && state_box(layout, middle).on_border(point))
}
