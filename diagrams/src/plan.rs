//! Joins what was found with the layout, and fails where one has what the other lacks.
use crate::explore::Found;
use crate::layout::{Layout, Node, Route};
use crate::subject::Subject;
use crate::text;
use hawsermole::Model;
use std::collections::BTreeMap;

/// A transition with the words that it is drawn with.
#[derive(Debug)]
pub struct Arrow {
    pub route: Route,
    pub lines: Vec<String>,
}

/// A picture, ready to be drawn.
#[derive(Debug)]
pub struct Plan {
    pub layout: Layout,
    pub arrows: Vec<Arrow>,
    /// Whether the whole model is a fixed buffer tool's alone: then no input is marked so.
    pub fixed_alone: bool,
}

/// Joins the two; `Err` names the first state or transition that only one of them has.
pub fn plan(layout: &Layout, found: &Found) -> Result<Plan, String> {
    let mut words = words_found(layout.of, found);
    check_states(layout, &words)?;
    let fixed_alone = unmark(layout.of, &mut words);
    let mut arrows = Vec::new();
    for &route in layout.routes {
        let lines = words.remove(&(route.from, route.to)).ok_or_else(|| {
            format!("{}: {} has a way but wasn't found", layout.file, arrow(route.from, route.to))
        })?;
        arrows.push(Arrow { route, lines });
    }
    match words.keys().next() {
        Some(&(from, to)) => Err(format!("{}: {} was found but has no way", layout.file, arrow(from, to))),
        None => Ok(Plan { layout: *layout, arrows, fixed_alone }),
    }
}

type Words = BTreeMap<(Node, Node), Vec<String>>;

fn words_found(subject: Subject, found: &Found) -> Words {
    let mut words = Words::new();
    for &(_, first) in found.first.iter().filter(|(of, _)| *of == subject) {
        words.insert((Node::SetUp, Node::State(first)), vec!["set-up".into()]);
    }
    for (&edge, causes) in found.edges.iter().filter(|(edge, _)| edge.of == subject) {
        let lines = causes.iter().map(|(&cause, &kinds)| text::cause(edge, cause, kinds)).collect();
        words.insert((node(subject, edge.old), node(subject, edge.new)), lines);
    }
    words
}

/// Takes the mark of fixed buffer tools off where every input of a model has it.
fn unmark(subject: Subject, words: &mut Words) -> bool {
    let mark = format!(" {}", text::FIXED);
    let model = matches!(subject, Subject::Model(_));
    let all = model && !words.is_empty() && words.values().flatten().all(|line| line.ends_with(&mark));
    if all {
        words.values_mut().flatten().for_each(|line| line.truncate(line.len() - mark.len()));
    }
    all
}

/// 0 is a state of a port, a request or hands, and "no state" of a carrier.
fn node(subject: Subject, state: u8) -> Node {
    match subject {
        Subject::Model(model) if model > Model::Tie && model < Model::Alarm && state == 0 => Node::NoRecord,
        _ => Node::State(state),
    }
}

fn check_states(layout: &Layout, words: &Words) -> Result<(), String> {
    let ends = || words.keys().flat_map(|&(from, to)| [from, to]);
    for end in ends() {
        if let Node::State(state) = end {
            if !layout.states.iter().any(|&(placed, _)| placed == state) {
                return Err(format!("{}: state {state} was found but has no place", layout.file));
            }
        }
    }
    match layout.states.iter().find(|&&(placed, _)| !ends().any(|end| end == Node::State(placed))) {
        Some((state, _)) => Err(format!("{}: state {state} has a place but wasn't found", layout.file)),
        None => Ok(()),
    }
}

fn arrow(from: Node, to: Node) -> String {
    let name = |node| match node {
        Node::State(state) => format!("state {state}"),
        Node::NoRecord => "no state".into(),
        Node::SetUp => "set-up".into(),
    };
    format!("{} to {}", name(from), name(to))
}
