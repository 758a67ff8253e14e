//! A picture fails where the search and the layout don't meet, or where a reader couldn't tell its parts apart.
use diagrams::explore::{Cause, Edge, Found, Kinds};
use diagrams::layout::{Layout, Node, Point, Route, Side};
use diagrams::plan::plan;
use diagrams::shape::check;
use diagrams::subject::{Subject, NO_REQUEST, QUEUED};
use diagrams::svg::svg;
use hawsermole::Model;
use std::collections::BTreeMap;

const OUT: Route = way(Node::State(0), Node::State(1), &[(185, 50), (375, 50)], (280, 30));
const BACK: Route = way(Node::State(1), Node::State(0), &[(375, 60), (185, 60)], (280, 80));
const SETUP: Route = way(Node::SetUp, Node::State(0), &[(100, 150), (100, 77)], (150, 130));
const STATES: &[(u8, Point)] = &[(0, (100, 55)), (1, (460, 55))];

const fn way(from: Node, to: Node, way: &'static [Point], label: Point) -> Route {
    Route { from, to, way, label, side: Side::Middle }
}

fn layout(states: &'static [(u8, Point)], routes: &[Route]) -> Layout {
    let routes = Box::leak(routes.to_vec().into_boxed_slice());
    let of = Subject::Model(Model::Access);
    Layout { file: "access.svg", of, height: 160, box_width: 170, states, routes }
}

/// The access mode as it is: ChangeAccess leads either way.
fn found(edges: &[(u8, u8)]) -> Found {
    let causes =
        BTreeMap::from([(Cause { number: 9, choice: Some(1) }, Kinds { fixed: true, internal: true })]);
    let of = Subject::Model(Model::Access);
    let edge = |&(old, new): &(u8, u8)| (Edge { of, old, new }, causes.clone());
    Found { first: [(of, 0)].into(), edges: edges.iter().map(edge).collect(), tools: 1 }
}

fn trouble(states: &'static [(u8, Point)], routes: &[Route], edges: &[(u8, u8)]) -> String {
    let plan = plan(&layout(states, routes), &found(edges));
    plan.and_then(|plan| check(&plan)).unwrap_err()
}

#[test]
fn what_meets_is_drawn() {
    let plan = plan(&layout(STATES, &[SETUP, OUT, BACK]), &found(&[(0, 1), (1, 0)])).unwrap();
    check(&plan).unwrap();
    let text = svg(&plan);
    for part in [
        ">MANUAL</text>",
        ">AUTO</text>",
        ">set-up</text>",
        ">ChangeAccess: AUTO #2</text>",
        "M185 50L375 50",
    ] {
        assert!(text.contains(part), "{part}");
    }
    assert!(text.starts_with("<svg ") && text.ends_with("</svg>\n"));
}

/// A request has neither numbers of its states nor a table in the standard.
#[test]
fn a_request_is_drawn_without_numbers() {
    let causes =
        BTreeMap::from([(Cause { number: 7, choice: None }, Kinds { fixed: false, internal: true })]);
    let edge = Edge { of: Subject::Request, old: NO_REQUEST, new: QUEUED };
    let found = Found { first: [].into(), edges: [(edge, causes)].into(), tools: 1 };
    let plan = plan(&Layout { of: Subject::Request, ..layout(STATES, &[OUT]) }, &found).unwrap();
    check(&plan).unwrap();
    let text = svg(&plan);
    for part in [">no request</text>", ">queued</text>", ">CarrierOut (I)</text>", ">(I)</text>"] {
        assert!(text.contains(part), "{part}");
    }
    assert!(!text.contains(">0</text>") && !text.contains("the standard"));
}

/// A model that fixed buffer tools alone have says so once, and not at each input.
#[test]
fn what_every_input_has_is_told_once() {
    let of = Subject::Model(Model::Access);
    let alone = Kinds { fixed: true, internal: false };
    let edges = |second: Kinds| {
        let edge = |old, new, kinds| {
            (Edge { of, old, new }, BTreeMap::from([(Cause { number: 9, choice: Some(1) }, kinds)]))
        };
        Found { first: [].into(), edges: [edge(0, 1, alone), edge(1, 0, second)].into(), tools: 1 }
    };
    let drawn = |second| svg(&plan(&layout(STATES, &[OUT, BACK]), &edges(second)).unwrap());
    let once = drawn(alone);
    assert!(once.contains(">all of it in a fixed buffer tool alone</text>") && !once.contains("(F)"));
    let marked = drawn(Kinds { fixed: true, internal: true });
    assert!(marked.contains(">ChangeAccess: AUTO #2 (F)</text>") && !marked.contains("all of it"));
}

#[test]
fn a_transition_without_a_way_is_told() {
    let told = trouble(STATES, &[SETUP, OUT], &[(0, 1), (1, 0)]);
    assert_eq!(told, "access.svg: state 1 to state 0 was found but has no way");
}

#[test]
fn a_way_without_a_transition_is_told() {
    let told = trouble(STATES, &[SETUP, OUT, BACK], &[(0, 1)]);
    assert_eq!(told, "access.svg: state 1 to state 0 has a way but wasn't found");
}

#[test]
fn states_are_foreseen_and_found() {
    let told = trouble(&STATES[..1], &[SETUP, OUT], &[(0, 1)]);
    assert_eq!(told, "access.svg: state 1 was found but has no place");
    let told = trouble(STATES, &[SETUP], &[]);
    assert_eq!(told, "access.svg: state 1 has a place but wasn't found");
}

#[test]
fn things_that_lie_on_each_other_are_told() {
    let moved = |label| Route { label, ..BACK };
    let told = |route| trouble(STATES, &[SETUP, OUT, route], &[(0, 1), (1, 0)]);
    let label = "access.svg: the label of ChangeAccess: AUTO #3 lies";
    assert_eq!(told(moved((280, 54))), format!("{label} on the line of ChangeAccess: AUTO #2"));
    assert_eq!(told(moved((280, 20))), format!("{label} on the label of ChangeAccess: AUTO #2"));
    assert_eq!(told(moved((480, 60))), format!("{label} on the box of state 1"));
    assert_eq!(told(moved((100, 95))), format!("{label} on the line of set-up"));
    assert_eq!(told(moved((30, 130))), format!("{label} outside the picture"));
    assert_eq!(told(moved((460, 155))), format!("{label} outside the picture"));
}

#[test]
fn ways_run_straight_and_from_box_to_box() {
    let told = |way| trouble(STATES, &[SETUP, OUT, Route { way, ..BACK }], &[(0, 1), (1, 0)]);
    let start = "access.svg: the way State(1) to State(0)";
    assert_eq!(told(&[(375, 60), (185, 65)]), format!("{start} has a slanting part"));
    assert_eq!(
        told(&[(375, 60), (190, 60)]),
        format!("{start} doesn't begin or end on the border of its box")
    );
    assert_eq!(
        told(&[(380, 60), (185, 60)]),
        format!("{start} doesn't begin or end on the border of its box")
    );
    assert_eq!(told(&[(375, 60)]), format!("{start} has less than two points"));
    let crossed = told(&[(460, 77), (460, 100), (280, 100), (280, 15), (100, 15), (100, 33)]);
    assert_eq!(
        crossed,
        "access.svg: the line of ChangeAccess: AUTO #3 lies on the line of ChangeAccess: AUTO #2"
    );
}

#[test]
fn words_fit_their_boxes() {
    let narrow = Layout { box_width: 60, ..layout(STATES, &[SETUP, OUT, BACK]) };
    let plan = plan(&narrow, &found(&[(0, 1), (1, 0)])).unwrap();
    assert_eq!(check(&plan).unwrap_err(), "access.svg: the box of state 0 is too small for its words");
}
