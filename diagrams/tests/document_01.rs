//! What the search finds is what document 01's rows say, row by row, row 20 with the expected map of request P1, rows 7
//! and 27 to 30 with the queue of request P5, model 8 and rows 31 to 34 of request P7, row 35 of request P8, model 9
//! and row 36 of request P9, and nothing else.
use diagrams::explore::{explore, Found, Kinds};
use diagrams::subject::Subject;
use hawsermole::Model;
use std::collections::{BTreeMap, BTreeSet};
use std::sync::LazyLock;

static FOUND: LazyLock<Found> = LazyLock::new(explore);

/// The changes that each row brings to a tool that runs reach, as `model old>new`, those of a request as `out old>new`,
/// those of alarm and held pod together as `hands old>new`; a row that brings none is left out (Open).
const ROWS: [(u32, &str); 35] = [
    (1, "3 0>1, 4 0>1, 5 0>1, 6 0>1, 7 0>1, 8 0>2"),
    (2, "3 1>0, 4 1>0, 5 1>0, 6 1>0, 7 1>0, 8 2>0"),
    (3, "5 0>1, 6 0>1, 7 0>1, 8 0>2"),
    (4, "5 1>0, 6 1>0, 7 1>0, 8 2>0"),
    (5, "4 0>1, 5 0>3, 5 1>3, 5 2>3, 6 0>1, 6 2>3, 7 0>1, 8 0>2"),
    (
        6,
        "1 3>2, 4 0>1, 5 0>4, 5 1>4, 5 2>4, 6 0>1, 6 2>4, 7 0>1, \
         8 0>2, 8 2>1, 8 2>3, 8 3>4, 8 4>6, 8 5>6, out 1>0",
    ),
    (7, "out 0>1"),
    (8, "1 2>3"),
    (9, "2 0>1, 2 1>0"),
    (10, "1 0>1, 1 1>0"),
    (11, "3 0>1"),
    (12, "3 1>0"),
    (13, "1 1>3, 3 1>0, 9 0>1, hands 0>1"),
    (14, "hands 1>2"),
    (15, "1 3>1, 9 1>0, hands 1>0, hands 2>0"),
    (16, "4 0>1, 4 1>1, 5 0>2, 5 1>0, 5 1>2, 5 1>3, 6 0>1, 6 1>0, 7 0>1, 7 1>0, 8 0>2, 8 2>0"),
    (17, "5 1>2"),
    (18, "1 3>1, 4 1>0, 9 1>0, hands 1>0"),
    (20, "6 1>2, 6 1>3"),
    (21, "7 1>2, 8 2>1, 8 2>3"),
    (22, "7 2>3, 7 2>4"),
    (23, "1 3>2, 8 4>6, 8 5>6"),
    (24, "1 2>3, 9 0>1, hands 0>1"),
    (
        25,
        "1 3>1, 4 1>0, 5 3>0, 5 4>0, 6 1>0, 6 2>0, 6 3>0, 6 4>0, 7 1>0, 7 3>0, 7 4>0, \
         8 1>0, 8 3>0, 8 4>0, 8 5>0, 8 6>0, 9 1>0, hands 1>0",
    ),
    (26, "1 3>2, 8 4>6, 8 5>6"),
    (27, "3 0>1, out 1>2"),
    (28, "1 1>2, 3 1>0, 4 0>1, out 2>0"),
    (29, "out 1>0"),
    (30, "out 1>0"),
    (31, JUDGED),
    (32, JUDGED),
    (33, JUDGED),
    (34, JUDGED),
    (35, JUDGED),
    (36, "9 1>0, hands 2>0"),
];

/// Each input that brings the clock judges all carriers, and completes those whose port is READY TO UNLOAD.
const JUDGED: &str = "8 3>4, 8 3>5, 8 4>5, 8 4>6, 8 5>6";

fn by_row(found: &Found) -> BTreeMap<u32, BTreeSet<String>> {
    let mut rows: BTreeMap<u32, BTreeSet<String>> = BTreeMap::new();
    for (edge, causes) in &found.edges {
        for cause in causes.keys() {
            let change = format!("{} {}>{}", edge.of.short(), edge.old, edge.new);
            rows.entry(cause.number).or_default().insert(change);
        }
    }
    rows
}

#[test]
fn every_row_brings_the_changes_of_document_01() {
    let found = by_row(&FOUND);
    let written = ROWS.map(|(row, changes)| (row, changes.split(", ").map(String::from).collect()));
    assert_eq!(found, BTreeMap::from(written));
}

/// The choices stand with the transition that they bring.
#[test]
fn choices_lead_where_document_01_says() {
    let found = &*FOUND;
    let lead = |number| {
        let causes =
            found.edges.iter().flat_map(|(edge, causes)| causes.keys().map(move |cause| (edge, cause)));
        let of_row = causes.filter(move |(_, cause)| cause.number == number);
        of_row.map(|(edge, cause)| (edge.old, edge.new, cause.choice)).collect::<Vec<_>>()
    };
    assert_eq!(lead(9), [(0, 1, Some(1)), (1, 0, Some(0))]);
    assert_eq!(lead(10), [(0, 1, Some(1)), (1, 0, Some(0))]);
    assert_eq!(lead(22), [(2, 3, Some(0)), (2, 4, Some(1))]);
    assert_eq!(lead(20), [(1, 2, Some(0)), (1, 3, Some(1))]);
    assert_eq!(lead(11), [(0, 1, None)]);
    // Who starts is told of the alarm, in model 9 and beside the held pod, and of nothing else.
    assert_eq!(lead(24), [(2, 3, None), (0, 1, Some(0)), (0, 1, Some(0))]);
    assert_eq!(lead(36), [(1, 0, None), (2, 0, None)]);
}

/// A tool without a buffer queues nothing: "provided the carrier .. is in the buffer".
#[test]
fn requests_are_of_tools_with_a_buffer() {
    let of_requests = FOUND.edges.iter().filter(|(edge, _)| edge.of == Subject::Request);
    let kinds: Vec<&Kinds> = of_requests.flat_map(|(_, causes)| causes.values()).collect();
    assert!(!kinds.is_empty());
    assert!(kinds.iter().all(|kinds| kinds.internal && !kinds.fixed));
}

/// "for fixed buffer tools, as model 8".
#[test]
fn predictions_are_of_tools_without_a_buffer() {
    let of_model = FOUND.edges.iter().filter(|(edge, _)| edge.of == Subject::Model(Model::Prediction));
    let kinds: Vec<&Kinds> = of_model.flat_map(|(_, causes)| causes.values()).collect();
    assert!(!kinds.is_empty());
    assert!(kinds.iter().all(|kinds| kinds.fixed && !kinds.internal));
}

/// A pod is held in both kinds of tool, and its alarm ends with MoveIn where there is a buffer.
#[test]
fn hands_are_of_both_kinds_of_tool() {
    let of_hands = FOUND.edges.iter().filter(|(edge, _)| edge.of == Subject::Hands);
    let causes: Vec<(u32, Kinds)> =
        of_hands.flat_map(|(_, causes)| causes.iter().map(|(cause, kinds)| (cause.number, *kinds))).collect();
    assert_eq!(causes.len(), 8);
    assert!(causes.iter().all(|(number, kinds)| kinds.internal && kinds.fixed == (*number != 18)));
}

/// "At set-up: 1, 0, 0, no tie", for transfer, access, reservation and tie; no alarm is on, and nothing is queued.
#[test]
fn ports_begin_as_document_01_says() {
    let first: Vec<(String, u8)> =
        FOUND.first.iter().map(|&(subject, state)| (subject.short(), state)).collect();
    let written = [("1", 1), ("2", 0), ("3", 0), ("4", 0), ("9", 0), ("out", 0), ("hands", 0)];
    assert_eq!(first, written.map(|(subject, state)| (subject.into(), state)));
}
