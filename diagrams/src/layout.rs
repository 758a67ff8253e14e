//! Where each state stands and which way each transition goes: the only part of a picture that is made by hand.
//!
//! Which states and transitions there are, and the words on them, come from the search.
//! [`plan`](crate::plan) fails where the two don't meet, in either direction.
use crate::subject::{Subject, ALARM, HELD, NO_ALARM, NO_REQUEST, QUEUED, STARTED};
use hawsermole::Model;

/// An end of a transition. `NoRecord` and `SetUp` are drawn as small dots, one for each transition.
#[derive(Clone, Copy, Debug, PartialEq, Eq, PartialOrd, Ord)]
pub enum Node {
    State(u8),
    /// The carrier has no record: it is made, or it goes.
    NoRecord,
    /// The port as set-up gives it.
    SetUp,
}

pub type Point = (i32, i32);

/// Where a label's lines begin, end or have their middle.
#[derive(Clone, Copy, Debug, PartialEq, Eq)]
pub enum Side {
    Start,
    Middle,
    End,
}

/// The way of a transition from border to border, and its label: a point at half the label's height.
#[derive(Clone, Copy, Debug)]
pub struct Route {
    pub from: Node,
    pub to: Node,
    pub way: &'static [Point],
    pub label: Point,
    pub side: Side,
}

#[derive(Clone, Copy, Debug)]
pub struct Layout {
    pub file: &'static str,
    pub of: Subject,
    pub height: i32,
    pub box_width: i32,
    /// A state and the middle of its box.
    pub states: &'static [(u8, Point)],
    pub routes: &'static [Route],
}

/// Every picture is as wide as the text of an A4 page.
pub const WIDTH: i32 = 680;
pub const BOX_HEIGHT: i32 = 44;

use Node::{NoRecord, SetUp, State};
use Side::{End, Middle, Start};

const fn route(from: Node, to: Node, way: &'static [Point], label: Point, side: Side) -> Route {
    Route { from, to, way, label, side }
}

pub const LAYOUTS: [Layout; 10] =
    [TRANSFER, ACCESS, RESERVATION, TIE, ID, SLOT, ACCESSING, PREDICTION, REQUEST, HANDS];

const TRANSFER: Layout = Layout {
    file: "transfer.svg",
    of: Subject::Model(Model::Transfer),
    height: 400,
    box_width: 170,
    states: &[(0, (215, 40)), (1, (215, 180)), (2, (520, 370)), (3, (520, 180))],
    routes: &[
        route(SetUp, State(1), &[(80, 180), (130, 180)], (70, 180), End),
        route(State(1), State(0), &[(235, 158), (235, 62)], (227, 110), End),
        route(State(0), State(1), &[(280, 62), (280, 158)], (288, 110), Start),
        route(State(1), State(3), &[(300, 170), (435, 170)], (367, 156), Middle),
        route(State(3), State(1), &[(435, 190), (300, 190)], (367, 222), Middle),
        route(State(1), State(2), &[(215, 202), (215, 370), (435, 370)], (325, 358), Middle),
        route(State(2), State(3), &[(475, 348), (475, 202)], (467, 290), End),
        route(State(3), State(2), &[(535, 202), (535, 348)], (543, 275), Start),
    ],
};

const ACCESS: Layout = Layout {
    file: "access_mode.svg",
    of: Subject::Model(Model::Access),
    height: 90,
    box_width: 170,
    states: &[(0, (170, 45)), (1, (585, 45))],
    routes: &[
        route(SetUp, State(0), &[(58, 45), (85, 45)], (48, 45), End),
        route(State(0), State(1), &[(255, 35), (500, 35)], (377, 21), Middle),
        route(State(1), State(0), &[(500, 55), (255, 55)], (377, 71), Middle),
    ],
};

const RESERVATION: Layout = Layout {
    file: "reservation.svg",
    of: Subject::Model(Model::Reservation),
    height: 170,
    box_width: 170,
    states: &[(0, (200, 70)), (1, (565, 70))],
    routes: &[
        route(SetUp, State(0), &[(65, 70), (115, 70)], (55, 70), End),
        route(State(0), State(1), &[(285, 60), (480, 60)], (382, 30), Middle),
        route(State(1), State(0), &[(480, 80), (285, 80)], (382, 130), Middle),
    ],
};

const TIE: Layout = Layout {
    file: "tie.svg",
    of: Subject::Model(Model::Tie),
    height: 205,
    box_width: 170,
    states: &[(0, (180, 125)), (1, (530, 125))],
    routes: &[
        route(SetUp, State(0), &[(65, 125), (95, 125)], (55, 125), End),
        route(State(0), State(1), &[(265, 115), (445, 115)], (355, 55), Middle),
        route(State(1), State(0), &[(445, 135), (265, 135)], (355, 177), Middle),
        route(State(1), State(1), &[(560, 103), (560, 70), (600, 70), (600, 103)], (580, 58), Middle),
    ],
};

const ID: Layout = Layout {
    file: "id.svg",
    of: Subject::Model(Model::Id),
    height: 510,
    box_width: 170,
    states: &[(1, (340, 112)), (2, (340, 240)), (3, (130, 385)), (4, (550, 385))],
    routes: &[
        route(NoRecord, State(1), &[(305, 25), (305, 90)], (295, 54), End),
        route(State(1), NoRecord, &[(375, 90), (375, 25)], (385, 54), Start),
        route(State(1), State(2), &[(340, 134), (340, 218)], (348, 176), Start),
        route(State(1), State(3), &[(255, 112), (90, 112), (90, 363)], (98, 176), Start),
        route(State(1), State(4), &[(425, 112), (590, 112), (590, 363)], (582, 138), End),
        route(State(2), State(3), &[(255, 240), (170, 240), (170, 363)], (178, 302), Start),
        route(State(2), State(4), &[(425, 240), (510, 240), (510, 363)], (502, 302), End),
        route(NoRecord, State(2), &[(340, 330), (340, 262)], (340, 348), Middle),
        route(NoRecord, State(3), &[(90, 470), (90, 407)], (90, 488), Middle),
        route(State(3), NoRecord, &[(170, 407), (170, 470)], (178, 438), Start),
        route(NoRecord, State(4), &[(590, 470), (590, 407)], (590, 488), Middle),
        route(State(4), NoRecord, &[(510, 407), (510, 470)], (502, 438), End),
    ],
};

const SLOT: Layout = Layout {
    file: "slot_map.svg",
    of: Subject::Model(Model::Slot),
    height: 500,
    box_width: 196,
    states: &[(1, (340, 127)), (2, (340, 255)), (3, (130, 400)), (4, (550, 400))],
    routes: &[
        route(NoRecord, State(1), &[(305, 25), (305, 105)], (295, 56), End),
        route(State(1), NoRecord, &[(375, 105), (375, 25)], (385, 56), Start),
        route(State(1), State(2), &[(340, 149), (340, 233)], (348, 191), Start),
        route(State(1), State(3), &[(242, 127), (90, 127), (90, 378)], (98, 191), Start),
        route(State(2), State(3), &[(242, 255), (150, 255), (150, 378)], (158, 317), Start),
        route(State(2), State(4), &[(438, 255), (550, 255), (550, 378)], (542, 317), End),
        route(State(2), NoRecord, &[(340, 277), (340, 345)], (340, 365), Middle),
        route(State(3), NoRecord, &[(130, 422), (130, 485)], (138, 453), Start),
        route(State(4), NoRecord, &[(550, 422), (550, 485)], (542, 453), End),
    ],
};

const ACCESSING: Layout = Layout {
    file: "accessing.svg",
    of: Subject::Model(Model::Accessing),
    height: 500,
    box_width: 170,
    states: &[(1, (340, 127)), (2, (340, 255)), (3, (130, 400)), (4, (550, 400))],
    routes: &[
        route(NoRecord, State(1), &[(305, 25), (305, 105)], (295, 56), End),
        route(State(1), NoRecord, &[(375, 105), (375, 25)], (385, 56), Start),
        route(State(1), State(2), &[(340, 149), (340, 233)], (348, 191), Start),
        route(State(2), State(3), &[(255, 255), (130, 255), (130, 378)], (138, 317), Start),
        route(State(2), State(4), &[(425, 255), (550, 255), (550, 378)], (542, 317), End),
        route(State(3), NoRecord, &[(130, 422), (130, 485)], (138, 453), Start),
        route(State(4), NoRecord, &[(550, 422), (550, 485)], (542, 453), End),
    ],
};

const PREDICTION: Layout = Layout {
    file: "prediction.svg",
    of: Subject::Model(Model::Prediction),
    height: 622,
    box_width: 152,
    states: &[
        (2, (340, 122)),
        (1, (86, 240)),
        (3, (340, 240)),
        (4, (150, 396)),
        (5, (530, 396)),
        (6, (340, 557)),
    ],
    routes: &[
        route(NoRecord, State(2), &[(305, 22), (305, 100)], (295, 52), End),
        route(State(2), NoRecord, &[(375, 100), (375, 22)], (385, 52), Start),
        route(State(2), State(1), &[(264, 122), (60, 122), (60, 218)], (68, 170), Start),
        route(State(1), NoRecord, &[(60, 262), (60, 310)], (70, 294), Start),
        route(State(2), State(3), &[(325, 144), (325, 218)], (333, 181), Start),
        route(State(3), NoRecord, &[(416, 230), (490, 230)], (502, 230), Start),
        route(State(3), State(4), &[(264, 240), (190, 240), (190, 374)], (198, 318), Start),
        route(State(3), State(5), &[(416, 250), (490, 250), (490, 374)], (482, 318), End),
        route(State(4), State(5), &[(226, 396), (454, 396)], (340, 444), Middle),
        route(State(4), NoRecord, &[(74, 396), (24, 396)], (58, 360), Middle),
        route(State(5), NoRecord, &[(606, 396), (656, 396)], (622, 360), Middle),
        route(State(4), State(6), &[(120, 418), (120, 557), (264, 557)], (128, 487), Start),
        route(State(5), State(6), &[(560, 418), (560, 557), (416, 557)], (552, 487), End),
        route(State(6), NoRecord, &[(340, 579), (340, 612)], (352, 604), Start),
    ],
};

const REQUEST: Layout = Layout {
    file: "queue.svg",
    of: Subject::Request,
    height: 165,
    box_width: 100,
    states: &[(NO_REQUEST, (135, 42)), (QUEUED, (415, 42)), (STARTED, (615, 42))],
    routes: &[
        route(SetUp, State(NO_REQUEST), &[(65, 42), (85, 42)], (55, 42), End),
        route(State(NO_REQUEST), State(QUEUED), &[(185, 32), (365, 32)], (275, 18), Middle),
        route(State(QUEUED), State(NO_REQUEST), &[(365, 52), (185, 52)], (275, 84), Middle),
        route(State(QUEUED), State(STARTED), &[(465, 42), (565, 42)], (515, 28), Middle),
        route(
            State(STARTED),
            State(NO_REQUEST),
            &[(615, 64), (615, 150), (135, 150), (135, 64)],
            (375, 136),
            Middle,
        ),
    ],
};

const HANDS: Layout = Layout {
    file: "hands.svg",
    of: Subject::Hands,
    height: 180,
    box_width: 100,
    states: &[(NO_ALARM, (140, 75)), (ALARM, (395, 75)), (HELD, (600, 75))],
    routes: &[
        route(SetUp, State(NO_ALARM), &[(70, 75), (90, 75)], (60, 75), End),
        route(State(NO_ALARM), State(ALARM), &[(190, 65), (345, 65)], (267, 30), Middle),
        route(State(ALARM), State(NO_ALARM), &[(345, 85), (190, 85)], (267, 118), Middle),
        route(State(ALARM), State(HELD), &[(445, 75), (550, 75)], (497, 61), Middle),
        route(
            State(HELD),
            State(NO_ALARM),
            &[(600, 97), (600, 165), (140, 165), (140, 97)],
            (440, 143),
            Middle,
        ),
    ],
};
