//! *Verify the pod before you open it.* SEMI E87 carrier management for small controllers inside wafer tools:
//! load ports, pods and the buffer, one input at a time, no heap.
//!
//! The machine itself is an archive, `libhawsermole.a`, proved to give exactly the answer, the state and the
//! reports that document 01 lays down, with document 02's requests P1, P3 to P11 and P13. This crate wraps it: an
//! [`Input`] has the documents' name and arguments, a [`Refusal`] is one of their reasons, [`Reports`] gives what
//! changed and [`Event`] which transitions of E87 that is, an [`ExpectedMap`] lets the tool judge a slot map that the
//! host knows beforehand, [`Name::in_text`] tells which name a tag reader's text has without the blanks at its end,
//! [`Tool::requests`] are the requests of CarrierOut that wait for their port, [`Tool::predictions`] tell when carriers
//! are ready to unload, [`Tool::hands`] where somebody put a hand on a port in AUTO, [`Tool::secs_step`] takes a host's
//! S3F17 as it came, and [`Tool::secs_exchange`] writes the S3F18 that answers it, too. [`states`] has every state by
//! E87's word.
//!
//! ```
//! use hawsermole::{Input, Model, Refusal, Subject, Tool};
//!
//! let mut tool = Tool::setup(2, 0)?;
//! tool.step(&Input::Bind { port: 1, name: b"AB" })?;
//!
//! // The port is no longer READY TO LOAD once the pod starts to arrive, and its reservation ends.
//! let reports = tool.step(&Input::LoadStart { port: 1, start: 0 })?;
//! let models: Vec<Model> = reports.map(|report| report.model).collect();
//! assert_eq!(models, [Model::Transfer, Model::Reservation]);
//!
//! // Nothing opens before it is verified.
//! tool.step(&Input::LoadDone { port: 1 })?;
//! tool.step(&Input::IdRead { port: 1, name: b"AC" })?;
//! assert_eq!(tool.step(&Input::Open { name: b"AC" }), Err(Refusal::NotVerified));
//!
//! // The host accepts the ID that was read: now it may.
//! let mut reports = tool.step(&Input::ProceedWithCarrier { name: b"AC", port: 0 })?;
//! let report = reports.next().unwrap();
//! assert_eq!((report.model, report.old, report.new), (Model::Id, 2, 3));
//! assert!(matches!(report.subject, Subject::Carrier(name) if name.as_bytes() == b"AC"));
//! assert!(tool.step(&Input::Open { name: b"AC" }).is_ok());
//! # Ok::<(), Refusal>(())
//! ```
//!
//! The log of another maker's tool is judged by document 01 as it stands before any request: [`judge()`] (request P14).
//!
//! An operator panel asks every frame whether some carrier waits for the host: [`Tool::waiting`], or [`waiting`] for a
//! table of records (document 02's request P2). Logistics counts the pods that came in and went out by inputs and
//! answers: [`Pods`] (request P11).
//!
//! No input is too odd: numbers are 32 bits and are not cut, names, codes and messages may be any bytes of any length,
//! a [`Wafer`] may have any times, NaN too, and a [`Tool`] may be made of any bytes. A refusal leaves the tool as it
//! was.
//!
//! The archive is for one target (x86-64 Linux, unless yours was built for another). It needs `memcpy`, `memset` and
//! `memcmp` at most, and some stack: `include/hawsermole.h` gives the figure as `HM_STACK_BYTES`.
#![no_std]
#![deny(missing_docs, unsafe_op_in_unsafe_fn)]

#[cfg(test)]
extern crate std;

mod event;
mod hands;
mod input;
mod judge;
mod machine;
mod map;
mod name;
mod pods;
mod prediction;
pub mod raw;
mod refusal;
mod reply;
mod report;
mod request;
mod row;
pub mod states;
mod tool;
mod wafer;
mod waiting;
pub mod words;

pub use event::{Event, EVENTS};
pub use hands::Hands;
pub use input::{Input, Parts};
pub use judge::{judge, LogRefusal, Verdict};
pub use map::{ExpectedMap, MapError};
pub use name::{Name, NameError, NAME_BYTES, TEXT_BYTES};
pub use pods::Pods;
pub use prediction::{Prediction, SECONDS_MOST};
pub use raw::{secs_at, CARRIER_BYTES, REPORTS_BYTES, TOOL_01_BYTES, TOOL_BYTES};
pub use refusal::Refusal;
pub use reply::{reply, Exchanged, REPLY_ROOM};
pub use report::{Model, Report, Reports, Subject, REPORTS};
pub use request::{Request, REQUESTS};
pub use row::{Argument, Row, ROWS};
pub use tool::{Bridged, Carrier, Port, Tool, PORTS, RECORDS, SECS_DEPTH, SECS_ITEMS, SLOTS};
pub use wafer::{Wafer, WAFERS};
pub use waiting::{waiting, Waiting};

/// The manual's Rust is tested with this crate's own examples.
#[cfg(doctest)]
#[doc = include_str!("../../docs/MANUAL.md")]
struct Manual;
