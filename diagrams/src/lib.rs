//! The state models of document 01, the life of a CarrierOut request and hands on an AUTO port as pictures, found by
//! running the proved machine: [`explore`] finds every transition that a run from set-up can cause, [`layout`] says
//! where things stand, [`plan`] joins the two, [`shape`] sees that nothing lies on anything else, and [`svg`] writes.
//! [`subject`] has what a picture may be of. [`timeline`] draws what a prediction is when. [`walk`] makes tables of
//! played scripts. [`events`] holds the standard's numbers of all reports to what [`explore`] found; [`card`] is for
//! the pocket.
#![forbid(unsafe_code)]

pub mod card;
pub mod events;
pub mod explore;
pub mod layout;
pub mod plan;
pub mod shape;
pub mod subject;
pub mod svg;
pub mod text;
pub mod timeline;
pub mod walk;

/// Every picture: its file's name and what the file holds.
pub fn pictures(found: &explore::Found) -> Result<Vec<(&'static str, String)>, String> {
    let picture = |layout: &layout::Layout| {
        let plan = plan::plan(layout, found)?;
        shape::check(&plan)?;
        Ok((layout.file, svg::svg(&plan)))
    };
    let mut all: Vec<_> = layout::LAYOUTS.iter().map(picture).collect::<Result<_, String>>()?;
    all.push((timeline::FILE, timeline::svg()?));
    Ok(all)
}

/// The card, and the files that are made from `docs/events.tsv`: each path from the root, and what the file holds.
pub fn made(root: &std::path::Path, found: &explore::Found) -> Result<Vec<(&'static str, String)>, String> {
    let read =
        |file: &str| std::fs::read_to_string(root.join(file)).map_err(|error| format!("{file}: {error}"));
    let lines = events::read(&read("docs/events.tsv")?)?;
    events::check(&lines, found)?;
    let page = events::page(&lines, &read("docs/EVENTS.md")?)?;
    Ok(vec![
        ("include/hawsermole_events.h", events::c(&lines)),
        ("rust/src/event/table.rs", events::rust(&lines)),
        ("docs/EVENTS.md", page),
        ("docs/CARD.md", card::card()),
    ])
}

/// The manual's Rust, compiled and run as a doc test.
#[cfg(doctest)]
#[doc = include_str!("../../docs/MANUAL.md")]
pub struct Manual;
