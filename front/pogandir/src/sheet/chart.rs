//! The sequence chart of a walk: a lifeline a run, grouped by principal, one for the
//! intruder, and the events from top to bottom.

use std::collections::BTreeMap;

use engine::Role;

use super::events::{events, Act, Event, Lane};
use super::html::{escape, plural};
use super::rows::Row;
use super::svg;
use super::words::owner;
use crate::walk::Walk;

/// A chart of more events is folded.
pub const FOLDED_FROM: usize = 80;

/// Room for times at the left, and for what is written beside the last lifeline.
const MARGIN: usize = 84;
const RIGHT: usize = 76;

/// What the lifelines are spread over, and how far apart they are.
const SPREAD: usize = 988;
const NARROW: usize = 90;
const WIDE: usize = 240;

pub struct Group {
    pub name: String,
    pub bad: bool,
    pub lanes: Vec<Lane>,
}

/// Where everything stands.
pub struct Layout {
    pub groups: Vec<Group>,
    pub between: usize,
    pub width: usize,
    pub height: usize,
    places: BTreeMap<Lane, usize>,
    /// The event at which a run was opened, by its height.
    pub opened: BTreeMap<Lane, usize>,
    /// The top of each event.
    pub tops: Vec<usize>,
}

impl Layout {
    pub fn x(&self, lane: Lane) -> usize {
        let place = self.places.get(&lane).copied().unwrap_or(0);
        MARGIN + self.between * place + self.between / 2
    }

    /// The lifelines of a principal.
    pub fn lanes_of(&self, walk: &Walk, principal: u8) -> Option<&[Lane]> {
        let runs = walk.runs();
        let is_its = |lane: &Lane| match lane {
            Lane::Run(run) => owner(&runs[usize::from(*run)]) == principal,
            Lane::NoRun => principal == 0,
            Lane::Intruder => false,
        };
        let group = self.groups.iter().find(|group| group.lanes.iter().any(is_its))?;
        Some(&group.lanes)
    }
}

/// Initiators to the left, the server, responders, the intruder: by a principal's
/// first run.
fn groups(walk: &Walk, events: &[Event]) -> Vec<Group> {
    let mut found: BTreeMap<(u8, u8), Group> = BTreeMap::new();
    let mut keys: BTreeMap<u8, (u8, u8)> = BTreeMap::new();
    let new = |principal: u8| Group {
        name: walk.names.principal(principal),
        bad: walk.is_bad(principal),
        lanes: Vec::new(),
    };
    for (number, run) in (0..).zip(walk.runs()) {
        let side = match run.role {
            Role::Initiator => 0,
            Role::Server => 1,
            Role::Responder => 2,
        };
        let principal = owner(&run);
        let key = *keys.entry(principal).or_insert((side, number));
        found.entry(key).or_insert_with(|| new(principal)).lanes.push(Lane::Run(number));
    }
    if events.iter().any(|event| matches!(event.act, Act::Takes { to: Lane::NoRun, .. })) {
        let key = *keys.entry(0).or_insert((1, 0));
        found.entry(key).or_insert_with(|| new(0)).lanes.push(Lane::NoRun);
    }
    let intruder = Group { name: "intruder".to_string(), bad: true, lanes: vec![Lane::Intruder] };
    found.into_values().chain([intruder]).collect()
}

fn height(act: &Act) -> usize {
    match act {
        Act::Takes { parts, .. } => 26 * parts.len().max(1),
        Act::Leaks { .. } => 26,
        _ => 22,
    }
}

fn layout(walk: &Walk, events: &[Event]) -> Layout {
    let groups = groups(walk, events);
    let lanes: Vec<Lane> = groups.iter().flat_map(|group| group.lanes.clone()).collect();
    let between = (SPREAD / lanes.len()).clamp(NARROW, WIDE);
    let mut opened = BTreeMap::new();
    let mut tops = Vec::new();
    let mut top = 8;
    for event in events {
        tops.push(top);
        match event.act {
            Act::Opens { run, .. } => drop(opened.insert(Lane::Run(run), top + 13)),
            Act::Takes { to, .. } => drop(opened.entry(to).or_insert(top + 18)),
            _ => {}
        }
        top += height(&event.act);
    }
    Layout {
        between,
        width: MARGIN + between * lanes.len() + RIGHT,
        height: top + 14,
        places: lanes.into_iter().zip(0..).collect(),
        groups,
        opened,
        tops,
    }
}

/// The chart in its fold. It scrolls inside its own box.
pub fn section(walk: &Walk, rows: &[Row]) -> String {
    let events = events(walk, rows);
    if events.is_empty() {
        return String::new();
    }
    let layout = layout(walk, &events);
    let runs = plural(walk.tables.realm.runs, "run");
    let steps = plural(events.len(), "step");
    format!(
        "<details class=\"part\" id=\"chart\"{}><summary>The chart of {steps} and {runs}</summary>\n\
         <div class=\"chart\" tabindex=\"0\" role=\"group\" \
         aria-label=\"{}\">\n{}{}</div></details>\n",
        if events.len() > FOLDED_FROM { "" } else { " open" },
        escape(&format!("Sequence chart of {runs}: {steps}, time goes down")),
        svg::heads(walk, &layout),
        svg::body(walk, &layout, &events),
    )
}
