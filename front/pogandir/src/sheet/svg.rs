//! The chart drawn: the boxes on top, which stay in sight, and the lifelines with
//! the events under them.

use super::chart::{Group, Layout};
use super::events::{Act, Event, Lane, Note, Part};
use super::html::escape;
use crate::answers::role;
use crate::walk::Walk;

const HEAD: usize = 56;

/// Letters that fit into so many pixels.
fn cut_to(text: &str, pixels: usize) -> String {
    let most = pixels / 7;
    if text.chars().count() <= most {
        return escape(text);
    }
    let kept: String = text.chars().take(most.saturating_sub(1)).collect();
    format!("{}…", escape(&kept))
}

fn id(lane: Lane) -> String {
    match lane {
        Lane::Run(run) => format!("run-{run}"),
        Lane::NoRun => "server".to_string(),
        Lane::Intruder => "intruder".to_string(),
    }
}

pub fn heads(walk: &Walk, layout: &Layout) -> String {
    let groups: String = layout.groups.iter().map(|group| head(walk, layout, group)).collect();
    format!(
        "<svg class=\"heads\" width=\"{0}\" height=\"{HEAD}\" viewBox=\"0 0 {0} {HEAD}\" \
         preserveAspectRatio=\"xMinYMin\">\n\
         {groups}</svg>\n",
        layout.width
    )
}

/// A box for the principal, and in it one for each run.
fn head(walk: &Walk, layout: &Layout, group: &Group) -> String {
    let half = layout.between / 2 - 4;
    let first = layout.x(group.lanes[0]) - half;
    let width = layout.x(group.lanes[group.lanes.len() - 1]) + half - first;
    let class = if group.bad { "head bad" } else { "head" };
    let bad = if group.bad && group.lanes[0] != Lane::Intruder { ", bad" } else { "" };
    let name = format!("{}{bad}", group.name);
    let lanes: String = group.lanes.iter().map(|&lane| lane_head(walk, layout, lane)).collect();
    format!(
        "<g class=\"{class}\"><title>{}</title><rect x=\"{first}\" y=\"2\" width=\"{width}\" \
         height=\"{}\" rx=\"5\"/><text x=\"{}\" y=\"18\" class=\"who\">{}</text>{lanes}</g>\n",
        escape(&name),
        HEAD - 4,
        first + width / 2,
        cut_to(&name, width * 7 / 8),
    )
}

fn lane_head(walk: &Walk, layout: &Layout, lane: Lane) -> String {
    let (name, told) = match lane {
        Lane::Run(run) => {
            let row = walk.runs()[usize::from(run)];
            (walk.names.run(run), role(row.role))
        }
        Lane::NoRun => ("no run".to_string(), "refused"),
        Lane::Intruder => return String::new(),
    };
    let x = layout.x(lane);
    format!(
        "<text x=\"{x}\" y=\"33\">{}</text><text x=\"{x}\" y=\"46\" class=\"quiet\">{told}</text>",
        cut_to(&name, layout.between - 8)
    )
}

pub fn body(walk: &Walk, layout: &Layout, events: &[Event]) -> String {
    let lanes = layout.groups.iter().flat_map(|group| &group.lanes);
    let lifelines: String = lanes.map(|&lane| lifeline(layout, lane)).collect();
    let drawn = events.iter().zip(&layout.tops).map(|(event, &top)| draw(walk, layout, event, top));
    format!(
        "<svg class=\"steps\" width=\"{0}\" height=\"{1}\" viewBox=\"0 0 {0} {1}\">\n\
         <defs><marker id=\"tip\" viewBox=\"0 0 8 8\" refX=\"8\" refY=\"4\" markerWidth=\"8\" \
         markerHeight=\"8\" orient=\"auto\"><path d=\"M0 0L8 4L0 8Z\"/></marker>\
         <marker id=\"tip-warned\" viewBox=\"0 0 8 8\" refX=\"8\" refY=\"4\" markerWidth=\"8\" \
         markerHeight=\"8\" orient=\"auto\"><path class=\"warned\" d=\"M0 0L8 4L0 8Z\"/></marker>\
         </defs>\n{lifelines}{2}</svg>\n",
        layout.width,
        layout.height,
        drawn.collect::<String>(),
    )
}

/// Dotted before the run is opened.
fn lifeline(layout: &Layout, lane: Lane) -> String {
    let x = layout.x(lane);
    let opened = layout.opened.get(&lane).copied().unwrap_or(0);
    let class = if lane == Lane::Intruder { "life bad" } else { "life" };
    let before = match lane {
        Lane::Run(_) => format!("<path class=\"life unborn\" d=\"M{x} 0V{opened}\"/>"),
        _ => String::new(),
    };
    let from = if lane == Lane::Intruder { 0 } else { opened };
    format!("{before}<path class=\"{class}\" d=\"M{x} {from}V{}\"/>\n", layout.height)
}

fn draw(walk: &Walk, layout: &Layout, event: &Event, top: usize) -> String {
    let drawn = match &event.act {
        Act::Opens { run, name } => {
            let x = layout.x(Lane::Run(*run));
            let label = text(x + 8, top + 17, "start", name, event);
            format!("<circle class=\"opens\" cx=\"{x}\" cy=\"{}\" r=\"4\"/>{label}", top + 13)
        }
        Act::Takes { to, parts, note } => takes(layout, event, top, *to, parts, *note),
        Act::Clock(time) => clock(layout, event, top, *time),
        Act::Forgets { principal, count } => {
            forgets(layout, event, top, *count, layout.lanes_of(walk, *principal))
        }
        Act::Leaks { run, name } => {
            let part = Part { from: Lane::Run(*run), name: name.to_string() };
            takes(layout, event, top, Lane::Intruder, &[part], Note::NotCovered)
        }
        Act::Derives { refused: None } => {
            let x = layout.x(Lane::Intruder);
            let label = text(x + 8, top + 17, "start", "derives it", event);
            format!("<circle class=\"derives\" cx=\"{x}\" cy=\"{}\" r=\"4\"/>{label}", top + 13)
        }
        Act::Derives { refused: Some(refusal) } => {
            refused(layout.x(Lane::Intruder), top + 13, *refusal, event)
        }
        Act::Refused(refusal) => refused(12, top + 13, *refusal, event),
    };
    let (record, told) = (event.record, escape(&event.told));
    format!("<g class=\"event\" data-record=\"{record}\"><title>{told}</title>{drawn}</g>\n")
}

/// A label with the number of its record, which leads to the row.
fn text(x: usize, y: usize, anchor: &str, label: &str, event: &Event) -> String {
    format!(
        "<a href=\"#record-{0}\"><text x=\"{x}\" y=\"{y}\" text-anchor=\"{anchor}\">\
         <tspan class=\"quiet\">{0}</tspan> {1}</text></a>",
        event.record,
        escape(label)
    )
}

fn cross(x: usize, y: usize) -> String {
    format!(
        "<path class=\"cross\" d=\"M{} {}l8 8m0 -8l-8 8\"/>",
        x.saturating_sub(4),
        y.saturating_sub(4)
    )
}

/// A cross by itself, with the refusal's number.
fn refused(x: usize, y: usize, refusal: u8, event: &Event) -> String {
    let label = format!("refused {refusal}");
    format!("<g class=\"no\">{}{}</g>", cross(x, y), text(x + 8, y + 4, "start", &label, event))
}

fn takes(
    layout: &Layout,
    event: &Event,
    top: usize,
    to: Lane,
    parts: &[Part],
    note: Note,
) -> String {
    let class = match note {
        Note::Taken => "takes",
        Note::NotCovered => "takes warned",
        Note::Refused(_) => "takes no",
    };
    let arrows = parts.iter().enumerate().map(|(place, part)| {
        let y = top + 18 + 26 * place;
        arrow(layout, event, y, to, part, note)
    });
    let last = top + 18 + 26 * (parts.len().max(1) - 1);
    let ended = ended(layout, last, to, parts, note);
    format!("<g class=\"{class}\">{}{ended}</g>", arrows.collect::<String>())
}

fn arrow(layout: &Layout, event: &Event, y: usize, to: Lane, part: &Part, note: Note) -> String {
    let (from_x, to_x) = (layout.x(part.from), layout.x(to));
    let tip = match note {
        Note::Taken => " marker-end=\"url(#tip)\"",
        Note::NotCovered => " marker-end=\"url(#tip-warned)\"",
        Note::Refused(_) => "",
    };
    let (line, label_x, anchor) = match part.from == to {
        true => (format!("M{from_x} {}h18v8h-16", y - 8), from_x + 22, "start"),
        false => (format!("M{from_x} {y}H{to_x}"), (from_x + to_x) / 2, "middle"),
    };
    let cross = if let Note::Refused(_) = note { cross(to_x, y) } else { String::new() };
    format!(
        "<path class=\"arrow\" data-from=\"{}\" data-to=\"{}\" d=\"{line}\"{tip}/>{cross}{}",
        id(part.from),
        id(to),
        text(label_x, y - 5, anchor, &part.name, event)
    )
}

/// What is written where an arrow ends, on the side that it does not come from.
fn ended(layout: &Layout, y: usize, to: Lane, parts: &[Part], note: Note) -> String {
    let words = match (note, to) {
        (Note::Refused(refusal), _) => format!("refused {refusal}"),
        (Note::NotCovered, Lane::Run(_)) => "not covered".to_string(),
        (Note::NotCovered, _) => "leaks".to_string(),
        (Note::Taken, _) => return String::new(),
    };
    let x = layout.x(to);
    let from_left = parts.last().is_some_and(|part| layout.x(part.from) <= x);
    let (x, anchor) = if from_left { (x + 8, "start") } else { (x - 8, "end") };
    format!(
        "<text class=\"ended\" x=\"{x}\" y=\"{}\" text-anchor=\"{anchor}\">{words}</text>",
        y + 4
    )
}

fn clock(layout: &Layout, event: &Event, top: usize, time: u32) -> String {
    let y = top + 13;
    let label = text(4, y - 4, "start", &format!("clock {time}"), event);
    format!("<path class=\"clock\" d=\"M0 {y}H{}\"/>{label}", layout.width)
}

/// A small diamond on the principal's first lifeline, or in the margin.
fn forgets(
    layout: &Layout,
    event: &Event,
    top: usize,
    count: usize,
    lanes: Option<&[Lane]>,
) -> String {
    let x = lanes.and_then(|lanes| lanes.first()).map_or(12, |&lane| layout.x(lane));
    let y = top + 13;
    let label = if count == 0 { "forgets".to_string() } else { format!("forgets {count}") };
    format!(
        "<path class=\"forgets\" d=\"M{} {y}l5 -5l5 5l-5 5Z\"/>{}",
        x - 5,
        text(x + 8, y + 4, "start", &label, event)
    )
}
