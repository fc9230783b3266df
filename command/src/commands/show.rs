//! `ridgeoven show`

mod dot;
mod table;

use super::Command;
use crate::archive::{self, Event, File, KINDS};
use crate::arguments::{Arguments, Flag};
use crate::cleaning::{Cleaning, Counts};
use crate::ending::{Failure, Status};
use crate::text::plain;
use crate::{input, output};
use std::collections::HashMap;
use table::{Row, Table, beside, table};

pub const COMMAND: Command = Command {
    name: "show",
    usage: "IN [--cleaned] [--dot]",
    does: "the room before and after its cleaning",
    more: "\
Every event in order with its parents, erased ones marked, and beside it what the cleaning makes of
it. ?7 is a parent that the archive has no number for, only the handle 7.

  --cleaned   only the room after its cleaning
  --dot       a picture for Graphviz: ridgeoven show IN --dot | dot -Tsvg > room.svg. It shows the room
              before its cleaning, with --cleaned after it. An arrow leads to a parent, solid for
              prev and dotted for auth; erased events are dashed, groups are frames.
",
    flags: &[Flag { names: &["--cleaned"], has_value: false }, Flag { names: &["--dot"], has_value: false }],
    operands: 1..=1,
    run,
};

fn run(arguments: &Arguments) -> Result<Status, Failure> {
    let from = &arguments.operands[0];
    let cleaning = Cleaning::of(&input::name(from), &input::read(from)?)?;
    output::print(match (arguments.has("--cleaned"), arguments.has("--dot")) {
        (false, false) => side_by_side(&cleaning),
        (true, false) => cleaned(&cleaning),
        (false, true) => dot::picture(&cleaning.before, &cleaning.new_sns),
        (true, true) => dot::picture(&cleaning.after, &HashMap::new()),
    })?;
    Ok(Status::Done)
}

fn side_by_side(cleaning: &Cleaning) -> String {
    let rows = cleaning.before.iter().flat_map(rows_before).collect();
    let before = table("before", &[&["event", ""], &KINDS[..]].concat(), rows);
    title(cleaning) + &beside(&[before, after(rows_beside(cleaning))])
}

fn cleaned(cleaning: &Cleaning) -> String {
    title(cleaning) + &beside(&[after(cleaning.after.iter().flat_map(rows_after).collect())])
}

fn after(rows: Vec<Row>) -> Table {
    table("after", &[&["event"], &KINDS[..]].concat(), rows)
}

fn title(cleaning: &Cleaning) -> String {
    let subject = cleaning.before.first().map(|file| plain(&file.subject)).unwrap_or_default();
    let Counts { events, erased, survivors, .. } = Counts::of(&cleaning.before, &cleaning.after);
    format!("room {subject}: events {events}, erased {erased}, survivors {survivors}, reparented {}\n\n", cleaning.reparented)
}

fn rows_before(file: &File) -> Vec<Row> {
    let mark = |event: &Event| if event.is_erased { vec!["erased".into()] } else { Vec::new() };
    let row = |event| Row::Cells([vec![sn(event), mark(event)], parents(event)].concat());
    [heading(file)].into_iter().chain(file.events.iter().map(row)).collect()
}

fn rows_after(file: &File) -> Vec<Row> {
    [heading(file)].into_iter().chain(file.events.iter().map(row_after)).collect()
}

/// What stands beside the rows before: a group's file beside its first source, a survivor beside the event that it was.
fn rows_beside(cleaning: &Cleaning) -> Vec<Row> {
    let by_sn: HashMap<_, _> = archive::events(&cleaning.after).map(|event| (event.sn, event)).collect();
    let mut groups = cleaning.after.iter().peekable();
    let mut rows = Vec::new();
    for file in &cleaning.before {
        rows.push(groups.next_if(|group| group.group == file.group).map_or(Row::Empty, heading));
        let survivor = |event: &Event| by_sn.get(cleaning.new_sns.get(&event.sn)?);
        rows.extend(file.events.iter().map(|event| survivor(event).map_or(Row::Empty, |event| row_after(event))));
    }
    rows
}

fn row_after(event: &Event) -> Row {
    Row::Cells([vec![sn(event)], parents(event)].concat())
}

fn sn(event: &Event) -> Vec<String> {
    vec![event.sn.to_string()]
}

/// A cell for each kind.
fn parents(event: &Event) -> Vec<Vec<String>> {
    let of_kind = |kind: usize| {
        let unresolved = event.unresolved.iter().filter(|(of, _)| usize::from(*of) == kind).map(|(_, handle)| format!("?{handle}"));
        event.parents[kind].iter().map(u64::to_string).chain(unresolved).collect()
    };
    (0..KINDS.len()).map(of_kind).collect()
}

fn heading(file: &File) -> Row {
    let events = match (file.events.first(), file.events.last()) {
        (Some(first), Some(last)) => format!("{} to {}", first.sn, last.sn),
        _ => format!("no events at {}", file.first_sn),
    };
    let depth = file.depth.map_or(String::new(), |(least, greatest)| format!(", depth {least} to {greatest}"));
    let cover = if file.links.is_some() { ", cover" } else { "" };
    Row::Heading(format!("group {}: {events}{depth}{cover}", file.group))
}
