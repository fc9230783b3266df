//! The room as a picture, in the language of Graphviz.

use crate::archive::{self, Event, File};
use crate::text::{plain, quoted};
use std::collections::{BTreeSet, HashMap};

/// How an edge of each kind is drawn.
const EDGES: [&str; archive::KINDS.len()] = ["", " [style=dotted, color=blue]"];

const HEAD: &str = "\
digraph room {
    rankdir=RL;
    node [shape=box, style=rounded, fontname=\"sans-serif\"];
    graph [fontname=\"sans-serif\", style=rounded, color=gray60];
";

/// A frame for each group, with its events; then the parents that are not in the archive, and an arrow from every event to each of its parents.
/// An event that the map gives another number says so.
pub fn picture(files: &[File], new_sns: &HashMap<u64, u64>) -> String {
    let subject = files.first().map(|file| plain(&file.subject)).unwrap_or_default();
    let mut picture = format!("{HEAD}    label={};\n", quoted(&format!("{subject}: prev solid, auth dotted")));
    for group in files.chunk_by(|a, b| a.group == b.group) {
        let name = group[0].group;
        picture += &format!("    subgraph cluster_{name} {{\n        label=\"group {name}\";\n");
        picture.extend(archive::events(group).map(|event| format!("        {} [{}];\n", event.sn, look(event, new_sns))));
        picture += "    }\n";
    }
    picture.extend(outside(files).iter().map(|node| format!("    {node} [shape=plaintext];\n")));
    for event in archive::events(files) {
        picture.extend(parents(event).map(|(kind, parent)| format!("    {} -> {parent}{};\n", event.sn, EDGES[kind])));
    }
    picture + "}\n"
}

fn look(event: &Event, new_sns: &HashMap<u64, u64>) -> String {
    let label = match new_sns.get(&event.sn) {
        Some(new_sn) if *new_sn != event.sn => format!("{}\\nnow {new_sn}", event.sn),
        _ => event.sn.to_string(),
    };
    let style = if event.is_erased { ", style=\"rounded,dashed\", fontcolor=gray40" } else { "" };
    format!("label=\"{label}\"{style}")
}

/// The kind and the node of each parent. A parent that has no number is the handle behind a question mark.
fn parents(event: &Event) -> impl Iterator<Item = (usize, String)> {
    let named = event.parents.iter().enumerate().flat_map(|(kind, parents)| parents.iter().map(move |parent| (kind, parent.to_string())));
    named.chain(event.unresolved.iter().map(|(kind, handle)| (usize::from(*kind), quoted(&format!("?{handle}")))))
}

/// The nodes of parents that are not events of the archive.
fn outside(files: &[File]) -> BTreeSet<String> {
    let events: BTreeSet<_> = archive::events(files).map(|event| event.sn.to_string()).collect();
    archive::events(files).flat_map(parents).map(|(_, parent)| parent).filter(|parent| !events.contains(parent)).collect()
}
