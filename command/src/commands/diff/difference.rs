//! Where two cleaned archives differ first.

use crate::archive::{Event, File, KINDS};
use crate::cleaning::Cleaning;
use crate::text::{joined, plain};

/// A survivor and the file that it is in.
type Survivor<'a> = (&'a File, &'a Event);

type OfSurvivor = fn(Survivor) -> String;
type OfFile = fn(&File) -> String;

/// What can differ between two survivors, in the order in which it is looked at.
const OF_SURVIVORS: [(&str, OfSurvivor); 8] = [
    ("number", |(_, event)| event.sn.to_string()),
    ("group", |(file, _)| file.group.to_string()),
    ("tag", |(_, event)| event.tag.to_string()),
    (KINDS[0], |(_, event)| joined(&event.parents[0])),
    (KINDS[1], |(_, event)| joined(&event.parents[1])),
    ("unresolved", |(_, event)| joined(event.unresolved.iter().map(|(kind, handle)| format!("{} {handle}", KINDS[usize::from(*kind)])))),
    ("state root", |(_, event)| event.root.map_or("none".into(), |handle| handle.to_string())),
    ("label", |(_, event)| event.label.map_or("none".into(), |(chain, seq)| format!("chain {chain} seq {seq}"))),
];

/// What can still differ between two cleaned files whose survivors are alike.
const OF_FILES: [(&str, OfFile); 3] = [
    ("subject", |file| plain(&file.subject)),
    ("depth", |file| file.depth.map_or("none".into(), |(least, greatest)| format!("{least} to {greatest}"))),
    ("links", |file| joined(file.links.iter().flatten().map(|link| format!("{link:?}")))),
];

/// Says where the cleaned archives of these names, which are not the same bytes, differ first.
pub fn first(names: &[String; 2], cleanings: &[Cleaning; 2]) -> String {
    of_survivors(names, cleanings).or_else(|| of_files(names, cleanings)).unwrap_or_else(|| of_bytes(cleanings))
}

fn of_survivors(names: &[String; 2], cleanings: &[Cleaning; 2]) -> Option<String> {
    let survivors = [survivors(&cleanings[0]), survivors(&cleanings[1])];
    for rank in 0..survivors[0].len().max(survivors[1].len()) {
        let pair = [survivors[0].get(rank), survivors[1].get(rank)];
        for (field, of) in OF_SURVIVORS {
            let [a, b] = pair.map(|survivor| survivor.map(|survivor| of(*survivor)));
            if a != b {
                let line = |at: usize, value| format!("{}: {}\n", names[at], said(&cleanings[at], pair[at], field, value));
                return Some(format!("cleaned to different bytes: a survivor differs in {field}\n{}{}", line(0, a), line(1, b)));
            }
        }
    }
    None
}

fn said(cleaning: &Cleaning, survivor: Option<&Survivor>, field: &str, value: Option<String>) -> String {
    match (survivor, value) {
        (Some((_, event)), Some(value)) => format!("{}, which was {}: {field} {value}", event.sn, old_sn(cleaning, event.sn)),
        _ => "no survivor is left".into(),
    }
}

fn survivors(cleaning: &Cleaning) -> Vec<Survivor<'_>> {
    cleaning.after.iter().flat_map(|file| file.events.iter().map(move |event| (file, event))).collect()
}

/// What an old number has become is the library's answer; here it is asked the other way round.
fn old_sn(cleaning: &Cleaning, new_sn: u64) -> String {
    joined(cleaning.new_sns.iter().filter(|(_, new)| **new == new_sn).map(|(old, _)| old))
}

/// Where all survivors are alike, so are the groups of the files.
fn of_files(names: &[String; 2], cleanings: &[Cleaning; 2]) -> Option<String> {
    for (a, b) in cleanings[0].after.iter().zip(&cleanings[1].after) {
        for (field, of) in OF_FILES {
            if of(a) != of(b) {
                let line = |at: usize, file| format!("{}: {field} {}\n", names[at], of(file));
                return Some(format!("cleaned to different bytes: group {} differs in {field}\n{}{}", a.group, line(0, a), line(1, b)));
            }
        }
    }
    None
}

/// What no field shows can still be pointed at.
fn of_bytes(cleanings: &[Cleaning; 2]) -> String {
    let same = cleanings[0].bytes.iter().zip(&cleanings[1].bytes).take_while(|(a, b)| a == b).count();
    format!("cleaned to different bytes, from byte {same} on\n")
}
