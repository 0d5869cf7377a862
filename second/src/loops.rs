//! Tasks that wait for themselves (order 14): a loop among the links of
//! TaskRelationships, found by walking from task to task.

use std::collections::HashMap;

use crate::bundle::{files, WRONG_SIZE};
use crate::sentence::cut;
use crate::table::{read_file, MOST_RECORDS};

pub const LINKS_UNREADABLE: u32 = 12;
pub const LIST_TOO_SHORT: u32 = 13;

const RELATIONSHIPS: usize = 14;

/// The program that shows a loop reads no longer bundles.
const LONGEST_READ: usize = 65_536;

#[derive(Clone, Copy, Debug, PartialEq, Eq)]
pub enum Shown {
    Nothing,
    /// So many record numbers stand at the start of the list.
    Ring(usize),
    Refused(u32),
}

/// A link from one task to another, both as numbers of folded IDs.
#[derive(Clone, Copy, Debug, PartialEq, Eq)]
pub struct Link {
    pub from: usize,
    pub to: usize,
}

/// Writes the records of a loop to the start of the list; all else stays.
pub fn show_loop(bundle: &[u8], list: &mut [u32]) -> Shown {
    let links = match links_of(bundle) {
        Err(refusal) => return Shown::Refused(refusal),
        Ok(links) => links,
    };
    if list.len() < links.len() {
        return Shown::Refused(LIST_TOO_SHORT);
    }
    match find_loop(&links) {
        None => Shown::Nothing,
        Some(ring) => {
            for (entry, link) in list.iter_mut().zip(&ring) {
                *entry = u32::try_from(link + 1).expect("a table has at most 4,096 records");
            }
            Shown::Ring(ring.len())
        }
    }
}

/// The links by record, or the refusal 1, 2, 3 or 12.
pub fn links_of(bundle: &[u8]) -> Result<Vec<Link>, u32> {
    let contents = files(bundle)?[RELATIONSHIPS];
    let records = read_file(RELATIONSHIPS, contents).map_err(|_| LINKS_UNREADABLE)?;
    let mut tasks: HashMap<String, usize> = HashMap::new();
    let mut task = |id: Option<String>| {
        let new = tasks.len();
        *tasks.entry(id.expect("a link's IDs aren't null")).or_insert(new)
    };
    let mut links = Vec::new();
    for record in &records {
        let from = task(record.id("PredecessorTaskID"));
        links.push(Link { from, to: task(record.id("SuccessorTaskID")) });
    }
    Ok(links)
}

#[derive(Clone, Copy, PartialEq, Eq)]
enum Seen {
    Never,
    OnTheWay,
    Done,
}

/// The links of a loop in its order, or nothing if there is none: a walk into
/// the depth that meets a task of its own way has found one.
pub fn find_loop(links: &[Link]) -> Option<Vec<usize>> {
    let tasks = links.iter().map(|link| link.from.max(link.to) + 1).max().unwrap_or(0);
    let mut leaving = vec![Vec::new(); tasks];
    for (number, link) in links.iter().enumerate() {
        leaving[link.from].push(number);
    }
    let mut seen = vec![Seen::Never; tasks];
    for start in 0..tasks {
        if seen[start] == Seen::Never {
            if let Some(ring) = walk(links, &leaving, &mut seen, start) {
                return Some(ring);
            }
        }
    }
    None
}

fn walk(
    links: &[Link],
    leaving: &[Vec<usize>],
    seen: &mut [Seen],
    start: usize,
) -> Option<Vec<usize>> {
    // The tasks on the way, each with the number of its links gone already; and
    // the links between them.
    let mut tasks = vec![(start, 0)];
    let mut way: Vec<usize> = Vec::new();
    seen[start] = Seen::OnTheWay;
    while let Some((task, gone)) = tasks.last_mut() {
        match leaving[*task].get(*gone) {
            None => {
                seen[*task] = Seen::Done;
                tasks.pop();
                way.pop();
            }
            Some(link) => {
                *gone += 1;
                let next = links[*link].to;
                match seen[next] {
                    Seen::Done => {}
                    Seen::Never => {
                        seen[next] = Seen::OnTheWay;
                        tasks.push((next, 0));
                        way.push(*link);
                    }
                    Seen::OnTheWay => {
                        way.push(*link);
                        let first = way.iter().position(|link| links[*link].from == next)?;
                        return Some(way.split_off(first));
                    }
                }
            }
        }
    }
    None
}

/// Whether these record numbers, from 1, are a loop: at least one, each once,
/// each successor the next one's predecessor, the last leading to the first.
pub fn is_loop(links: &[Link], records: &[u32]) -> bool {
    let mut used = vec![false; links.len()];
    let mut ring = Vec::new();
    for record in records {
        let number = (*record as usize).wrapping_sub(1);
        match used.get_mut(number) {
            Some(used) if !*used => *used = true,
            _ => return false,
        }
        ring.push(links[number]);
    }
    let next = ring.iter().cycle().skip(1);
    !ring.is_empty() && ring.iter().zip(next).all(|(link, next)| link.to == next.from)
}

/// What the program prints: the refusal, `none`, or the records of a loop;
/// explained, each of its links in words besides.
pub fn loop_text(bundle: &[u8], explained: bool) -> String {
    let mut list = [0; MOST_RECORDS];
    let shown = match bundle.len() {
        0..=LONGEST_READ => show_loop(bundle, &mut list),
        _ => Shown::Refused(WRONG_SIZE),
    };
    shown_text(bundle, shown, &list, explained)
}

/// The text of what a call has shown.
pub fn shown_text(bundle: &[u8], shown: Shown, list: &[u32], explained: bool) -> String {
    match shown {
        Shown::Refused(refusal) => format!("bundle {refusal}\n"),
        Shown::Nothing => "none\n".to_string(),
        Shown::Ring(length) => ring_text(bundle, &list[..length], explained),
    }
}

/// The record numbers of a loop on a line; explained, a line for each link.
pub fn ring_text(bundle: &[u8], ring: &[u32], explained: bool) -> String {
    let numbers: Vec<String> = ring.iter().map(u32::to_string).collect();
    let mut lines = vec![numbers.join(" ")];
    if explained {
        let ids = written_ids(bundle);
        for (place, record) in ring.iter().enumerate() {
            let [before, after] = &ids[*record as usize - 1];
            let leads = match ring.get(place + 1) {
                Some(next) => format!("leads to record {next}."),
                None => format!("leads back to record {}. Take a link of the loop out.", ring[0]),
            };
            lines.push(format!(
                "TaskRelationships record {record}: SuccessorTaskID {after} waits for \
                 PredecessorTaskID {before} and {leads}"
            ));
        }
    }
    lines.join("\n") + "\n"
}

/// The predecessor and the successor of each record as they stand in the file,
/// long ones cut. File 14 is readable.
fn written_ids(bundle: &[u8]) -> Vec<[String; 2]> {
    let bytes = files(bundle).expect("the bundle isn't refused")[RELATIONSHIPS].unwrap_or(&[]);
    let records = read_file(RELATIONSHIPS, Some(bytes)).expect("file 14 is readable");
    let written = |id: &[u8]| cut(std::str::from_utf8(id).expect("a readable file is UTF-8"));
    records
        .iter()
        .map(|record| {
            ["PredecessorTaskID", "SuccessorTaskID"].map(|field| {
                let place = record.place(field);
                written(&bytes[place.start as usize..place.end as usize])
            })
        })
        .collect()
}
