//! The sets that are judged: whole ones of a given size, which are accepted,
//! and ones of tasks, outline and links only, of a given number of tasks, with
//! short IDs or long ones.

use super::files;
use super::plan::Plan;
use crate::compare::gate::sample::Set;
use crate::compare::random::Random;

/// Sizes of the whole sets in bytes.
pub const SIZES: [usize; 3] = [60_000, 250_000, 1_000_000];

/// Numbers of tasks of the sets without schedule data.
pub const TASKS: [usize; 4] = [500, 1_000, 2_000, 4_000];

/// Numbers of tasks and lengths of IDs of the sets with long IDs.
pub const LONG_IDS: [(usize, usize); 3] = [(1_000, 48), (4_000, 48), (1_000, 200)];

/// Tasks in a package of a set without schedule data, its summary among them.
const PACKAGE: usize = 20;

/// No set within the largest size has as many tasks.
const TOO_MANY: usize = 4_096;

/// An accepted set whose bundle has about so many bytes.
pub fn whole_set(size: usize, seed: u64) -> Set {
    let (mut enough, mut over) = (1, TOO_MANY);
    while over - enough > 1 {
        let middle = (enough + over) / 2;
        if whole_set_of(middle, seed).bundle().len() <= size {
            enough = middle;
        } else {
            over = middle;
        }
    }
    whole_set_of(enough, seed)
}

fn whole_set_of(tasks: usize, seed: u64) -> Set {
    let mut plan = Plan::new(tasks, seed);
    let contents = [
        files::FILE_TYPE.to_string(),
        files::METADATA.to_string(),
        files::SOFTWARE.to_string(),
        files::PROJECT.to_string(),
        files::PROJECT_FIELDS.to_string(),
        files::PROJECT_VALUES.to_string(),
        files::calendars(&plan),
        files::workshifts(&plan),
        files::exceptions(&plan),
        files::tasks(&plan),
        files::schedules(&mut plan),
        files::TASK_FIELDS.to_string(),
        files::task_values(&mut plan),
        files::constraints(&plan),
        files::links(&mut plan),
        files::outline(&plan),
        files::resources(&plan),
        files::RESOURCE_FIELDS.to_string(),
        files::resource_values(&plan),
        files::assignments(&mut plan),
    ];
    Set { files: contents.into_iter().map(|file| Some(file.into_bytes())).collect() }
}

/// The same set with its fields in any order and one letter in twenty of its
/// values written as an escape: the same marks, and more to do for a reader.
/// Records stand in lines, as `files` makes them.
pub fn scrambled(set: &Set, seed: u64) -> Set {
    let mut random = Random::new(seed);
    let files = set.files.iter().enumerate().map(|(number, file)| {
        let text = String::from_utf8(file.clone()?).expect("sets are made of text");
        if number < 4 {
            return Some(text.into_bytes());
        }
        let lines: Vec<String> =
            text.lines().map(|line| scrambled_line(line, &mut random)).collect();
        Some((lines.join("\n") + "\n").into_bytes())
    });
    Set { files: files.collect() }
}

/// A record with its fields in another order; a line that does not begin with
/// one, as it is.
fn scrambled_line(line: &str, random: &mut Random) -> String {
    let Some((record, behind)) = line.strip_prefix('{').and_then(|rest| rest.split_once('}'))
    else {
        return line.to_string();
    };
    let mut fields: Vec<String> =
        members(record).into_iter().map(|field| with_escapes(field, random)).collect();
    for at in (1..fields.len()).rev() {
        fields.swap(at, random.below(at + 1));
    }
    format!("{{{}}}{behind}", fields.join(","))
}

/// The fields of a record, cut at the commas outside strings.
fn members(record: &str) -> Vec<&str> {
    let (mut found, mut start, mut quoted) = (Vec::new(), 0, false);
    for (at, byte) in record.bytes().enumerate() {
        match byte {
            b'"' => quoted = !quoted,
            b',' if !quoted => {
                found.push(&record[start..at]);
                start = at + 1;
            }
            _ => {}
        }
    }
    found.push(&record[start..]);
    found
}

/// A field whose value is a string, with one letter in twenty of it escaped.
fn with_escapes(field: &str, random: &mut Random) -> String {
    let Some((name, value)) = field.split_once("\":\"") else { return field.to_string() };
    let letters = value.chars().map(|letter| match random.below(20) {
        0 if letter.is_ascii_alphanumeric() => format!("\\u{:04x}", letter as u32),
        _ => letter.to_string(),
    });
    format!("{name}\":\"{}", letters.collect::<String>())
}

/// So many tasks, each linked with the one before, in packages under one
/// whole. Without schedule data mark 73 is broken, but 4,000 tasks fit in a
/// bundle: the most work for the rules that look IDs up. The short IDs begin
/// alike, so that comparing two of them takes as long as it can.
pub fn linked_set(tasks: usize) -> Set {
    let id = |index: usize| format!("T{index:04}");
    let is_package = |index: usize| index % PACKAGE == 1;
    let task = |index: usize| {
        let kind = match index {
            0 => r#""SUMMARY""#,
            _ if is_package(index) => r#""SUMMARY""#,
            _ => r#""ACTIVITY","TaskPlanningLevelID":"ACTIVITY""#,
        };
        format!(r#"{{"ID":"{}","Name":"Task {index}","TaskTypeID":{kind}}}"#, id(index))
    };
    let record = |index: usize| match index {
        0 => files::outline_record(1, &id(0), None),
        _ if is_package(index) => files::outline_record(2, &id(index), Some(&id(0))),
        _ => {
            let package = (index - 1) / PACKAGE * PACKAGE + 1;
            files::outline_record(3, &id(index), Some(&id(package)))
        }
    };
    let link = |index: usize| files::link(&id(index - 1), &id(index), r#""FINISH_TO_START""#);
    set_of(
        files::array((0..tasks).map(task)),
        files::array((1..tasks).map(link)),
        files::array((0..tasks).map(record)),
    )
}

/// So many milestones, all at the top of the outline, and every second linked
/// with the one before: short records, so that long IDs fit in a bundle. These
/// differ in their last four characters only, so that comparing two of them
/// goes nearly to their end. Mark 73 is broken as above.
pub fn long_id_set(tasks: usize, length: usize) -> Set {
    let common: String = "HARBOUR-BASIN-2026/LOT-7/".chars().cycle().take(length - 4).collect();
    let id = |index: usize| format!("{common}{index:04}");
    let task =
        |index: usize| format!(r#"{{"ID":"{}","Name":"M","TaskTypeID":"MILESTONE"}}"#, id(index));
    let link = |index: usize| files::link(&id(index - 1), &id(index), r#""FINISH_TO_START""#);
    set_of(
        files::array((0..tasks).map(task)),
        files::array((1..tasks).step_by(2).map(link)),
        files::array((0..tasks).map(|index| files::outline_record(1, &id(index), None))),
    )
}

/// The set of these three tables and the files that must be there.
fn set_of(tasks: String, links: String, outline: String) -> Set {
    Set::empty()
        .with(0, files::FILE_TYPE)
        .with(1, files::METADATA)
        .with(3, files::PROJECT)
        .with(9, &tasks)
        .with(14, &links)
        .with(15, &outline)
}

#[cfg(test)]
mod tests {
    use super::*;
    use crate::bundle::LARGEST_BUNDLE;
    use crate::table::read_file;

    fn records(set: &Set, number: usize) -> usize {
        read_file(number, set.files[number].as_deref()).unwrap().len()
    }

    #[test]
    fn whole_sets_are_accepted_and_of_their_size() {
        for size in SIZES {
            let set = whole_set(size, 7);
            assert_eq!(set.faults(), [], "{size}");
            let length = set.bundle().len();
            assert!(length.abs_diff(size) <= size / 20, "{length} for {size}");
        }
    }

    #[test]
    fn all_that_grows_grows_together() {
        let [small, _, large] = SIZES.map(|size| whole_set(size, 7));
        for number in [6, 7, 8, 9, 10, 12, 13, 14, 15, 16, 18, 19] {
            let (few, many) = (records(&small, number), records(&large, number));
            assert!(few >= 2 && many > 4 * few, "file {number}: {few} and {many}");
        }
    }

    #[test]
    fn one_seed_gives_one_set() {
        assert_eq!(whole_set(60_000, 7), whole_set(60_000, 7));
        assert_ne!(whole_set(60_000, 7), whole_set(60_000, 8));
    }

    #[test]
    fn a_scrambled_set_has_the_same_marks_and_records() {
        let set = whole_set(60_000, 7);
        let other = scrambled(&set, 7);
        assert_ne!(set, other);
        assert_eq!(other.faults(), []);
        for number in 4..20 {
            assert_eq!(records(&set, number), records(&other, number), "file {number}");
        }
        let escapes = other.bundle().windows(2).filter(|pair| *pair == b"\\u").count();
        assert!(escapes > 200, "{escapes}");
    }

    #[test]
    fn linked_sets_lack_schedule_data_only() {
        for tasks in TASKS {
            let set = linked_set(tasks);
            assert_eq!(set.faults(), [(73, (1, 1, 0))]);
            assert!(set.bundle().len() <= LARGEST_BUNDLE);
            assert_eq!([9, 14, 15].map(|file| records(&set, file)), [tasks, tasks - 1, tasks]);
        }
    }

    #[test]
    fn sets_with_long_ids_lack_schedule_data_only() {
        for (tasks, length) in LONG_IDS {
            let set = long_id_set(tasks, length);
            assert_eq!(set.faults(), [(73, (1, 1, 0))]);
            assert!(set.bundle().len() <= LARGEST_BUNDLE);
            assert_eq!([9, 14, 15].map(|file| records(&set, file)), [tasks, tasks / 2, tasks]);
        }
    }

    #[test]
    fn long_ids_differ_in_their_last_four_characters() {
        for (tasks, length) in LONG_IDS {
            let set = long_id_set(tasks, length);
            let read = read_file(9, set.files[9].as_deref()).unwrap();
            let ids: Vec<String> = read.iter().filter_map(|record| record.id("ID")).collect();
            assert_eq!(ids.len(), tasks);
            assert!(ids.iter().all(|id| id.len() == length));
            assert!(ids.iter().all(|id| id[..length - 4] == ids[0][..length - 4]));
        }
    }
}
