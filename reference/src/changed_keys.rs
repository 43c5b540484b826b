//! The stored keys that E7 changes: "docs/ lists every stored key that changes." Both answers of a
//! key are computed, the one in 01's order of sets and the one in E7's.

use crate::configuration::{judge_range, QuantumRange};
use crate::entries::{faults_present, place_of_entry, ENTRIES, KEY, PLAN};
use crate::frames::{frames_of_file, Frame};
use crate::jobs::{jobs_of_block, records_of_jobs, Job};
use crate::key::text_of_plan;
use crate::planner::{plan_jobs_by, Rules, RULES};
use crate::sets::{by_number, by_periods, SetOrder};
use crate::text_list::list_of_text;

/// What was stored before E7, by 01's order: the lists of `lists/`, the blocks of the program keys
/// and the cases. Later ones never had another answer.
pub const LISTS_BEFORE: [&str; 13] = [
    "k1",
    "k2",
    "k3",
    "k4",
    "k7",
    "k8",
    "k9",
    "late_ticks",
    "overload",
    "relay",
    "road_race",
    "uplink",
    "velodrome",
];
pub const BLOCKS_BEFORE: usize = 12;
pub const CASES_BEFORE: usize = 9_300;

/// A stored key.
#[derive(Clone, Debug, PartialEq, Eq)]
pub struct StoredKey {
    pub name: String,
    pub jobs: Vec<Job>,
    pub range: QuantumRange,
    /// Whether the count of sets considered is a part of it.
    pub has_count: bool,
}

/// Some stored keys, with what they are.
pub struct Part {
    pub title: String,
    pub keys: Vec<StoredKey>,
}

impl StoredKey {
    /// The key with its count, if the list and the range are accepted.
    fn with_count(name: String, block: &[u8], range: QuantumRange) -> Option<StoredKey> {
        Some(StoredKey {
            name,
            jobs: jobs_of_block(block).ok()?,
            range: judge_range(range.lowest, range.highest).ok()?,
            has_count: true,
        })
    }

    /// The answer with the sets in an order, on one line.
    fn answer(&self, order: SetOrder) -> String {
        let plan = plan_jobs_by(&self.jobs, self.range, Rules { order, ..RULES });
        let text = text_of_plan(&plan);
        let mut lines: Vec<&str> = text.lines().collect();
        let placed = lines.pop().unwrap_or("");
        let jobs = lines.join(", ");
        match self.has_count {
            true => format!("{placed}, considered {}: {jobs}", plan.considered),
            false => format!("{placed}: {jobs}"),
        }
    }

    /// The name and both answers, if E7 changes the key.
    pub fn change(&self) -> Option<String> {
        let (before, after) = (self.answer(by_number), self.answer(by_periods));
        let name = &self.name;
        (before != after).then(|| format!("{name}\n- {before}\n+ {after}\n"))
    }
}

/// The key of a list that is a text; none if it is refused.
pub fn key_of_list(name: &str, text: &str) -> Result<Option<StoredKey>, String> {
    let (jobs, range) = list_of_text(text).map_err(|error| format!("{name}: {error}"))?;
    let block = records_of_jobs(&jobs);
    Ok(StoredKey::with_count(name.to_string(), &block, range))
}

/// The keys of the blocks that were stored before E7. Each stands after three bytes: the lowest
/// quantum, the highest and its length. A block that is refused, or shorter than its length, has
/// none.
pub fn keys_of_blocks(name: &str, mut bytes: &[u8]) -> Vec<StoredKey> {
    let mut keys = Vec::new();
    for place in 0..BLOCKS_BEFORE {
        let [lowest, highest, length, rest @ ..] = bytes else {
            break;
        };
        let Some((block, after)) = rest.split_at_checked(usize::from(*length)) else {
            break;
        };
        let (lowest, highest) = (*lowest, *highest);
        let name = format!("{name}, block {place}");
        let range = QuantumRange { lowest, highest };
        keys.extend(StoredKey::with_count(name, block, range));
        bytes = after;
    }
    keys
}

/// The key of a case; none if it is refused or is no plan and no key. The key program's text is
/// stored without a count.
fn key_of_case(name: &str, number: usize, input: &Frame) -> Option<StoredKey> {
    let entry = ENTRIES[place_of_entry(input.head)?];
    let is_accepted = faults_present(input)?.is_empty();
    if !is_accepted || !matches!(entry.number, PLAN | KEY) {
        return None;
    }
    let [lowest, highest] = [0, 1].map(|place| input.numbers[place] as u8);
    let name = format!("{name}, case {number}, {}", entry.name);
    let key = StoredKey::with_count(name, &input.blocks[0], QuantumRange { lowest, highest })?;
    Some(StoredKey {
        has_count: entry.number == PLAN,
        ..key
    })
}

/// The keys of the cases of a file that were stored before E7.
pub fn keys_of_cases(name: &str, bytes: &[u8]) -> Result<Vec<StoredKey>, String> {
    let frames = frames_of_file(bytes);
    let frames = frames.map_err(|(frame, damage)| format!("{name}: frame {frame} {damage}"))?;
    let before = frames.iter().take(CASES_BEFORE).enumerate();
    let keys = before.filter_map(|(number, input)| key_of_case(name, number, input));
    Ok(keys.collect())
}

/// What the text begins with.
const ABOUT: &str = "\
# The stored keys that change request E7 changes: \"From now on sets go by size, then by larger
# sum of periods, then by smaller set number.\" No line is by hand: `reference/changed` writes this
# file, and `reference/changed --check` says whether it is as written.
#
# A key has its name, then its answer in 01's order of sets (-) and in E7's (+): the jobs placed,
# the sets considered, and for each job its id, level, policy, quantum and bound. E7 tells of the
# sets considered too, so a list and a block count as changed where these alone change, as in K7. A
# case of the entry key has its text alone, without them. Blocks and cases are numbered from 0. What
# was stored later is not here: it had one answer only.
#
";

/// The whole text about some parts.
pub fn text_of_parts(parts: &[Part]) -> String {
    let mut text = format!("{ABOUT}# {:<44}{:>6}{:>10}\n", "stored", "keys", "changed");
    let mut changes = String::new();
    for Part { title, keys } in parts {
        let changed: Vec<String> = keys.iter().filter_map(StoredKey::change).collect();
        text += &format!("# {title:<44}{:>6}{:>10}\n", keys.len(), changed.len());
        changes += &format!("\n# {title}\n{}", changed.concat());
    }
    text + &changes
}

/// A line that is found or expected, as it is told.
fn quoted(line: Option<&str>) -> String {
    line.map_or("missing".to_string(), |line| format!("`{line}`"))
}

/// What the first difference between a text found and the one expected is, if there is one. Lines
/// are numbered from 1.
pub fn first_differing_line(found: &str, expected: &str) -> Option<String> {
    let (mut found, mut expected) = (found.split('\n'), expected.split('\n'));
    for number in 1.. {
        let (line, other) = (found.next(), expected.next());
        if line != other {
            let (line, other) = (quoted(line), quoted(other));
            return Some(format!("line {number} is {line}, expected {other}"));
        }
        line?;
    }
    None
}
