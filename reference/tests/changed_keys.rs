//! The text about the stored keys that E7 changes, and the lists that are texts.

mod common;

use common::{delayed_jobs, job_block, jobs};
use reference::changed_keys::{
    first_differing_line, key_of_list, keys_of_blocks, keys_of_cases, text_of_parts, Part,
    StoredKey, BLOCKS_BEFORE, CASES_BEFORE,
};
use reference::configuration::QuantumRange;
use reference::entries::{KEY, PLAN};
use reference::frames::Frame;
use reference::generation::{cases_of_kind, PERIODS};
use reference::key::KEY_RANGE;
use reference::text_list::list_of_text;

/// The exam lists K2 and K4.
const K2: &str = "# K2\n1 6 8 8\n2 5 22 22\n";
const K4: &str = "1 1 4 4\n2 2 6 6\n3 3 12 12\n";

/// The change of K4, after its name.
const CHANGE_OF_K4: &str = "
- placed 3 of 3, considered 5: 1 2 1 0 3, 2 1 1 0 2, 3 3 1 0 10
+ placed 3 of 3, considered 3: 1 1 1 0 1, 2 2 1 0 3, 3 3 1 0 10
";

fn key(name: &str, text: &str) -> StoredKey {
    let key = key_of_list(name, text).expect("it is a list");
    key.expect("the list is accepted")
}

#[test]
fn a_changed_key_has_a_name_and_two_answers() {
    let expected = format!("lists/k4.txt{CHANGE_OF_K4}");
    assert_eq!(key("lists/k4.txt", K4).change(), Some(expected));
    assert_eq!(key("lists/k2.txt", K2).change(), None);
}

#[test]
fn the_text_counts_the_keys_of_each_part() {
    let part = |title: &str, keys| Part {
        title: title.to_string(),
        keys,
    };
    let text = text_of_parts(&[
        part("one", vec![key("k2", K2), key("k4", K4)]),
        part("other", vec![key("k2", K2)]),
    ]);
    let (about, changes) = text
        .split_once("\n\n")
        .expect("the parts follow an empty line");
    assert!(about.lines().all(|line| line.starts_with('#')));
    let mut counts = about.lines().rev().take(2).map(|line| {
        let words: Vec<&str> = line.split_whitespace().collect();
        words.join(" ")
    });
    assert_eq!(counts.next().as_deref(), Some("# other 1 0"));
    assert_eq!(counts.next().as_deref(), Some("# one 2 1"));
    assert_eq!(changes, format!("# one\nk4{CHANGE_OF_K4}\n# other\n"));
}

#[test]
fn blocks_stand_after_their_range_and_length() {
    let two = job_block(&[(6, 8, 8), (5, 22, 22)]);
    let bad = job_block(&[(0, 8, 8)]);
    let bytes = [
        &[1, 2, 16],
        two.as_slice(),
        &[1, 4, 8],
        &bad,
        &[0, 4, 16],
        &two,
        &[1, 4, 0],
        &[1, 4, 16],
        &two,
        &[1, 4, 16],
        &two[..15],
    ];
    let keys = keys_of_blocks("blocks", &bytes.concat());
    let found: Vec<(&str, u8)> = keys
        .iter()
        .map(|key| (key.name.as_str(), key.range.highest))
        .collect();
    assert_eq!(found, [("blocks, block 0", 2), ("blocks, block 4", 4)]);
    assert!(keys.iter().all(|key| key.has_count && key.jobs.len() == 2));
    assert_eq!(keys_of_blocks("blocks", &[1, 4]), []);
    assert_eq!(keys_of_blocks("blocks", &[]), []);
}

#[test]
fn later_blocks_have_no_part_in_it() {
    let block = job_block(&[(6, 8, 8)]);
    let one = [&[1, 4, 8], block.as_slice()].concat();
    let keys = keys_of_blocks("blocks", &one.repeat(BLOCKS_BEFORE + 1));
    assert_eq!(keys.len(), BLOCKS_BEFORE);
}

/// The input frame of a plan or a key in the range 1 to 4.
fn input(entry: u8, block: &[u8], lent: &[usize]) -> Vec<u8> {
    let outputs = lent.iter().map(|length| vec![9; *length]);
    let frame = Frame {
        head: entry,
        numbers: vec![1, 4],
        blocks: [block.to_vec()].into_iter().chain(outputs).collect(),
    };
    frame.to_bytes().expect("it fits in a frame")
}

#[test]
fn a_key_text_has_no_count() {
    // In E7's order one set less is considered, and the plan is the same.
    let block = job_block(&[(6, 8, 8), (5, 23, 23)]);
    let file = [
        input(KEY, &block, &[]),
        input(PLAN, &block, &[8, 4]),
        input(PLAN, &block, &[7, 4]),
        input(KEY, &block[..15], &[]),
        input(8, &block, &[16]),
    ];
    let keys = keys_of_cases("cases", &file.concat()).expect("the frames are whole");
    let names: Vec<&str> = keys.iter().map(|key| key.name.as_str()).collect();
    assert_eq!(names, ["cases, case 0, key", "cases, case 1, plan"]);
    assert_eq!(keys[0].change(), None);
    let change = "cases, case 1, plan
- placed 2 of 2, considered 3: 1 1 1 0 6, 2 2 1 0 23
+ placed 2 of 2, considered 2: 1 1 1 0 6, 2 2 1 0 23
";
    assert_eq!(keys[1].change().as_deref(), Some(change));
    let k4 = job_block(&[(1, 4, 4), (2, 6, 6), (3, 12, 12)]);
    let keys = keys_of_cases("cases", &input(KEY, &k4, &[])).expect("the frame is whole");
    let change = "cases, case 0, key
- placed 3 of 3: 1 2 1 0 3, 2 1 1 0 2, 3 3 1 0 10
+ placed 3 of 3: 1 1 1 0 1, 2 2 1 0 3, 3 3 1 0 10
";
    assert_eq!(keys[0].change().as_deref(), Some(change));
    let error = keys_of_cases("cases", &file.concat()[..30]);
    assert_eq!(error, Err("cases: frame 1 ends early".to_string()));
}

#[test]
fn the_cases_before_are_those_of_the_kinds_before() {
    assert_eq!(cases_of_kind(&PERIODS).start, CASES_BEFORE);
}

#[test]
fn the_first_differing_line_is_told() {
    assert_eq!(first_differing_line("", ""), None);
    assert_eq!(first_differing_line("a\nb\n", "a\nb\n"), None);
    let told = |found, expected| first_differing_line(found, expected).expect("they differ");
    assert_eq!(told("a\nb\n", "a\nc\n"), "line 2 is `b`, expected `c`");
    assert_eq!(told("a\nb\n", "a\n"), "line 2 is `b`, expected ``");
    assert_eq!(told("a\n", "a\nb\n"), "line 2 is ``, expected `b`");
    assert_eq!(told("a", "a\n"), "line 2 is missing, expected ``");
}

#[test]
fn a_list_is_read_from_its_text() {
    let text = "\u{feff}# a comment\n\n  7\t6 8 8 # another\r\nquanta 2 64\n9 5 22 30 255";
    let mut expected = delayed_jobs(&[((6, 8, 8), 0), ((5, 22, 30), 255)]);
    (expected[0].id, expected[1].id) = (7, 9);
    let range = QuantumRange {
        lowest: 2,
        highest: 64,
    };
    assert_eq!(list_of_text(text), Ok((expected, range)));
    assert_eq!(list_of_text("1 2 5 5"), Ok((jobs(&[(2, 5, 5)]), KEY_RANGE)));
    assert_eq!(list_of_text(""), Ok((Vec::new(), KEY_RANGE)));
}

#[test]
fn an_error_in_a_list_names_file_and_line() {
    for (text, error) in [
        ("1 2 5", "line 1: it is neither a job nor a range of quanta"),
        (
            "1 2 5 5 0 0",
            "line 1: it is neither a job nor a range of quanta",
        ),
        (
            "\nquanta 1",
            "line 2: it is neither a job nor a range of quanta",
        ),
        ("1 2 +5 5", "line 1: `+5` is not a number, or too large"),
        (
            "# list\n1 2 65536 5",
            "line 2: `65536` is not a number, or too large",
        ),
        ("1 2 5 5 256", "line 1: `256` is not a number, or too large"),
        ("quanta 1 x", "line 1: `x` is not a number, or too large"),
        (
            "quanta 1 4\nquanta 1 4",
            "line 2: it is a second range of quanta",
        ),
    ] {
        assert_eq!(list_of_text(text), Err(error.to_string()));
        let named = key_of_list("lists/bad.txt", text);
        assert_eq!(named, Err(format!("lists/bad.txt: {error}")));
    }
}

#[test]
fn a_refused_list_has_no_key() {
    for text in ["", "1 0 5 5", "2 2 5 5\n1 2 5 5", "quanta 0 4\n1 2 5 5"] {
        assert_eq!(key_of_list("list", text), Ok(None));
    }
}
