//! The key program's whole text for the worked exam lists and for refused blocks.

mod common;

use common::{job_block, Times};
use reference::key;

#[test]
fn texts_of_the_worked_lists_in_range_1_to_4() {
    let texts: [(&[Times], &str); 6] = [
        (&[(2, 5, 5)], "1 1 1 0 2\nplaced 1 of 1\n"),
        (
            &[(6, 8, 8), (5, 22, 22)],
            "1 2 2 3 8\n2 2 2 1 20\nplaced 2 of 2\n",
        ),
        (
            &[(1, 4, 4), (2, 6, 6), (3, 12, 12)],
            "1 1 1 0 1\n2 2 1 0 3\n3 3 1 0 10\nplaced 3 of 3\n",
        ),
        (
            &[(6, 8, 8), (5, 23, 23)],
            "1 1 1 0 6\n2 2 1 0 23\nplaced 2 of 2\n",
        ),
        (
            &[(1, 1, 1), (1, 1, 1)],
            "1 0 0 0 0\n2 0 0 0 0\nplaced 0 of 2\n",
        ),
        (
            &[(6, 8, 8), (5, 22, 22), (1, 100, 100)],
            "1 2 2 3 8\n2 2 2 1 20\n3 3 1 0 64\nplaced 3 of 3\n",
        ),
    ];
    for (times, text) in texts {
        assert_eq!(key(&job_block(times)), text);
    }
}

#[test]
fn a_job_left_over_prints_its_id_and_four_zeros() {
    let block = job_block(&[(1, 9, 1), (1, 9, 1), (1, 100, 100)]);
    assert_eq!(
        key(&block),
        "1 0 0 0 0\n2 0 0 0 0\n3 3 1 0 3\nplaced 1 of 3\n"
    );
}

#[test]
fn a_refused_block_prints_one_line() {
    assert_eq!(key(&[]), "refused 1\n");
    let block = job_block(&[(2, 5, 5); 9]);
    assert_eq!(block.len(), 72);
    assert_eq!(key(&block), "refused 1\n");
    assert_eq!(key(&job_block(&[(2, 5, 5); 10])), "refused 1\n");
    assert_eq!(key(&[0, 0, 0, 2, 0, 5, 0, 5]), "refused 2\n");
    let twice = job_block(&[(2, 5, 5)]).repeat(2);
    assert_eq!(key(&twice), "refused 3\n");
    assert_eq!(key(&job_block(&[(0, 5, 5)])), "refused 5\n");
}
