//! The edges and the examiners' traps of the scope document.

mod common;

use common::{delayed_jobs, first_bounds, job_block, marked, planned, Times};
use reference::response_time::round_robin_demand;
use reference::{bounds, edit, plan, read_jobs, same_bytes, Refusal};

/// The number of jobs read, or the refusal's number.
fn read(block: &[u8]) -> Result<usize, u8> {
    read_jobs(block).0.map_err(Refusal::number)
}

const K2: [Times; 2] = [(6, 8, 8), (5, 22, 22)];

#[test]
fn the_longest_period_is_60_000() {
    assert_eq!(read(&job_block(&[(1, 60_000, 60_000)])), Ok(1));
    assert_eq!(read(&job_block(&[(1, 60_001, 60_000)])), Err(5));
}

#[test]
fn a_cost_may_equal_its_deadline() {
    assert_eq!(read(&job_block(&[(5, 9, 5)])), Ok(1));
    assert_eq!(read(&job_block(&[(60_000, 60_000, 60_000)])), Ok(1));
    assert_eq!(read(&job_block(&[(6, 9, 5)])), Err(5));
}

#[test]
fn the_longest_deadline_is_60_000_whatever_the_period() {
    assert_eq!(read(&job_block(&[(1, 1, 60_000)])), Ok(1));
    assert_eq!(read(&job_block(&[(1, 1, 60_001)])), Err(5));
    assert_eq!(read(&job_block(&[(60_000, 60_000, 60_001)])), Err(5));
    assert_eq!(read(&job_block(&[(1, 60_000, 65_535)])), Err(5));
    assert_eq!(read(&job_block(&[(5, 8, 9)])), Ok(1));
}

#[test]
fn a_cost_may_equal_its_period_and_not_be_above_it() {
    assert_eq!(read(&job_block(&[(5, 5, 9)])), Ok(1));
    assert_eq!(read(&job_block(&[(6, 5, 9)])), Err(5));
    assert_eq!(read(&job_block(&[(6, 5, 6)])), Err(5));
    assert_eq!(read(&job_block(&[(1, 0, 9)])), Err(5));
}

#[test]
fn a_block_has_at_most_64_bytes() {
    assert_eq!(read(&job_block(&[(1, 9, 9); 8])), Ok(8));
    assert_eq!(read(&job_block(&[(1, 9, 9); 9])), Err(1));
    assert_eq!(read(&job_block(&[(1, 9, 9); 8])[..63]), Err(1));
}

#[test]
fn the_longest_quantum_is_64() {
    let block = job_block(&K2);
    let mut outputs = ([0; 8], [0; 4]);
    let mut plan_to =
        |highest| plan(&block, 1, highest, &mut outputs.0, &mut outputs.1).map_err(Refusal::number);
    assert_eq!(plan_to(64), Ok((3, 3)));
    assert_eq!(plan_to(65), Err(6));
}

#[test]
fn ids_rise_strictly() {
    let mut block = job_block(&K2);
    (block[0], block[8]) = (3, 3);
    assert_eq!(read(&block), Err(3));
    block[8] = 4;
    assert_eq!(read(&block), Ok(2));
}

#[test]
fn id_0_is_refused_before_cost_0() {
    assert_eq!(read(&[0, 0, 0, 0, 0, 9, 0, 9]), Err(2));
}

#[test]
fn unequal_lengths_are_not_the_same_bytes_and_empty_blocks_are() {
    assert!(same_bytes(&[], &[]));
    assert!(!same_bytes(&[], &[0]));
    assert!(!same_bytes(&[1, 2], &[1, 2, 3]));
    assert!(!same_bytes(&[1, 2, 3], &[1, 2, 4]));
    assert!(same_bytes(&[1, 2, 3], &[1, 2, 3]));
}

#[test]
fn an_edit_leaves_the_id_the_delay_and_the_other_entries() {
    let jobs_with = |edited| delayed_jobs(&[((0, 0, 0), 255), (edited, 3), ((9, 1, 5), 0)]);
    let mut jobs = jobs_with((6, 8, 8));
    assert_eq!(edit(&mut jobs, 1, 5, 60_000, 7), Ok(()));
    assert_eq!(jobs, jobs_with((5, 60_000, 7)));
}

#[test]
fn trap_the_largest_quantum_for_everyone() {
    assert_eq!(round_robin_demand(6, 4, 4), 14);
    let longer = [(6, 22, 22), (5, 22, 22)];
    let settings = [[1, 1, 2, 4], [2, 1, 2, 4]];
    assert_eq!(first_bounds(&longer, &[4, 4]), vec![14, 13]);
    assert_eq!(marked(&longer, 1, 4, &settings), (true, vec![11, 11]));
    assert_eq!(first_bounds(&K2, &[4, 4]), vec![0, 13]);
    assert_eq!(marked(&K2, 1, 4, &settings), (false, vec![0, 13]));
}

#[test]
fn trap_rate_order_instead_of_search() {
    let rate_order = [[1, 1, 1, 0], [2, 2, 1, 0]];
    assert!(!marked(&K2, 1, 4, &rate_order).0);
    assert_eq!(planned(&K2, 1, 4).placed, 3);
}

#[test]
fn trap_a_job_above_counts_once_per_period() {
    let settings = [[1, 1, 1, 0], [2, 2, 1, 0]];
    assert_eq!(marked(&K2, 1, 4, &settings).1, vec![6, 0]);
}

#[test]
fn trap_larger_sets_come_after_single_jobs_that_do_not_fit() {
    let answer = planned(&[(6, 8, 8), (5, 22, 22), (1, 100, 100)], 1, 4);
    assert_eq!(answer.placed, 7);
    assert_eq!(answer.settings, [[1, 2, 2, 3], [2, 2, 2, 1], [3, 3, 1, 0]]);
}

#[test]
fn trap_the_smaller_level_runs_first() {
    let jobs = [(6, 8, 8), (5, 23, 23)];
    let opposite = [[1, 2, 1, 0], [2, 1, 1, 0]];
    assert_eq!(marked(&jobs, 1, 4, &opposite), (false, vec![0, 5]));
}

#[test]
fn a_job_not_placed_is_above_and_has_bound_0() {
    let block = job_block(&[(6, 8, 8), (5, 23, 23)]);
    let mut output = [9; 6];
    let done = bounds(&block, 1, 4, &[1, 0, 0, 0, 2, 1, 1, 0], &mut output);
    assert_eq!(done, Ok(()));
    assert_eq!(output, [0, 0, 0, 23, 9, 9]);
}

#[test]
fn demands_above_two_bytes_are_not_cut_off() {
    let jobs = [(40_000, 60_000, 60_000), (30_000, 60_000, 60_000)];
    let settings = [[1, 2, 1, 0], [2, 1, 1, 0]];
    assert_eq!(marked(&jobs, 1, 4, &settings), (false, vec![0, 30_000]));
    assert_eq!(planned(&jobs, 1, 64).placed, 0);
}
