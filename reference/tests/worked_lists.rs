//! The worked exam lists K1 to K9 with E7's figures, through the planner, the marker and the bounds
//! entry.

mod common;

use common::{bound_numbers, job_block, marked, planned, setting_block, Planned};

#[test]
fn k1_one_job() {
    let expected = Planned {
        placed: 1,
        considered: 1,
        settings: vec![[1, 1, 1, 0]],
        bounds: vec![2],
    };
    assert_eq!(planned(&[(2, 5, 5)], 1, 4), expected);
}

#[test]
fn k2_two_jobs_share_a_level() {
    let expected = Planned {
        placed: 3,
        considered: 3,
        settings: vec![[1, 2, 2, 3], [2, 2, 2, 1]],
        bounds: vec![8, 20],
    };
    assert_eq!(planned(&[(6, 8, 8), (5, 22, 22)], 1, 4), expected);
}

#[test]
fn k2_marked() {
    assert_eq!(
        marked(
            &[(6, 8, 8), (5, 22, 22)],
            1,
            4,
            &[[1, 2, 2, 3], [2, 2, 2, 1]]
        ),
        (true, vec![8, 20])
    );
}

#[test]
fn k3_nothing_placed_in_the_narrow_range() {
    let expected = Planned {
        placed: 0,
        considered: 3,
        settings: vec![[1, 0, 0, 0], [2, 0, 0, 0]],
        bounds: vec![0, 0],
    };
    assert_eq!(planned(&[(6, 8, 8), (5, 22, 22)], 1, 2), expected);
}

#[test]
fn k4_three_single_jobs() {
    let jobs = [(1, 4, 4), (2, 6, 6), (3, 12, 12)];
    let settings = vec![[1, 1, 1, 0], [2, 2, 1, 0], [3, 3, 1, 0]];
    let expected = Planned {
        placed: 7,
        considered: 3,
        settings: settings.clone(),
        bounds: vec![1, 3, 10],
    };
    assert_eq!(planned(&jobs, 1, 4), expected);
    assert_eq!(marked(&jobs, 1, 4, &settings), (true, vec![1, 3, 10]));
    let by_scope = [[1, 2, 1, 0], [2, 1, 1, 0], [3, 3, 1, 0]];
    assert_eq!(marked(&jobs, 1, 4, &by_scope), (true, vec![3, 2, 10]));
}

#[test]
fn k5_quanta_4_and_1_fail() {
    assert_eq!(
        marked(
            &[(6, 8, 8), (5, 22, 22)],
            1,
            4,
            &[[1, 2, 2, 4], [2, 2, 2, 1]]
        ),
        (false, vec![8, 0])
    );
}

#[test]
fn k6_two_levels_fail() {
    assert_eq!(
        marked(
            &[(6, 8, 8), (5, 22, 22)],
            1,
            4,
            &[[1, 1, 1, 0], [2, 2, 1, 0]]
        ),
        (false, vec![6, 0])
    );
}

#[test]
fn k7_two_levels_pass() {
    let jobs = [(6, 8, 8), (5, 23, 23)];
    let settings = vec![[1, 1, 1, 0], [2, 2, 1, 0]];
    assert_eq!(marked(&jobs, 1, 4, &settings), (true, vec![6, 23]));
    let expected = Planned {
        placed: 3,
        considered: 2,
        settings,
        bounds: vec![6, 23],
    };
    assert_eq!(planned(&jobs, 1, 4), expected);
}

#[test]
fn k8_nothing_placed() {
    let expected = Planned {
        placed: 0,
        considered: 3,
        settings: vec![[1, 0, 0, 0], [2, 0, 0, 0]],
        bounds: vec![0, 0],
    };
    assert_eq!(planned(&[(1, 1, 1), (1, 1, 1)], 1, 4), expected);
}

#[test]
fn k9_the_third_job_alone() {
    let jobs = [(6, 8, 8), (5, 22, 22), (1, 100, 100)];
    let settings = vec![[1, 0, 0, 0], [2, 0, 0, 0], [3, 3, 1, 0]];
    let expected = Planned {
        placed: 4,
        considered: 4,
        settings: settings.clone(),
        bounds: vec![0, 0, 64],
    };
    assert_eq!(planned(&jobs, 1, 2), expected);
    let mut output = [0; 6];
    let done = reference::bounds(
        &job_block(&jobs),
        1,
        2,
        &setting_block(&settings),
        &mut output,
    );
    assert_eq!(done, Ok(()));
    assert_eq!(bound_numbers(&output), vec![0, 0, 64]);
}
