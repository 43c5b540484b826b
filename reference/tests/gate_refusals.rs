//! Each refusal of the start gate's planner and marker by an example, calls at the gate's limits and
//! one past them, and the order in which refusals are sought.

mod common;

use common::{job_block, setting_block, SettingNumbers, Times};
use reference::{gate_mark, gate_plan, mark, plan, Refusal};

/// The byte that every lent output holds before a call.
const LENT: u8 = 0xa5;

/// A call of both entries, to be changed by a test.
#[derive(Clone)]
struct Call {
    block: Vec<u8>,
    quanta: [u8; 2],
    settings: Vec<u8>,
    /// The lengths of the outputs for a configuration and for bounds.
    outputs: [usize; 2],
}

const K2: [Times; 2] = [(6, 8, 8), (5, 22, 22)];

/// A call on the second worked list that both entries accept.
fn accepted() -> Call {
    Call {
        block: job_block(&K2),
        quanta: [1, 16],
        settings: setting_block(&[[1, 2, 2, 3], [2, 2, 2, 1]]),
        outputs: [8, 4],
    }
}

/// A call on so many jobs with a level each.
fn of_jobs(jobs: u8) -> Call {
    let count = usize::from(jobs);
    let settings: Vec<SettingNumbers> = (1..=jobs).map(|id| [id, id, 1, 0]).collect();
    Call {
        block: job_block(&vec![(1, 100, 100); count]),
        settings: setting_block(&settings),
        outputs: [4 * count, 2 * count],
        ..accepted()
    }
}

fn number<T>(answer: Result<T, Refusal>) -> u8 {
    answer.map_or_else(Refusal::number, |_| 0)
}

/// A planner or a marker.
type Plan = fn(&[u8], u8, u8, &mut [u8], &mut [u8]) -> Result<(u8, u16), Refusal>;
type Mark = fn(&[u8], u8, u8, &[u8], &mut [u8]) -> Result<bool, Refusal>;

impl Call {
    /// The refusal's number of a planner, 0 for none. A refusal leaves what is lent.
    fn by_planner(&self, plan: Plan) -> u8 {
        let [lowest, highest] = self.quanta;
        let mut lent = self.outputs.map(|length| vec![LENT; length]);
        let before = lent.clone();
        let [configuration, bounds] = &mut lent;
        let answer = plan(&self.block, lowest, highest, configuration, bounds);
        assert!(answer.is_ok() || lent == before);
        number(answer)
    }

    /// The refusal's number of a marker, 0 for none. A refusal leaves what is lent.
    fn by_marker(&self, mark: Mark) -> u8 {
        let [lowest, highest] = self.quanta;
        let mut lent = vec![LENT; self.outputs[1]];
        let before = lent.clone();
        let answer = mark(&self.block, lowest, highest, &self.settings, &mut lent);
        assert!(answer.is_ok() || lent == before);
        number(answer)
    }

    /// The refusals of the gate's planner and marker.
    fn at_gate(&self) -> [u8; 2] {
        [self.by_planner(gate_plan), self.by_marker(gate_mark)]
    }

    /// The refusals of the mats' planner and marker.
    fn at_mats(&self) -> [u8; 2] {
        [self.by_planner(plan), self.by_marker(mark)]
    }
}

/// A change that puts a fault into a call, with the refusal's number.
type Change = (u8, fn(&mut Call));

/// The gate's answers to a call after a change.
fn changed(mut call: Call, change: impl Fn(&mut Call)) -> [u8; 2] {
    change(&mut call);
    call.at_gate()
}

/// The gate's answers to the second worked list with these quanta.
fn with_quanta(quanta: [u8; 2]) -> [u8; 2] {
    changed(accepted(), |call| call.quanta = quanta)
}

#[test]
fn the_accepted_call_has_no_refusal() {
    assert_eq!(accepted().at_gate(), [0; 2]);
    assert_eq!(accepted().at_mats(), [0; 2]);
}

#[test]
fn four_jobs_are_accepted_and_five_get_15() {
    for jobs in 1..=4 {
        assert_eq!(of_jobs(jobs).at_gate(), [0; 2], "{jobs} jobs");
    }
    for jobs in 5..=8 {
        assert_eq!(of_jobs(jobs).at_gate(), [15; 2], "{jobs} jobs");
        assert_eq!(of_jobs(jobs).at_mats(), [0; 2], "{jobs} jobs");
    }
    assert_eq!(of_jobs(9).at_gate(), [1; 2]);
    assert_eq!(of_jobs(10).at_gate(), [1; 2]);
}

#[test]
fn a_highest_quantum_of_16_is_accepted_17_gets_15_and_65_gets_6() {
    for highest in 1..=255 {
        let number = match highest {
            1..=16 => 0,
            17..=64 => 15,
            _ => 6,
        };
        let call = Call {
            quanta: [1, highest],
            ..of_jobs(4)
        };
        assert_eq!(call.at_gate(), [number; 2], "highest quantum {highest}");
    }
}

#[test]
fn both_limits_together() {
    for jobs in 1..=8 {
        for highest in [1, 4, 15, 16, 17, 18, 63, 64] {
            let is_past = jobs > 4 || highest > 16;
            let call = Call {
                quanta: [1, highest],
                ..of_jobs(jobs)
            };
            assert_eq!(call.at_gate(), [if is_past { 15 } else { 0 }; 2]);
            assert_eq!(call.at_mats(), [0; 2]);
        }
    }
}

#[test]
fn the_highest_quantum_counts_and_not_the_lowest_or_the_width() {
    assert_eq!(of_jobs(1).at_gate(), [0; 2]);
    for quanta in [[17, 17], [64, 64], [16, 17], [2, 17], [50, 64]] {
        assert_eq!(changed(of_jobs(1), |call| call.quanta = quanta), [15; 2]);
    }
    for quanta in [[1, 1], [1, 16], [16, 16], [15, 16]] {
        assert_eq!(changed(of_jobs(1), |call| call.quanta = quanta), [0; 2]);
    }
}

/// The answer of the gate's marker to the second worked list with these quanta and records.
fn marked(quanta: [u8; 2], settings: [SettingNumbers; 2]) -> u8 {
    let call = Call {
        quanta,
        settings: setting_block(&settings),
        ..accepted()
    };
    call.by_marker(gate_mark)
}

#[test]
fn quanta_in_records_do_not_count() {
    let with = |quantum| [[1, 2, 2, quantum], [2, 2, 2, 1]];
    assert_eq!(marked([1, 16], with(16)), 0);
    assert_eq!(marked([1, 16], with(17)), 9);
    assert_eq!(marked([1, 16], with(64)), 9);
    assert_eq!(marked([1, 16], with(255)), 9);
    assert_eq!(marked([1, 15], with(16)), 9);
    assert_eq!(marked([1, 17], with(17)), 15);
    assert_eq!(marked([1, 17], with(16)), 15);
    assert_eq!(marked([1, 17], with(18)), 15);
}

#[test]
fn the_jobs_of_the_block_count_and_not_the_records() {
    let five_records = of_jobs(5).settings;
    let four = changed(of_jobs(4), |call| call.settings = five_records.clone());
    assert_eq!(four, [0, 7]);
    let four_records = of_jobs(4).settings;
    let five = changed(of_jobs(5), |call| call.settings = four_records.clone());
    assert_eq!(five, [15; 2]);
}

#[test]
fn refusals_of_the_jobs_come_before_15() {
    let changes: [Change; 6] = [
        (1, |call| call.block.clear()),
        (1, |call| call.block.push(0)),
        (1, |call| call.block = of_jobs(9).block),
        (2, |call| call.block[8] = 0),
        (3, |call| call.block[8] = 1),
        // The last job's cost is 0.
        (5, |call| *call.block.iter_mut().nth_back(4).unwrap() = 0),
    ];
    // Within the limits, and past them by the jobs, by the quantum and by both.
    for (jobs, highest) in [(2, 16), (5, 16), (2, 17), (5, 17), (8, 64)] {
        for (number, change) in changes {
            let call = Call {
                quanta: [1, highest],
                ..of_jobs(jobs)
            };
            assert_eq!(changed(call, change), [number; 2]);
        }
    }
}

#[test]
fn refusals_of_the_range_come_before_15() {
    for quanta in [
        [0, 4],
        [0, 16],
        [0, 17],
        [0, 64],
        [17, 16],
        [18, 17],
        [64, 17],
        [1, 65],
        [65, 65],
        [1, 255],
        [0, 0],
    ] {
        assert_eq!(with_quanta(quanta), [6; 2], "{quanta:?}");
        let five = changed(of_jobs(5), |call| call.quanta = quanta);
        assert_eq!(five, [6; 2], "{quanta:?}");
    }
}

#[test]
fn refusal_15_comes_before_those_of_the_configuration_and_the_outputs() {
    let later: [Change; 7] = [
        (7, |call| call.settings.clear()),
        (7, |call| call.settings.push(0)),
        (8, |call| call.settings[0] = 200),
        (9, |call| call.settings[2] = 3),
        (10, |call| call.settings[5] = call.settings[1]),
        (11, |call| call.settings[1..4].fill(0)),
        (12, |call| call.outputs[1] -= 1),
    ];
    for (number, change) in later {
        let [_, within] = changed(of_jobs(4), change);
        assert_eq!(within, number);
        let [_, by_jobs] = changed(of_jobs(5), change);
        assert_eq!(by_jobs, 15, "{number}");
        let mut call = of_jobs(4);
        call.quanta[1] = 17;
        let [_, by_quantum] = changed(call, change);
        assert_eq!(by_quantum, 15, "{number}");
    }
}

#[test]
fn short_outputs_past_the_limits_get_15() {
    for outputs in [[15, 8], [16, 7], [0, 0], [0, 8], [16, 0]] {
        let planned = |mut call: Call| {
            call.outputs = outputs;
            call.by_planner(gate_plan)
        };
        assert_eq!(planned(of_jobs(4)), 12, "{outputs:?}");
        assert_eq!(planned(of_jobs(5)), 15, "{outputs:?}");
        let past = Call {
            quanta: [1, 17],
            ..of_jobs(4)
        };
        assert_eq!(planned(past), 15, "{outputs:?}");
    }
    assert_eq!(changed(of_jobs(4), |call| call.outputs[1] = 7), [12; 2]);
}

/// Makes the changes one after the other, each of which has an earlier refusal than those before it.
fn assert_order(mut call: Call, place: usize, changes: &[Change]) {
    assert_eq!(call.at_gate()[place], 0);
    for (number, change) in changes {
        change(&mut call);
        assert_eq!(call.at_gate()[place], *number);
    }
}

#[test]
fn the_order_of_the_gates_planner() {
    assert_order(
        of_jobs(4),
        0,
        &[
            (12, |call| call.outputs = [15, 7]),
            (15, |call| call.quanta = [1, 17]),
            (6, |call| call.quanta = [18, 17]),
            (5, |call| call.block[3] = 0),
            (3, |call| call.block[16] = 2),
            (2, |call| call.block[8] = 0),
            (1, |call| call.block.push(0)),
        ],
    );
}

#[test]
fn the_order_of_the_gates_marker() {
    assert_order(
        accepted(),
        1,
        &[
            (12, |call| call.outputs = [8, 3]),
            (11, |call| {
                call.settings = setting_block(&[[1, 1, 1, 0], [2, 0, 0, 0]])
            }),
            (10, |call| call.settings[2..4].copy_from_slice(&[2, 16])),
            (9, |call| call.settings[3] = 17),
            (8, |call| call.settings[4] = 1),
            (7, |call| call.settings.push(0)),
            (15, |call| call.quanta = [1, 17]),
            (6, |call| call.quanta = [0, 17]),
            (5, |call| call.block[3] = 0),
            (3, |call| call.block[8] = 1),
            (2, |call| call.block[0] = 0),
            (1, |call| call.block.push(0)),
        ],
    );
}
