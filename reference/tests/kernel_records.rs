//! Kernel records: worked figures, the edges of the priorities, and the ways there and back.

mod common;

use common::{job_block, setting_block, Conversion, SettingNumbers, Times};
use reference::generation::random::Random;
use reference::kernel::{
    judge_priority_range, level_of_priority, priority_of_level, KernelPriority, Level,
};
use reference::{from_kernel, to_kernel, Refusal};

/// The bytes that every lent output holds before a call.
const LENT: u8 = 0xa5;

/// How many bytes an output has past the need.
const PAST: usize = 3;

const K2: [Times; 2] = [(6, 8, 8), (5, 22, 22)];

/// The key of the second worked list, and its kernel records for priorities 1 to 99.
const KEY: [SettingNumbers; 2] = [[1, 2, 2, 3], [2, 2, 2, 1]];
const KERNEL_KEY: [KernelNumbers; 2] = [[1, 2, 98, 3], [2, 2, 98, 1]];

/// A kernel record's id, policy, priority and quantum.
type KernelNumbers = [u8; 4];

/// The records that a conversion writes, with quanta from 1 to 4, or the refusal's number.
fn converted(
    conversion: Conversion,
    times: &[Times],
    [lowest, highest]: [u8; 2],
    records: &[[u8; 4]],
) -> Result<Vec<[u8; 4]>, u8> {
    let (block, given) = (job_block(times), setting_block(records));
    let need = 4 * times.len();
    let mut output = vec![LENT; need + PAST];
    let answer = conversion(&block, 1, 4, lowest, highest, &given, &mut output);
    let written = if answer.is_ok() { need } else { 0 };
    assert!(output[written..].iter().all(|byte| *byte == LENT));
    let records = output[..need].chunks(4);
    let records = records.map(|record| record.try_into().expect("a record has four bytes"));
    answer.map(|()| records.collect()).map_err(Refusal::number)
}

/// The kernel records of a configuration of so many jobs, which is compared with the configuration
/// of these records.
fn there_and_back(
    priorities: [u8; 2],
    configuration: &[SettingNumbers],
) -> Result<Vec<KernelNumbers>, u8> {
    let times = vec![(1, 9, 9); configuration.len()];
    let kernel = converted(to_kernel, &times, priorities, configuration)?;
    let back = converted(from_kernel, &times, priorities, &kernel);
    assert_eq!(back, Ok(configuration.to_vec()));
    Ok(kernel)
}

/// The configuration of kernel records of so many jobs, which is compared with the kernel records
/// of this configuration.
fn back_and_there(
    priorities: [u8; 2],
    kernel: &[KernelNumbers],
) -> Result<Vec<SettingNumbers>, u8> {
    let times = vec![(1, 9, 9); kernel.len()];
    let configuration = converted(from_kernel, &times, priorities, kernel)?;
    let there = converted(to_kernel, &times, priorities, &configuration);
    assert_eq!(there, Ok(kernel.to_vec()));
    Ok(configuration)
}

/// A level for each of so many jobs, the first job on the first level.
fn ladder(jobs: u8) -> Vec<SettingNumbers> {
    (1..=jobs).map(|id| [id, id, 1, 0]).collect()
}

/// The priorities of kernel records.
fn priorities_of(kernel: &[KernelNumbers]) -> Vec<u8> {
    kernel.iter().map(|record| record[2]).collect()
}

#[test]
fn the_key_of_k2_with_priorities_1_to_99() {
    let there = converted(to_kernel, &K2, [1, 99], &KEY);
    assert_eq!(there, Ok(KERNEL_KEY.to_vec()));
    let back = converted(from_kernel, &K2, [1, 99], &KERNEL_KEY);
    assert_eq!(back, Ok(KEY.to_vec()));
}

#[test]
fn level_8_with_highest_7_is_priority_0() {
    let kernel = there_and_back([0, 7], &ladder(8)).unwrap();
    assert_eq!(priorities_of(&kernel), [7, 6, 5, 4, 3, 2, 1, 0]);
    let shared: Vec<SettingNumbers> = (1..=8).map(|id| [id, 8, 2, 4]).collect();
    let kernel = there_and_back([0, 7], &shared).unwrap();
    assert_eq!(priorities_of(&kernel), [0; 8]);
}

#[test]
fn priorities_from_0_to_255_are_256_values() {
    let kernel = there_and_back([0, 255], &ladder(8)).unwrap();
    let expected = [255, 254, 253, 252, 251, 250, 249, 248];
    assert_eq!(priorities_of(&kernel), expected);
    let kernel = there_and_back([248, 255], &ladder(8)).unwrap();
    assert_eq!(priorities_of(&kernel), expected);
}

#[test]
fn one_job_needs_one_priority() {
    for priority in 0..=255 {
        let kernel = there_and_back([priority, priority], &ladder(1));
        assert_eq!(kernel, Ok(vec![[1, 1, priority, 0]]));
    }
}

#[test]
fn as_many_priorities_as_jobs_are_enough_and_one_less_is_not() {
    for jobs in 1..=8 {
        for highest in jobs - 1..=255 {
            let lowest = highest - (jobs - 1);
            assert!(there_and_back([lowest, highest], &ladder(jobs)).is_ok());
            if lowest < 255 {
                let few = there_and_back([lowest + 1, highest], &ladder(jobs));
                assert_eq!(few, Err(13));
            }
        }
    }
}

#[test]
fn a_lowest_priority_above_the_highest_is_refused() {
    for (lowest, highest) in [(1, 0), (255, 0), (255, 254), (99, 1), (100, 99)] {
        for jobs in 1..=8 {
            let refused = judge_priority_range(lowest, highest, usize::from(jobs));
            assert_eq!(refused, Err(Refusal::PriorityRange));
            let times = vec![(1, 9, 9); usize::from(jobs)];
            for conversion in [to_kernel, from_kernel] {
                let records = ladder(jobs);
                let refused = converted(conversion, &times, [lowest, highest], &records);
                assert_eq!(refused, Err(13));
            }
        }
    }
}

#[test]
fn the_lowest_priority_decides_nothing_else() {
    for lowest in 0..=98 {
        assert_eq!(there_and_back([lowest, 99], &KEY), Ok(KERNEL_KEY.to_vec()));
        let below_the_top = [[1, 1, 99, 0], [2, 1, 97, 0]];
        assert_eq!(back_and_there([lowest, 99], &below_the_top), Err(14));
    }
}

#[test]
fn levels_and_priorities_are_converted_there_and_back() {
    for highest in 0..=255_u8 {
        for level in 1..=highest.saturating_add(1).min(8) {
            let priority = priority_of_level(Level(level), KernelPriority(highest));
            let expected = i32::from(highest) - i32::from(level) + 1;
            assert_eq!(i32::from(priority.0), expected);
            let back = level_of_priority(priority, KernelPriority(highest));
            assert_eq!(back, Level(level));
        }
    }
}

#[test]
fn the_smaller_level_has_the_greater_priority() {
    for highest in 7..=255 {
        let priority = |level| priority_of_level(Level(level), KernelPriority(highest));
        for level in 1..8 {
            assert!(Level(level) < Level(level + 1));
            assert!(priority(level) > priority(level + 1));
        }
    }
}

/// Priorities for so many jobs.
fn any_priorities(random: &mut Random, jobs: usize) -> [u8; 2] {
    let highest = random.between(jobs - 1, 255);
    let lowest = random.between(0, highest + 1 - jobs);
    let any = [lowest as u8, highest as u8];
    random.choose(&[any, any, [0, 255], [0, jobs as u8 - 1]])
}

/// For each of so many jobs its distance from the top, which jobs may share, its policy and its
/// quantum.
fn any_layers(random: &mut Random, jobs: usize) -> Vec<[u8; 3]> {
    let distances: Vec<u8> = (0..jobs).map(|_| random.byte(0, jobs as u8 - 1)).collect();
    let mut layers = Vec::new();
    for distance in &distances {
        let is_shared = distances.iter().filter(|other| *other == distance).count() > 1;
        layers.push(match is_shared {
            true => [*distance, 2, random.byte(1, 4)],
            false => [*distance, 1, 0],
        });
    }
    layers
}

#[test]
fn random_configurations_come_back_from_the_kernel() {
    for case in 0..4_000 {
        let mut random = Random::of_case(51, case);
        let jobs = random.between(1, 8);
        let priorities = any_priorities(&mut random, jobs);
        let layers = any_layers(&mut random, jobs);
        let configuration: Vec<SettingNumbers> = (1..)
            .zip(layers)
            .map(|(id, [distance, policy, quantum])| [id, distance + 1, policy, quantum])
            .collect();
        let kernel = there_and_back(priorities, &configuration).unwrap();
        for (one, of_one) in configuration.iter().zip(&kernel) {
            for (other, of_other) in configuration.iter().zip(&kernel) {
                assert_eq!(one[1] < other[1], of_one[2] > of_other[2]);
            }
        }
    }
}

/// All records of a job with policies up to 3, quanta up to 5, and values that are the top two, up
/// to two below them or up to two above them.
fn records_about(id: u8, highest: u8) -> Vec<KernelNumbers> {
    let mut records = Vec::new();
    for policy in 0..=3 {
        for priority in highest - 3..=highest + 2 {
            records.extend((0..=5).map(|quantum| [id, policy, priority, quantum]));
        }
    }
    records
}

/// The configuration record of a kernel record: "level v becomes highest − v + 1, and back".
fn setting_numbers(kernel: KernelNumbers, highest: u8) -> SettingNumbers {
    let [id, policy, priority, quantum] = kernel;
    // A level below 0 is the byte of another one that no job has.
    let level = i32::from(highest) - i32::from(priority) + 1;
    [id, level as u8, policy, quantum]
}

#[test]
fn kernel_records_are_accepted_exactly_if_their_configuration_is() {
    let mut accepted = 0;
    for first in records_about(1, 42) {
        for second in records_about(2, 42) {
            let kernel = [first, second];
            let configuration = kernel.map(|record| setting_numbers(record, 42));
            let there = converted(to_kernel, &K2, [7, 42], &configuration);
            let back = converted(from_kernel, &K2, [7, 42], &kernel);
            assert_eq!(there.is_ok(), back.is_ok(), "{kernel:?}");
            if back.is_ok() {
                assert_eq!(there, Ok(kernel.to_vec()));
                assert_eq!(back, Ok(configuration.to_vec()));
                accepted += 1;
            }
        }
    }
    // Two orders on two priorities, and sixteen pairs of quanta on either.
    assert_eq!(accepted, 2 + 2 * 16);
}

#[test]
fn random_kernel_records_come_back_from_the_configuration() {
    for case in 0..4_000 {
        let mut random = Random::of_case(52, case);
        let jobs = random.between(1, 8);
        let priorities = any_priorities(&mut random, jobs);
        let layers = any_layers(&mut random, jobs);
        let kernel: Vec<KernelNumbers> = (1..)
            .zip(layers)
            .map(|(id, [distance, policy, quantum])| {
                [id, policy, priorities[1] - distance, quantum]
            })
            .collect();
        let configuration = back_and_there(priorities, &kernel).unwrap();
        for (setting, record) in configuration.iter().zip(&kernel) {
            let level = i32::from(priorities[1]) - i32::from(record[2]) + 1;
            assert_eq!(i32::from(setting[1]), level);
        }
    }
}
