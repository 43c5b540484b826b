//! What the tests share: blocks from plain numbers, the planner's and the marker's answers as plain
//! numbers, random lists, and the bounds by searches written from the texts about them.
#![allow(dead_code)]

pub mod comparisons;
pub mod readings;

use reference::configuration::{Setting, FIFO, NOT_PLACED, ROUND_ROBIN};
use reference::generation::long_deadlines::finish_by_recurrence;
use reference::generation::random::Random;
use reference::jobs::{record_of_job, Job};
use reference::response_time::{
    bound, first_bound, jobs_above, layer_demand, neighbours, run_of_job, second_bound,
};
use reference::Refusal;

/// A job's C, T and D.
pub type Times = (u16, u16, u16);

/// A setting's id, level, policy and quantum.
pub type SettingNumbers = [u8; 4];

/// An entry that converts a configuration into kernel records or back.
pub type Conversion = fn(&[u8], u8, u8, u8, u8, &[u8], &mut [u8]) -> Result<(), Refusal>;

/// The planner's whole answer as plain numbers.
#[derive(Debug, PartialEq, Eq)]
pub struct Planned {
    pub placed: u8,
    pub considered: u16,
    pub settings: Vec<SettingNumbers>,
    pub bounds: Vec<u16>,
}

/// Jobs with ids 1, 2, 3 and so on, each with its J.
pub fn delayed_jobs(times: &[(Times, u8)]) -> Vec<Job> {
    let mut jobs = Vec::new();
    for (index, ((cost, period, deadline), delay)) in times.iter().enumerate() {
        jobs.push(Job {
            id: index as u8 + 1,
            delay: *delay,
            cost: *cost,
            period: *period,
            deadline: *deadline,
        });
    }
    jobs
}

/// Jobs with ids 1, 2, 3 and so on, and without delays.
pub fn jobs(times: &[Times]) -> Vec<Job> {
    let without_delays: Vec<(Times, u8)> = times.iter().map(|times| (*times, 0)).collect();
    delayed_jobs(&without_delays)
}

/// The job block of jobs.
pub fn block_of_jobs(jobs: &[Job]) -> Vec<u8> {
    jobs.iter().flat_map(record_of_job).collect()
}

/// The job block of jobs with ids 1, 2, 3 and so on, and without delays.
pub fn job_block(times: &[Times]) -> Vec<u8> {
    block_of_jobs(&jobs(times))
}

/// A configuration block.
pub fn setting_block(settings: &[SettingNumbers]) -> Vec<u8> {
    settings.concat()
}

/// The two-byte numbers of an output.
pub fn bound_numbers(output: &[u8]) -> Vec<u16> {
    output
        .chunks(2)
        .map(|pair| u16::from_be_bytes([pair[0], pair[1]]))
        .collect()
}

/// The planner's answer for jobs without delays that it accepts.
pub fn planned(times: &[Times], low: u8, high: u8) -> Planned {
    planned_jobs(&jobs(times), low, high)
}

/// The planner's answer for jobs that it accepts.
pub fn planned_jobs(jobs: &[Job], low: u8, high: u8) -> Planned {
    let mut configuration = vec![0xaa; 4 * jobs.len()];
    let mut bounds = vec![0xbb; 2 * jobs.len()];
    let block = block_of_jobs(jobs);
    let answer = reference::plan(&block, low, high, &mut configuration, &mut bounds);
    let (placed, considered) = answer.expect("the list and the range are accepted");
    Planned {
        placed,
        considered,
        settings: configuration
            .chunks(4)
            .map(|record| [record[0], record[1], record[2], record[3]])
            .collect(),
        bounds: bound_numbers(&bounds),
    }
}

/// The marker's answer and bounds for jobs without delays and a configuration that it accepts.
pub fn marked(times: &[Times], low: u8, high: u8, settings: &[SettingNumbers]) -> (bool, Vec<u16>) {
    marked_jobs(&jobs(times), low, high, settings)
}

/// The marker's answer and bounds for jobs and a configuration that it accepts.
pub fn marked_jobs(
    jobs: &[Job],
    low: u8,
    high: u8,
    settings: &[SettingNumbers],
) -> (bool, Vec<u16>) {
    let mut output = vec![0xcc; 2 * jobs.len()];
    let block = block_of_jobs(jobs);
    let answer = reference::mark(&block, low, high, &setting_block(settings), &mut output);
    let passes = answer.expect("the configuration is accepted");
    (passes, bound_numbers(&output))
}

/// The settings of jobs with ids 1, 2, 3 and so on that share level 1, with these quanta.
pub fn shared_level(quanta: &[u8]) -> Vec<Setting> {
    let mut settings = Vec::new();
    for (index, quantum) in quanta.iter().enumerate() {
        settings.push(Setting {
            id: index as u8 + 1,
            level: 1,
            policy: ROUND_ROBIN,
            quantum: *quantum,
        });
    }
    settings
}

/// The first bounds, the second bounds and the bounds of jobs.
pub fn bounds_of_jobs(jobs: &[Job], settings: &[Setting]) -> [Vec<u16>; 3] {
    [first_bound, second_bound, bound].map(|bound_of_job| {
        (0..jobs.len())
            .map(|index| bound_of_job(jobs, settings, index))
            .collect()
    })
}

/// The first bounds, the second bounds and the bounds of jobs without delays.
pub fn all_bounds(times: &[Times], settings: &[Setting]) -> [Vec<u16>; 3] {
    bounds_of_jobs(&jobs(times), settings)
}

/// The first bounds of jobs that share a level, with these quanta.
pub fn first_bounds(times: &[Times], quanta: &[u8]) -> Vec<u16> {
    let [first, _, _] = all_bounds(times, &shared_level(quanta));
    first
}

/// The demand at a time by the first bound's text, with own work in place of the job's C.
pub fn demand(jobs: &[Job], settings: &[Setting], index: usize, own_work: u64, time: u64) -> u64 {
    let own = &settings[index];
    let mut demand = own_work;
    for (other, (job, setting)) in jobs.iter().zip(settings).enumerate() {
        let (period, cost) = (u64::from(job.period), u64::from(job.cost));
        if setting.level < own.level {
            demand += (time + u64::from(job.delay)).div_ceil(period) * cost;
        } else if setting.level == own.level && other != index {
            let quantum = u64::from(own.quantum);
            demand += own_work.div_ceil(quantum) * u64::from(setting.quantum);
        }
    }
    demand
}

/// The finishes of a job's instances by the text about the first bound, up to the one that closes
/// the run, every time being tried from 1 on for every instance; none if the bound is 0. The last
/// time tried is above j·T + D for the short times of the lists that it is given.
pub fn finishes_of_instances(jobs: &[Job], settings: &[Setting], index: usize) -> Option<Vec<u64>> {
    let job = &jobs[index];
    let (period, deadline) = (u64::from(job.period), u64::from(job.deadline));
    let delay = u64::from(job.delay);
    let mut finishes = Vec::new();
    for instance in 0..64 {
        let own_work = (instance + 1) * u64::from(job.cost);
        let equals = |time: &u64| demand(jobs, settings, index, own_work, *time) == *time;
        let finish = (1..4_000).find(equals)?;
        if finish + delay - instance * period > deadline {
            return None;
        }
        finishes.push(finish);
        if finish + delay <= (instance + 1) * period {
            return Some(finishes);
        }
    }
    None
}

/// The responses of instances with these finishes.
pub fn responses_of_finishes(job: &Job, finishes: &[u64]) -> Vec<u64> {
    let releases = (0..).map(|instance| instance * u64::from(job.period));
    let finishes = finishes.iter().zip(releases);
    finishes
        .map(|(finish, release)| finish + u64::from(job.delay) - release)
        .collect()
}

/// The first bound by the text about instances.
pub fn bound_of_instances(jobs: &[Job], settings: &[Setting], index: usize) -> u16 {
    let Some(finishes) = finishes_of_instances(jobs, settings, index) else {
        return 0;
    };
    let responses = responses_of_finishes(&jobs[index], &finishes);
    responses.into_iter().max().unwrap_or(0) as u16
}

/// The bound of a policy 2 job as it would be with the lesser of the two finishes taken instance by
/// instance. The bound is the lesser of two whole bounds instead, so that some bounds differ.
pub fn bound_instance_by_instance(jobs: &[Job], settings: &[Setting], index: usize) -> u16 {
    let above = jobs_above(jobs, settings, index);
    let above_or_beside = [above.clone(), neighbours(jobs, settings, index)].concat();
    let lesser_finish = |own_work, earliest, latest| {
        let demand = layer_demand(settings, index, own_work);
        let first = finish_by_recurrence(demand, &above, earliest, latest);
        let second = finish_by_recurrence(own_work, &above_or_beside, earliest, latest);
        first.into_iter().chain(second).min()
    };
    run_of_job(&jobs[index], |own_work| own_work, lesser_finish).bound()
}

/// Any settings for so many jobs: level 0 is not placed, and jobs of one level share it.
pub fn any_settings(random: &mut Random, count: usize) -> Vec<Setting> {
    let levels: Vec<u8> = (0..count).map(|_| random.byte(0, count as u8)).collect();
    let mut settings = Vec::new();
    for level in &levels {
        let on_level = levels.iter().filter(|other| *other == level).count();
        let policy = if *level == 0 {
            NOT_PLACED
        } else {
            on_level.min(2) as u8
        };
        let quantum = if policy == ROUND_ROBIN {
            random.byte(1, 8)
        } else {
            0
        };
        settings.push(Setting {
            id: 0,
            level: *level,
            policy,
            quantum,
        });
    }
    settings
}

/// The settings with a job alone on its level and its neighbours not placed, which makes them count
/// as above it.
pub fn with_neighbours_above(settings: &[Setting], index: usize) -> Vec<Setting> {
    let mut changed = settings.to_vec();
    for (other, setting) in changed.iter_mut().enumerate() {
        if other == index {
            (setting.policy, setting.quantum) = (FIFO, 0);
        } else if setting.level == settings[index].level {
            (setting.level, setting.policy, setting.quantum) = (0, NOT_PLACED, 0);
        }
    }
    changed
}

/// The two bounds of a job by a function for the first. A policy 1 job has no second one, and a job
/// not placed has neither.
pub fn two_bounds_by(
    first_bound: fn(&[Job], &[Setting], usize) -> u16,
    jobs: &[Job],
    settings: &[Setting],
    index: usize,
) -> [u16; 2] {
    let policy = settings[index].policy;
    if policy == NOT_PLACED {
        return [0, 0];
    }
    let first = first_bound(jobs, settings, index);
    if policy == FIFO {
        return [first, 0];
    }
    let above = with_neighbours_above(settings, index);
    [first, first_bound(jobs, &above, index)]
}

/// A list without delays, with its settings; `deadline` chooses a job's deadline from its C and T.
pub fn any_list(
    random: &mut Random,
    longest: u16,
    deadline: fn(&mut Random, u16, u16) -> u16,
) -> (Vec<Job>, Vec<Setting>) {
    let count = random.between(1, 8);
    let mut list = Vec::new();
    for _ in 0..count {
        let period = random.ticks(1, longest);
        let cost = random.ticks(1, (period / count as u16).max(1));
        let deadline = deadline(random, cost, period);
        list.push((cost, period, deadline));
    }
    (jobs(&list), any_settings(random, count))
}

/// A list with short times, its settings and its delays. Some delays are above periods and above
/// deadlines.
pub fn any_delayed_list(random: &mut Random) -> (Vec<Job>, Vec<Setting>) {
    let longest = random.choose(&[5, 12, 30]);
    let (mut jobs, settings) = any_list(random, longest, |random, cost, period| {
        random.ticks(cost, 8 * period)
    });
    let most = random.choose(&[1, 4, 12, 60]);
    for job in &mut jobs {
        job.delay = random.byte(0, most);
    }
    (jobs, settings)
}

/// A list of two to four jobs whose costs over their periods sum to about 1, so that often no job
/// fits below all others. Some deadlines are above periods. It has no delays.
pub fn near_full_list(random: &mut Random) -> Vec<Job> {
    let count = random.ticks(2, 4);
    let mut times = Vec::new();
    for _ in 0..count {
        let period = random.ticks(4, 60);
        let cost = period * random.ticks(1, 5) / (3 * count);
        let cost = cost.clamp(1, period);
        let any = random.ticks(cost, 2 * period);
        times.push((cost, period, random.choose(&[period, period, any])));
    }
    jobs(&times)
}
