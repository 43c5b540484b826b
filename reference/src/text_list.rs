//! Lists as texts: a line for each job and perhaps one for the range of quanta.

use std::str::FromStr;

use crate::configuration::QuantumRange;
use crate::jobs::Job;
use crate::key::KEY_RANGE;

/// What a line says.
enum Line {
    Nothing,
    Job(Job),
    Range(QuantumRange),
}

/// A decimal number, which is written with digits alone.
fn number<N: FromStr>(word: &str) -> Result<N, String> {
    let has_digits_alone = word.bytes().all(|byte| byte.is_ascii_digit());
    let number = word.parse().ok().filter(|_| has_digits_alone);
    number.ok_or_else(|| format!("`{word}` is not a number, or too large"))
}

/// What a line says, without what follows `#`.
fn line_of_text(text: &str) -> Result<Line, String> {
    let content = text.split('#').next().unwrap_or("");
    let words: Vec<&str> = content.split_ascii_whitespace().collect();
    Ok(match words.as_slice() {
        [] => Line::Nothing,
        ["quanta", lowest, highest] => Line::Range(QuantumRange {
            lowest: number(lowest)?,
            highest: number(highest)?,
        }),
        [id, cost, period, deadline, delay @ ..] if delay.len() <= 1 => Line::Job(Job {
            id: number(id)?,
            delay: delay.first().map_or(Ok(0), |delay| number(delay))?,
            cost: number(cost)?,
            period: number(period)?,
            deadline: number(deadline)?,
        }),
        _ => return Err("it is neither a job nor a range of quanta".to_string()),
    })
}

/// The jobs and the range of a text, which are not judged; without a line for the range it is that
/// of the key program. An error names the line.
pub fn list_of_text(text: &str) -> Result<(Vec<Job>, QuantumRange), String> {
    // A text may begin with a UTF-8 mark.
    let text = text.strip_prefix('\u{feff}').unwrap_or(text);
    let mut jobs = Vec::new();
    let mut range = None;
    for (place, line) in (1..).zip(text.lines()) {
        match line_of_text(line).map_err(|error| format!("line {place}: {error}"))? {
            Line::Nothing => {}
            Line::Job(job) => jobs.push(job),
            Line::Range(_) if range.is_some() => {
                return Err(format!("line {place}: it is a second range of quanta"));
            }
            Line::Range(found) => range = Some(found),
        }
    }
    Ok((jobs, range.unwrap_or(KEY_RANGE)))
}
