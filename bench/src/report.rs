//! The lines of the table.

use crate::timing::Sides;

/// What a figure is held to.
pub enum Goal {
    AtMost(f64),
    AtLeast(f64),
}

impl Goal {
    fn text(&self, figure: f64, written: impl Fn(f64) -> String) -> String {
        let (sign, limit, met) = match *self {
            Goal::AtMost(limit) => ("<=", limit, figure <= limit),
            Goal::AtLeast(limit) => (">=", limit, limit <= figure),
        };
        let verdict = if met { "met" } else { "missed" };
        format!("  goal {sign} {}  {verdict}", written(limit))
    }
}

/// Seconds in a unit that suits them.
fn time(seconds: f64) -> String {
    let (scale, unit) = match seconds {
        _ if seconds < 1e-6 => (1e9, "ns"),
        _ if seconds < 1e-3 => (1e6, "us"),
        _ if seconds < 1.0 => (1e3, "ms"),
        _ => (1.0, "s"),
    };
    format!("{:.1} {unit}", seconds * scale)
}

/// Calls in a second.
fn rate(seconds: f64) -> String {
    format!("{:.0} per s", 1.0 / seconds)
}

/// The figures of both sides.
fn figures(name: &str, times: &Sides, other: &str, written: fn(f64) -> String) -> String {
    let ours = written(times.ours);
    let theirs = written(times.other);
    format!("{name:<42}  ours {ours:>8}  {other} {theirs:>8}")
}

/// A line with the product's time in parts of the other's.
pub fn ratio(name: &str, times: &Sides, other: &str, goal: Goal) {
    let ratio = times.ratio();
    let goal = goal.text(ratio, |limit| limit.to_string());
    println!(
        "{}  ratio {ratio:.2}{goal}",
        figures(name, times, other, time)
    );
}

/// A line with how many times faster than the other side the product is.
pub fn faster(name: &str, times: &Sides, other: &str, goal: Option<Goal>) {
    let faster = times.times_faster();
    let goal = goal.map_or(String::new(), |goal| {
        goal.text(faster, |limit| limit.to_string())
    });
    println!(
        "{}  faster {faster:.1}{goal}",
        figures(name, times, other, time)
    );
}

/// A line with the product's time held to a goal in seconds, if there is one.
pub fn within(name: &str, times: &Sides, other: &str, limit: Option<f64>) {
    let goal = limit.map_or(String::new(), |limit| {
        Goal::AtMost(limit).text(times.ours, time)
    });
    let ratio = times.ratio();
    println!(
        "{}  ratio {ratio:.2}{goal}",
        figures(name, times, other, time)
    );
}

/// A line with calls in a second.
pub fn per_second(name: &str, times: &Sides, other: &str) {
    let ratio = times.ratio();
    println!("{}  ratio {ratio:.2}", figures(name, times, other, rate));
}

/// A line that belongs to the one before.
pub fn note(text: &str) {
    println!("    {text}");
}
