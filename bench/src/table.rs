//! Measured rows as lines of text, and the tables that one or several runs give.

use crate::case::Case;
use crate::cases::FULL;
use crate::measure::Times;

/// The rows of one case over all runs.
struct Row {
    part: String,
    name: String,
    goal: Option<f64>,
    joins: Option<f64>,
    times: Vec<Times>,
}

/// A measured case as a line: part, name, goal, joins and both times, parted by tabs.
pub fn line(case: &Case, times: &Times) -> String {
    let number = |value: Option<f64>| value.map_or("-".to_string(), |value| value.to_string());
    let (goal, joins) = (number(case.goal), number(case.joins()));
    format!("{}\t{}\t{goal}\t{joins}\t{}\t{}", case.part, case.name, times.ours, times.reference)
}

/// The tables of all lines, in Markdown; runs stand one after another.
pub fn tables(lines: &str) -> Result<String, String> {
    let mut rows: Vec<Row> = Vec::new();
    for (place, line) in lines.lines().enumerate() {
        let row = read(line).ok_or(format!("line {} is no measured row", place + 1))?;
        match rows.iter_mut().find(|one| (&one.part, &one.name) == (&row.part, &row.name)) {
            Some(known) => known.times.extend(row.times),
            None => rows.push(row),
        }
    }
    let mut text = String::new();
    let mut part = "";
    for row in &rows {
        if row.part != part {
            part = &row.part;
            text += &format!(
                "\n| {part} | library, ns | reference, ns | times faster | goal |\n|---|---|---|---|---|\n"
            );
        }
        text += &print(row);
    }
    text += &by_joins(&rows);
    for (what, of, than) in [("writes", "write", "load"), ("tells the length of", "length", "write")] {
        if let Some((told, verdict)) = share(&rows, of, than) {
            text += &format!("\nThe library {what} the full file in {told} of the time of its {than}. Goal, at most {verdict}\n");
        }
    }
    Ok(text)
}

/// The library's time of each accepted edit, and what part of it falls on one join.
fn by_joins(rows: &[Row]) -> String {
    let mut text =
        "\n| accepted edit | joins | library, ns | ns for each join |\n|---|---|---|---|\n".to_string();
    for row in rows {
        let Some(joins) = row.joins else {
            continue;
        };
        let times: Vec<f64> = row.times.iter().map(|times| times.ours).collect();
        let each: Vec<f64> = times.iter().map(|time| time / joins).collect();
        text += &format!(
            "| {}: {} | {joins} | {} | {} |\n",
            row.part,
            row.name,
            spread(&times, nanoseconds),
            spread(&each, |time| format!("{time:.1}")),
        );
    }
    text
}

/// The library's write of the full file is to take at most this part of the time of its load, and its length at
/// most this part of the time of its write.
const SHARE_GOAL: f64 = 0.5;

/// What part of the time of another call on the full file a call takes, run by run, and whether that is the goal.
fn share(rows: &[Row], of: &str, than: &str) -> Option<(String, String)> {
    let times = |part: &str| {
        rows.iter().find(|row| row.part == part && row.name.starts_with(FULL)).map(|row| &row.times)
    };
    let both = times(of)?.iter().zip(times(than)?);
    let parts: Vec<f64> = both.map(|(one, other)| one.ours / other.ours).collect();
    let met = parts.iter().filter(|&&part| part <= SHARE_GOAL).count();
    Some((spread(&parts, |part| format!("{part:.2}")), verdict(SHARE_GOAL, met, parts.len())))
}

fn read(line: &str) -> Option<Row> {
    let fields: Vec<&str> = line.split('\t').collect();
    let [part, name, goal, joins, ours, reference] = fields.as_slice() else {
        return None;
    };
    let number = |text: &str| if text == "-" { Some(None) } else { text.parse().ok().map(Some) };
    let (goal, joins) = (number(goal)?, number(joins)?);
    let times = Times { ours: ours.parse().ok()?, reference: reference.parse().ok()? };
    Some(Row { part: part.to_string(), name: name.to_string(), goal, joins, times: vec![times] })
}

fn print(row: &Row) -> String {
    let all = |of: fn(&Times) -> f64| row.times.iter().map(of).collect::<Vec<f64>>();
    let ratios = all(|times| times.reference / times.ours);
    format!(
        "| {} | {} | {} | {} | {} |\n",
        row.name,
        spread(&all(|times| times.ours), nanoseconds),
        spread(&all(|times| times.reference), nanoseconds),
        spread(&ratios, |ratio| format!("{ratio:.2}")),
        row.goal.map_or("-".to_string(), |goal| {
            let met = ratios.iter().filter(|&&ratio| ratio >= goal).count();
            verdict(goal, met, ratios.len())
        }),
    )
}

/// The lowest and the highest, or the one that there is.
fn spread(values: &[f64], text: impl Fn(f64) -> String) -> String {
    let lowest = text(values.iter().copied().fold(f64::INFINITY, f64::min));
    let highest = text(values.iter().copied().fold(0.0, f64::max));
    if lowest == highest {
        return lowest;
    }
    format!("{lowest} to {highest}")
}

/// One decimal below 100, else whole with a comma before each three digits.
fn nanoseconds(value: f64) -> String {
    if value < 99.95 {
        return format!("{value:.1}");
    }
    let digits = format!("{value:.0}");
    let mut text = String::new();
    for (place, digit) in digits.chars().enumerate() {
        if place > 0 && (digits.len() - place).is_multiple_of(3) {
            text.push(',');
        }
        text.push(digit);
    }
    text
}

/// In how many of the runs a goal was met.
fn verdict(goal: f64, met: usize, runs: usize) -> String {
    match met {
        0 => format!("{goal}: missed"),
        all if all == runs => format!("{goal}: met"),
        some => format!("{goal}: met in {some} of {runs} runs"),
    }
}
