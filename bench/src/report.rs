//! What is printed, and `docs/BENCHMARK.md`.

use crate::measure::{Growth, Row, Stats};
use crate::plot;
use std::fs;
use std::io;
use std::path::Path;
use std::time::{SystemTime, UNIX_EPOCH};

const COMMAND: &str = "(cd bench && taskset -c 3 cargo run --release --features library -- --write)";

/// A number with a comma before each three digits.
pub fn grouped(number: usize) -> String {
    let digits = number.to_string();
    let mut out = String::new();
    for (at, digit) in digits.chars().enumerate() {
        if at > 0 && (digits.len() - at) % 3 == 0 {
            out.push(',');
        }
        out.push(digit);
    }
    out
}

/// Microseconds, with three digits or more.
fn micro(time: f64) -> String {
    match time {
        t if t < 10.0 => format!("{t:.2}"),
        t if t < 100.0 => format!("{t:.1}"),
        t => grouped(t.round() as usize),
    }
}

fn factor(ratio: f64) -> String {
    if ratio < 10.0 {
        format!("{ratio:.2}")
    } else {
        format!("{ratio:.0}")
    }
}

/// Rows of cells as a table of Markdown, padded so that it is legible as it stands; all but the first column to the right.
fn aligned(rows: &[Vec<String>]) -> String {
    let columns = rows[0].len();
    let wide: Vec<usize> =
        (0..columns).map(|c| rows.iter().map(|row| row[c].len()).max().unwrap_or(0).max(3)).collect();
    let line = |row: &Vec<String>| {
        let cell = |c: usize| match c {
            0 => format!("{:<width$}", row[c], width = wide[c]),
            _ => format!("{:>width$}", row[c], width = wide[c]),
        };
        format!("| {} |\n", (0..columns).map(cell).collect::<Vec<_>>().join(" | "))
    };
    let rule = |c: usize| match c {
        0 => "-".repeat(wide[c]),
        _ => format!("{}:", "-".repeat(wide[c] - 1)),
    };
    let rules = format!("| {} |\n", (0..columns).map(rule).collect::<Vec<_>>().join(" | "));
    let body: String = rows[1..].iter().map(line).collect();
    line(&rows[0]) + &rules + &body
}

fn cells(stats: &Stats) -> [String; 4] {
    [stats.mean, stats.median, stats.p99, stats.max].map(micro)
}

/// The table of all families, times in microseconds.
pub fn table(rows: &[Row]) -> String {
    let mut head = vec!["family".to_string(), "count".to_string()];
    for name in ["library", "plain"] {
        head.extend(["mean", "median", "p99", "max"].map(|what| format!("{name}: {what}")));
    }
    head.push("ratio".into());
    let mut all = vec![head];
    for row in rows {
        let mut line = vec![row.name.to_string(), grouped(row.count)];
        line.extend(cells(&row.library));
        line.extend(cells(&row.plain));
        line.push(factor(row.ratio()));
        all.push(line);
    }
    aligned(&all)
}

fn means(row: &Row) -> [String; 3] {
    [micro(row.library.mean), micro(row.plain.mean), factor(row.ratio())]
}

fn head(names: &[&str]) -> Vec<String> {
    names.iter().map(|name| name.to_string()).collect()
}

/// The tables of growth, mean times in microseconds.
pub fn growth_tables(growth: &Growth) -> String {
    let mut literals =
        vec![head(&["literals", "covers: library", "covers: plain", "ratio", "join: library", "join: plain", "ratio"])];
    for (size, covers, joins) in &growth.literals {
        let mut line = vec![size.to_string()];
        line.extend(means(covers));
        line.extend(means(joins));
        literals.push(line);
    }
    let mut variables = vec![head(&["variables", "covers: library", "covers: plain", "ratio"])];
    for (size, covers) in &growth.variables {
        let mut line = vec![size.to_string()];
        line.extend(means(covers));
        variables.push(line);
    }
    format!("{}\n{}", aligned(&literals), aligned(&variables))
}

/// Writes `docs/BENCHMARK.md` and the plot.
pub fn write(compared: &[String], rows: &[Row], growth: &Growth) -> io::Result<()> {
    let docs = Path::new(env!("CARGO_MANIFEST_DIR")).join("../docs");
    fs::write(docs.join("benchmark.svg"), plot::growth(growth))?;
    fs::write(docs.join("BENCHMARK.md"), page(compared, rows, growth))
}

fn page(compared: &[String], rows: &[Row], growth: &Growth) -> String {
    let answers: String = compared.iter().map(|line| format!("- {line}\n")).collect();
    let timed: usize = rows.iter().map(|row| row.count).sum();
    format!(
        "# The library against plain Rust

Written by the program in `bench/` on {date}, by the command

    {COMMAND}

Machine: {machine}.

It compares the library `libcehmoli.a` (`docs/SERVING.md`) with the second implementation in `bench/src/`, ordinary Rust that was written from `docs/`
alone. The library is built for x86-64-v2, the other one by cargo's release profile. Neither is part of the merge gate.

## Answers

Compared first, the buffers byte for byte, also beyond what was written. None differed:

{answers}- the answers to the {timed} timed questions below

## Times

Microseconds of the thread's processor time. Each question is asked of both by the same packed bytes; **both read the packed records, and write the
packed join or the text, within the time**. Per question the best of five runs counts, a run being as many calls as fill 20 microseconds, and
at least one; mean, median, p99 and max are over the questions of a family. The machine is shared and noisy: only the ratios of
one run are to be relied on. Since a question is asked again and again, caches are warm for both. Plain Rust keeps its working memory from call to
call; the library keeps nothing. The ratio is the library's mean by that of plain Rust.

{table}
{verdict}

Tidying is asked as a session of one record, since the library has no call for it alone; reading and printing are in it.

## Not in the table

Neither has a bound on its time, and there are inputs on which one is out of all proportion. Of 48,000 more random pairs of 16 literals of one predicate
of two places, over constants, over variables or over both, the longest join by the library took 43 milliseconds. `bench/hard-pair.hex` holds two records
of constants: plain Rust refuses their join after 14 seconds, the library after 4 milliseconds, since its search prefers the literals that
were often left without a target.

## Growth

Mean times again. By literals: a connected rule of N literals with N/2 + 2 variables and a random mount of N literals over N/2 + 1 constants,
one predicate; and joins of two random graphs of N literals. By variables: rules of 16 literals over two predicates, and random mounts of
16 literals over six constants.

![mean time against the count of literals](benchmark.svg)

{growth}",
        date = today(),
        machine = machine(),
        timed = grouped(timed),
        table = table(rows),
        verdict = verdict(rows, growth),
        growth = growth_tables(growth),
    )
}

/// Where the library is slower, and by how much.
fn verdict(rows: &[Row], growth: &Growth) -> String {
    let mut sorted: Vec<&Row> = rows.iter().collect();
    sorted.sort_by(|a, b| b.ratio().total_cmp(&a.ratio()));
    let slower = sorted.iter().filter(|row| row.ratio() > 1.0).count();
    let list = |rows: &[&Row]| {
        let told = |row: &&Row| format!("{} ({})", row.name, factor(row.ratio()));
        rows.iter().map(told).collect::<Vec<_>>().join("; ")
    };
    let others = match &sorted[slower..] {
        [] => "It is quicker in none.".to_string(),
        rows => format!("In the others it is as quick or quicker: {}.", list(rows)),
    };
    format!(
        "**The library is slower in {slower} of {} families**, most of all here: {}. {others}\n\
         By calls, the least and the greatest ratio of a family: {}.\n{}\n{}\n\
         What plain Rust does otherwise is told in `docs/DECISIONS.md` (Speed).",
        rows.len(),
        list(&sorted[..slower.min(3)]),
        ranges(rows),
        slowest(rows),
        growing(growth),
    )
}

/// The least and the greatest ratio by calls.
fn ranges(rows: &[Row]) -> String {
    let calls = ["read", "covers", "witness", "join", "tidy", "session"];
    let told = |call: &&str| {
        let (least, most) = range(rows, call)?;
        Some(if least == most { format!("{call} {least}") } else { format!("{call} {least} to {most}") })
    };
    calls.iter().filter_map(told).collect::<Vec<_>>().join(", ")
}

/// The calls that took longest.
fn slowest(rows: &[Row]) -> String {
    let most =
        |time: fn(&Row) -> f64| rows.iter().max_by(|a, b| time(a).total_cmp(&time(b))).expect("there are families");
    let (library, plain) = (most(|row| row.library.max), most(|row| row.plain.max));
    format!(
        "The longest call of the library took {} microseconds ({}), the longest of plain Rust {} ({}).",
        micro(library.library.max),
        library.name,
        micro(plain.plain.max),
        plain.name,
    )
}

/// How the ratios change with the count of literals.
fn growing(growth: &Growth) -> String {
    let (first, last) = (&growth.literals[0], &growth.literals[growth.literals.len() - 1]);
    format!(
        "From {} literals to {} the ratio goes from {} to {} for covers, and from {} to {} for joins of random graphs.",
        first.0,
        last.0,
        factor(first.1.ratio()),
        factor(last.1.ratio()),
        factor(first.2.ratio()),
        factor(last.2.ratio()),
    )
}

fn range(rows: &[Row], call: &str) -> Option<(String, String)> {
    let ratios = rows.iter().filter(|row| row.name.starts_with(call)).map(Row::ratio);
    let least = ratios.clone().min_by(f64::total_cmp)?;
    let most = ratios.max_by(f64::total_cmp)?;
    Some((factor(least), factor(most)))
}

/// The processor, and how many there are.
fn machine() -> String {
    let text = fs::read_to_string("/proc/cpuinfo").unwrap_or_default();
    let mut models =
        text.lines().filter(|line| line.starts_with("model name")).filter_map(|line| line.split(": ").nth(1));
    match models.next() {
        Some(model) => format!("{model}; {} processors, one of them used", 1 + models.count()),
        None => "unknown".into(),
    }
}

/// The date of today, by Greenwich time.
fn today() -> String {
    let seconds = SystemTime::now().duration_since(UNIX_EPOCH).map_or(0, |time| time.as_secs());
    let mut days = seconds / 86_400;
    let leap = |year: u64| year % 4 == 0 && year % 100 != 0 || year % 400 == 0;
    let mut year = 1970;
    while days >= 365 + leap(year) as u64 {
        days -= 365 + leap(year) as u64;
        year += 1;
    }
    let mut month = 0;
    let lengths = [31, 28 + leap(year) as u64, 31, 30, 31, 30, 31, 31, 30, 31, 30, 31];
    while days >= lengths[month] {
        days -= lengths[month];
        month += 1;
    }
    format!("{year}-{:02}-{:02}", month + 1, days + 1)
}
