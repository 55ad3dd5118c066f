//! The tables, as Markdown.

use crate::closures::Row;
use crate::inputs::{Kind, KINDS, SIZES};
use crate::measure::Timing;
use crate::sides::{Lent, CHART_ITEMS};
use crate::stack;
use crate::texts::TextRow;
use std::process::Command;

/// The processor, the number of cores, the compiler of the Rust parts, and how busy the machine is at this moment.
pub fn machine() -> String {
    let info = std::fs::read_to_string("/proc/cpuinfo").unwrap_or_default();
    let model = info
        .lines()
        .find_map(|line| line.strip_prefix("model name"))
        .map_or("unknown", |line| line.trim_start_matches([' ', '\t', ':']));
    let cores = std::thread::available_parallelism().map_or(0, usize::from);
    let rustc = Command::new("rustc").arg("--version").output();
    let rustc = rustc.map_or_else(
        |_| "rustc unknown".into(),
        |output| String::from_utf8_lossy(&output.stdout).trim().to_string(),
    );
    let load = std::fs::read_to_string("/proc/loadavg").unwrap_or_default();
    let load = load.split(' ').next().unwrap_or_default();
    format!("Machine: {model}, {cores} cores; {rustc}. Load average of the minute before: {load}.")
}

/// With commas between groups of three digits.
fn grouped(number: usize) -> String {
    let digits = number.to_string();
    let mut text = String::new();
    for (at, digit) in digits.chars().enumerate() {
        if at > 0 && (digits.len() - at).is_multiple_of(3) {
            text.push(',');
        }
        text.push(digit);
    }
    text
}

/// Milliseconds.
fn ms(seconds: f64) -> String {
    digits3(seconds * 1e3)
}

/// Three significant digits, but at most four decimal places, and all digits before the point.
fn digits3(value: f64) -> String {
    let places = match value {
        v if v >= 999.5 => return grouped(v.round() as usize),
        v if v >= 99.95 => 0,
        v if v >= 9.995 => 1,
        v if v >= 0.9995 => 2,
        v if v >= 0.09995 => 3,
        _ => 4,
    };
    format!("{value:.places$}")
}

fn median_and_least(timing: &Timing) -> String {
    format!("{} ({})", ms(timing.median), ms(timing.least))
}

fn ratio(of: &Timing, to: &Timing) -> String {
    digits3(of.median / to.median)
}

pub fn closures(rows: &[Row]) {
    println!("\n### Start, run and write\n");
    println!("Milliseconds: the median of the batches and, in parentheses, the least.\n");
    println!("| kind | items | made | applications | proved ms | second ms | proved / second | second with a replay, ms | proved / that |");
    println!("|---|--:|--:|--:|--:|--:|--:|--:|--:|");
    for row in rows {
        let applications = row.applications.map_or("none: 11".into(), grouped);
        println!(
            "| {} | {} | {} | {} | {} | {} | {} | {} | {} |",
            row.kind.name(),
            grouped(row.items),
            grouped(row.made),
            applications,
            median_and_least(&row.proved),
            median_and_least(&row.second),
            ratio(&row.proved, &row.second),
            median_and_least(&row.replaying),
            ratio(&row.proved, &row.replaying),
        );
    }
    let mut ratios: Vec<f64> = rows.iter().map(|row| row.proved.median / row.second.median).collect();
    ratios.sort_by(f64::total_cmp);
    let within = |most: f64| ratios.iter().filter(|&&ratio| ratio <= most).count();
    println!(
        "\nproved / second: least {}, median {}, most {}; at most 1.5 on {} of {} inputs, at most 1 on {}.",
        digits3(ratios[0]),
        digits3(ratios[ratios.len() / 2]),
        digits3(ratios[ratios.len() - 1]),
        within(1.5),
        ratios.len(),
        within(1.0),
    );
}

/// The exponent e of time = c * size^e between two inputs.
fn exponent(from: (usize, f64), to: (usize, f64)) -> f64 {
    (to.1 / from.1).ln() / (to.0 as f64 / from.0 as f64).ln()
}

pub fn growth(rows: &[Row]) {
    println!("\n### Growth over the size\n");
    println!("First the nanoseconds for each item made, at about 200, 1,000, 2,000 and 4,000 items: where they stay the same, time is linear in the items made. Then the exponents of the time between neighbouring sizes and over all, over the items made.\n");
    println!("| kind | side | ns at 200 | 1,000 | 2,000 | 4,000 | exponent 200 to 1,000 | 1,000 to 2,000 | 2,000 to 4,000 | 200 to 4,000 |");
    println!("|---|---|--:|--:|--:|--:|--:|--:|--:|--:|");
    for kind in KINDS {
        let of_kind: Vec<&Row> = rows.iter().filter(|row| row.kind == kind).collect();
        if of_kind.len() == SIZES.len() {
            let points = |timing: fn(&Row) -> &Timing| -> Vec<(usize, f64)> {
                of_kind.iter().map(|row| (row.made, timing(row).median)).collect()
            };
            growth_row(kind, "proved", &points(|row| &row.proved));
            growth_row(kind, "second", &points(|row| &row.second));
        }
    }
}

/// Of items made and seconds, one pair for each size.
fn growth_row(kind: Kind, side: &str, points: &[(usize, f64)]) {
    let per_item = |&(made, time): &(usize, f64)| digits3(time * 1e9 / made as f64);
    let mut cells: Vec<String> = points.iter().map(per_item).collect();
    let neighbours = points.windows(2).map(|pair| (pair[0], pair[1]));
    let overall = (points[0], points[points.len() - 1]);
    for (from, to) in neighbours.chain([overall]) {
        cells.push(format!("{:.2}", exponent(from, to)));
    }
    println!("| {} | {side} | {} |", kind.name(), cells.join(" | "));
}

pub fn phases(rows: &[Row]) {
    println!("\n### Start, run and write apart\n");
    println!(
        "Milliseconds, medians. The second side's write has no replay; giving back its chart is counted with it.\n"
    );
    println!("| kind | items | proved start | run | write | second start | run | write |");
    println!("|---|--:|--:|--:|--:|--:|--:|--:|");
    for row in rows {
        let cells: Vec<String> = [&row.proved, &row.second]
            .iter()
            .flat_map(|timing| timing.phases.map(ms))
            .collect();
        println!(
            "| {} | {} | {} |",
            row.kind.name(),
            grouped(row.items),
            cells.join(" | ")
        );
    }
}

pub fn texts(rows: &[TextRow]) {
    println!("\n### The longest texts\n");
    println!("| what | bytes | proved ms | second ms | proved / second |");
    println!("|---|--:|--:|--:|--:|");
    for row in rows {
        println!(
            "| {} | {} | {} | {} | {} |",
            row.what,
            grouped(row.bytes),
            median_and_least(&row.proved),
            median_and_least(&row.second),
            ratio(&row.proved, &row.second),
        );
    }
}

pub fn memory(lent: &Lent) -> Result<(), String> {
    println!("\n### Memory of the proved side\n");
    println!(
        "Lent: {} bytes of grammar table, {} of graph table, {} of chart for {} items, and {} of output. No heap. The stack is the least with which a thread gets through the call, found page by page:\n",
        grouped(8 * lent.grammar.len()),
        grouped(8 * lent.graph.len()),
        grouped(8 * lent.chart.len()),
        grouped(CHART_ITEMS),
        grouped(lent.out.len()),
    );
    println!("| call | on | stack, KiB |");
    println!("|---|---|--:|");
    for (call, on) in stack::CALLS {
        let name = call.split('-').next().unwrap_or(call);
        println!("| `{name}` | {on} | {} |", grouped(stack::least_kib(call)?));
    }
    Ok(())
}
