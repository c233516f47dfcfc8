//! Tables of figures in Markdown.
use crate::data::Figures;
use crate::side::Name;
use crate::work::{Call, Row};

/// Prints how the figures were made, and a table for each build.
pub fn print(about: &[String], all: &[Figures]) {
    for line in about {
        println!("{line}  ");
    }
    let mut builds: Vec<&str> = vec![];
    for figures in all.iter().filter(|figures| figures.side != figures.to) {
        if !builds.contains(&figures.side.who.as_str()) {
            builds.push(&figures.side.who);
        }
    }
    if builds.is_empty() {
        builds.extend(all.first().map(|figures| figures.side.who.as_str()));
    }
    for build in builds {
        print_build(build, all);
    }
}

fn print_build(build: &str, all: &[Figures]) {
    let mut sides: Vec<&Name> = vec![];
    let mut rows: Vec<Row> = vec![];
    let is_alone = all.iter().all(|figures| figures.side == figures.to);
    for figures in all.iter().filter(|figures| figures.side.who == build && (is_alone || figures.side != figures.to)) {
        if !sides.contains(&&figures.side) {
            sides.push(&figures.side);
        }
        if !rows.contains(&figures.row) {
            rows.push(figures.row);
        }
    }
    let heads: String = sides.iter().map(|side| format!(" `{}` | ratio |", side.words())).collect();
    println!("\nThe ratios are to `{}`:\n", all[0].to.words());
    println!("| Call | Originals : recovery | Bytes |{heads}");
    println!("|---|---|---|{}", "---|---|".repeat(sides.len()));
    for row in rows {
        let Row { call, k, r, size } = row;
        let of = |side: &Name| all.iter().rfind(|figures| figures.row == row && figures.side == *side);
        let cells: String = sides.iter().map(|side| of(side).map_or(" - | - |".to_string(), cell)).collect();
        match call {
            Call::Tables => println!("| {} | - | - |{cells}", call.name()),
            _ => println!("| {} | {k}:{r} | {size} |{cells}", call.name()),
        }
    }
}

fn cell(figures: &Figures) -> String {
    let [middle, low, high] = figures.ratio;
    let speed = match figures.nanoseconds {
        _ if figures.row.call.codes() => format!("{:.0} MiB/s", figures.speed()),
        time if time < 1e4 => format!("{time:.0} ns"),
        time if time < 1e6 => format!("{:.1} us", time / 1e3),
        time => format!("{:.2} ms", time / 1e6),
    };
    format!(" {speed} | **{}** ({}–{}) |", three_digits(middle), three_digits(low), three_digits(high))
}

/// Writes a ratio with three digits, but with at most two after the point if it is at least 0.1.
fn three_digits(ratio: f64) -> String {
    match ratio {
        _ if ratio >= 100.0 => format!("{ratio:.0}"),
        _ if ratio >= 10.0 => format!("{ratio:.1}"),
        _ if ratio >= 0.1 => format!("{ratio:.2}"),
        _ => format!("{ratio:.4}"),
    }
}
