//! The file of figures: a line for each row and side, after lines that say how it was made.
use crate::side::Name;
use crate::work::{Call, Row};
use std::fs;

/// The columns of the file.
const COLUMNS: &str =
    "call,originals,recovery,bytes,build,way,engine,to,ratio,lower_quartile,upper_quartile,mib_per_s,nanoseconds,turns";

/// What was measured of one side in one row.
#[derive(Clone, Debug)]
pub struct Figures {
    pub row: Row,
    pub side: Name,
    /// The side that it was compared with.
    pub to: Name,
    /// The time of that side divided by its own: the median of the turns and the quartiles.
    pub ratio: [f64; 3],
    /// The median time of a round.
    pub nanoseconds: f64,
    pub turns: usize,
}

impl Figures {
    /// Returns MiB of all shards in a second, at the median time, or 0 for a call that codes nothing.
    pub fn speed(&self) -> f64 {
        let Row { call, k, r, size } = self.row;
        if !call.codes() {
            return 0.0;
        }
        ((k + r) * size) as f64 / 1048576.0 / self.nanoseconds * 1e9
    }

    fn line(&self) -> String {
        let Row { call, k, r, size } = self.row;
        let Name { who, way, engine } = &self.side;
        let [middle, low, high] = self.ratio;
        let (speed, time, turns) = (self.speed(), self.nanoseconds, self.turns);
        let to = self.to.words();
        format!(
            "{},{k},{r},{size},{who},{way},{engine},{to},{middle:.5},{low:.5},{high:.5},{speed:.1},{time:.3},{turns}",
            call.name()
        )
    }

    fn read(line: &str) -> Option<Figures> {
        let parts: Vec<&str> = line.split(',').collect();
        let &[call, k, r, size, who, way, engine, to, middle, low, high, _, time, turns] = &parts[..] else { return None };
        let row = Row { call: Call::named(call)?, k: k.parse().ok()?, r: r.parse().ok()?, size: size.parse().ok()? };
        let side = Name { who: who.to_string(), way: way.to_string(), engine: engine.to_string() };
        let ratio = [middle.parse().ok()?, low.parse().ok()?, high.parse().ok()?];
        Some(Figures { row, side, to: Name::read(to)?, ratio, nanoseconds: time.parse().ok()?, turns: turns.parse().ok()? })
    }
}

/// Writes figures into a file, after lines that begin with `#`.
pub fn write(path: &str, about: &[String], all: &[Figures]) -> Result<(), String> {
    let mut text: String = about.iter().map(|line| format!("# {line}\n")).collect();
    text += COLUMNS;
    text += "\n";
    for figures in all {
        text += &figures.line();
        text += "\n";
    }
    fs::write(path, text).map_err(|error| format!("{path}: {error}"))
}

/// Reads a file that `write` wrote.
pub fn read(path: &str) -> Result<(Vec<String>, Vec<Figures>), String> {
    let text = fs::read_to_string(path).map_err(|error| format!("{path}: {error}"))?;
    let about = text.lines().filter_map(|line| line.strip_prefix("# ")).map(String::from).collect();
    let lines = text.lines().filter(|line| !line.starts_with('#') && *line != COLUMNS);
    let all = lines.map(|line| Figures::read(line).ok_or(format!("{path}: {line}"))).collect::<Result<_, _>>()?;
    Ok((about, all))
}
