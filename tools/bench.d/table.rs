//! The table: nanoseconds and instructions per call of each side, and the library's against each other side. Side n has no column where others
//! are asked for: the loop costs the same for every kind, so that a sentence tells it.

pub struct Row {
    pub title: String,
    pub times: Vec<f64>,
    pub instructions: Vec<f64>,
    /// Whether side c has this kind of call.
    pub c: bool,
}

impl Row {
    fn has(&self, side: char) -> bool {
        side != 'c' || self.c
    }
}

/// The columns: a title, and how a row fills it.
type Column<'a> = (String, Box<dyn Fn(&Row) -> Option<String> + 'a>);

fn columns<'a>(sides: &'a [char], times: bool, instructions: bool) -> Vec<Column<'a>> {
    let mut columns: Vec<Column> = Vec::new();
    let measures: [(bool, &str, usize, fn(&Row) -> &[f64]); 2] =
        [(times, "ns", 1, |row| &row.times), (instructions, "instr", 0, |row| &row.instructions)];
    for (_, unit, digits, of) in measures.into_iter().filter(|measure| measure.0) {
        let alone = sides == ['n'];
        for (place, &side) in sides.iter().enumerate().filter(|side| alone || *side.1 != 'n') {
            let shown = move |row: &Row| row.has(side).then(|| format!("{:.digits$}", of(row)[place]));
            columns.push((format!("{unit} {side}"), Box::new(shown)));
        }
        let Some(a) = sides.iter().position(|&side| side == 'a') else { continue };
        for (place, &side) in sides.iter().enumerate().filter(|other| !['a', 'n'].contains(other.1)) {
            let shown = move |row: &Row| row.has(side).then(|| format!("{:.2}", of(row)[a] / of(row)[place]));
            columns.push((format!("{unit} a/{side}"), Box::new(shown)));
        }
    }
    columns
}

pub fn print(rows: &[Row], sides: &[char], times: bool, instructions: bool, markdown: bool) {
    let columns = columns(sides, times, instructions);
    let heads: Vec<&str> = columns.iter().map(|column| column.0.as_str()).collect();
    if markdown {
        println!("| Call | {} |", heads.join(" | "));
        println!("|---|{}", "---:|".repeat(heads.len()));
    } else {
        println!("{:42}{}", "", heads.iter().map(|head| format!("{head:>11}")).collect::<String>());
    }
    for row in rows {
        let cells: Vec<String> = columns.iter().map(|column| column.1(row).unwrap_or_else(|| "-".into())).collect();
        if markdown {
            println!("| {} | {} |", row.title, cells.join(" | "));
        } else {
            println!("{:42}{}", row.title, cells.iter().map(|cell| format!("{cell:>11}")).collect::<String>());
        }
    }
}

/// What an empty call costs in the same loop, from the least to the most of the rows.
pub fn empty(rows: &[Row], sides: &[char]) -> Option<String> {
    let n = sides.iter().position(|&side| side == 'n')?;
    let range = |of: fn(&Row) -> &[f64]| {
        let all: Vec<f64> = rows.iter().filter_map(|row| of(row).get(n).copied()).collect();
        let least = all.iter().copied().reduce(f64::min)?;
        let most = all.iter().copied().reduce(f64::max)?;
        Some((least, most))
    };
    let time = range(|row| &row.times).map(|(least, most)| format!("{least:.1} to {most:.1} ns"));
    let instructions = range(|row| &row.instructions).map(|(least, most)| format!("{least:.0} to {most:.0} instructions"));
    let both: Vec<String> = time.into_iter().chain(instructions).collect();
    (!both.is_empty()).then(|| both.join(", "))
}
