//! One table of those of several runs, whose loops lie at different places in memory.
use crate::timing::shown;

/// The lines of the first file, with the least of all files' least times, the median of their medians, and the ratios of these.
pub fn merged(files: &[String]) -> String {
    let texts: Vec<String> = files.iter().map(|file| std::fs::read_to_string(file).expect(file)).collect();
    let lines: Vec<Vec<&str>> = texts.iter().map(|text| text.lines().collect()).collect();
    let mut merged = String::new();
    let mut is_growth = false;
    let mut is_count = false;
    for (at, line) in lines[0].iter().enumerate() {
        let rows: Vec<Vec<f64>> = lines.iter().filter_map(|lines| numbers(lines.get(at)?)).collect();
        let name = line.split('|').nth(1).unwrap_or("").trim();
        is_growth |= name == "walk";
        is_count = (is_count || name == "groups of") && !line.is_empty();
        let row = match rows.first().map(Vec::len) {
            Some(6) if is_count => line.to_string(),
            Some(6) if is_growth => {
                let times: Vec<f64> = (0..5).map(|column| least(&rows, column)).collect();
                let cells: Vec<String> = times.iter().map(|time| shown(*time)).collect();
                format!("| {name} | {} | {:.2} |", cells.join(" | "), times[3] / times[1])
            }
            Some(6) => {
                let [ours, peer] = [0, 2].map(|column| least(&rows, column));
                let [ours_median, peer_median] = [1, 3].map(|column| median(&rows, column));
                format!(
                    "| {name} | {} | {} | {} | {} | {:.2} | {:.2} |",
                    shown(ours),
                    shown(ours_median),
                    shown(peer),
                    shown(peer_median),
                    ours / peer,
                    ours_median / peer_median
                )
            }
            _ => line.to_string(),
        };
        merged.push_str(&row);
        merged.push('\n');
    }
    merged
}

/// The numbers of a row of a table, if it is one.
fn numbers(line: &str) -> Option<Vec<f64>> {
    let cells: Vec<&str> = line.strip_prefix("| ")?.strip_suffix(" |")?.split(" | ").collect();
    cells[1..].iter().map(|cell| cell.parse().ok()).collect()
}

fn least(rows: &[Vec<f64>], column: usize) -> f64 {
    rows.iter().map(|row| row[column]).fold(f64::MAX, f64::min)
}

fn median(rows: &[Vec<f64>], column: usize) -> f64 {
    let mut values: Vec<f64> = rows.iter().map(|row| row[column]).collect();
    values.sort_by(f64::total_cmp);
    values[values.len() / 2]
}
