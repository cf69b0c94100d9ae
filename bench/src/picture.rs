//! A picture of growth: time an element over the number of elements, both by powers of ten.
use std::fmt::Write;

pub struct Line {
    pub name: String,
    pub points: Vec<(usize, f64)>,
}

/// The lines of a table of growth, from 10^3 elements on, whose names end so.
pub fn lines(table: &str, ending: &str) -> Vec<Line> {
    let mut lines = Vec::new();
    for row in table.lines() {
        let cells: Vec<&str> = row.split('|').map(str::trim).collect();
        if let Some(name) = cells.get(1).and_then(|cell| cell.strip_suffix(ending)) {
            let times = cells[2..7].iter().map(|cell| cell.parse().expect("a time"));
            let points = (3..).map(|power| 10usize.pow(power)).zip(times).collect();
            lines.push(Line { name: name.to_string(), points });
        }
    }
    lines
}

const COLORS: [&str; 8] = ["#1b6ca8", "#d1495b", "#2a9d8f", "#8d5a97", "#e09f3e", "#444444", "#7aa974", "#b56576"];

/// The lines as an SVG, nanoseconds an element upwards.
pub fn svg(title: &str, lines: &[Line]) -> String {
    let all = || lines.iter().flat_map(|line| line.points.iter());
    let left = all().map(|p| (p.0 as f64).log10()).fold(f64::MAX, f64::min);
    let right = all().map(|p| (p.0 as f64).log10()).fold(f64::MIN, f64::max);
    let low = all().map(|p| p.1.log10()).fold(f64::MAX, f64::min).floor();
    let high = all().map(|p| p.1.log10()).fold(f64::MIN, f64::max).ceil();
    let x = |n: f64| 70.0 + 480.0 * (n.log10() - left) / (right - left).max(1e-9);
    let y = |t: f64| 360.0 - 310.0 * (t.log10() - low) / (high - low).max(1e-9);
    let mut svg = String::from("<svg xmlns=\"http://www.w3.org/2000/svg\" width=\"800\" height=\"420\" font-family=\"sans-serif\" font-size=\"12\">\n");
    writeln!(svg, "<rect width=\"800\" height=\"420\" fill=\"white\"/><text x=\"70\" y=\"25\" font-size=\"15\">{title}</text>").unwrap();
    for power in left.ceil() as i32..=right.floor() as i32 {
        let at = x(10f64.powi(power));
        writeln!(svg, "<line x1=\"{at:.1}\" y1=\"50\" x2=\"{at:.1}\" y2=\"360\" stroke=\"#dddddd\"/><text x=\"{at:.1}\" y=\"380\" text-anchor=\"middle\">10^{power}</text>").unwrap();
    }
    for power in low as i32..=high as i32 {
        let at = y(10f64.powi(power));
        let value = 10f64.powi(power);
        writeln!(svg, "<line x1=\"70\" y1=\"{at:.1}\" x2=\"550\" y2=\"{at:.1}\" stroke=\"#dddddd\"/><text x=\"62\" y=\"{:.1}\" text-anchor=\"end\">{value}</text>", at + 4.0).unwrap();
    }
    svg.push_str("<text x=\"310\" y=\"405\" text-anchor=\"middle\">elements</text>\n<text x=\"18\" y=\"205\" text-anchor=\"middle\" transform=\"rotate(-90 18 205)\">ns an element</text>\n");
    for (at, line) in lines.iter().enumerate() {
        let color = COLORS[at % COLORS.len()];
        let points: Vec<String> = line.points.iter().map(|p| format!("{:.1},{:.1}", x(p.0 as f64), y(p.1))).collect();
        writeln!(svg, "<polyline points=\"{}\" fill=\"none\" stroke=\"{color}\" stroke-width=\"2\"/>", points.join(" ")).unwrap();
        let row = 60.0 + 20.0 * at as f64;
        writeln!(svg, "<line x1=\"565\" y1=\"{row}\" x2=\"585\" y2=\"{row}\" stroke=\"{color}\" stroke-width=\"2\"/><text x=\"590\" y=\"{}\">{}</text>", row + 4.0, line.name).unwrap();
    }
    svg.push_str("</svg>\n");
    svg
}
