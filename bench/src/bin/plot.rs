//! Reads the figures of `bench` on standard input and draws them as SVG: for
//! each piece of work the ratio of the proved code to plain Rust, the median
//! as a bar with least and most of the rounds, and the goal as a mark.

use std::fmt::Write;
use std::io::Read;

const LEFT: f64 = 330.0;
const WIDTH: f64 = 420.0;
const ROW: f64 = 24.0;
const TOP: f64 = 58.0;

struct Row {
    name: String,
    goal: Option<f64>,
    proved: f64,
    plain: f64,
    ratio: [f64; 3],
}

fn numbers(field: &str) -> [f64; 3] {
    let numbers: Vec<f64> = field.split(' ').map(|word| word.parse().expect("a number")).collect();
    numbers.try_into().expect("median, least and most")
}

fn main() {
    let mut text = String::new();
    std::io::stdin().read_to_string(&mut text).expect("figures");
    let mut rows = Vec::new();
    for line in text.lines().filter(|line| !line.starts_with('#')) {
        let fields: Vec<&str> = line.split("; ").collect();
        let [name, goal, proved, plain, _, ratio, _] = fields[..] else {
            // of one subject alone: a copy, a call's stack
            assert_eq!(fields.len(), 3, "not a line of figures: {line}");
            continue;
        };
        rows.push(Row {
            name: name.into(),
            goal: goal.parse().ok(),
            proved: numbers(proved)[0],
            plain: numbers(plain)[0],
            ratio: numbers(ratio),
        });
    }
    print!("{}", draw(&rows));
}

fn draw(rows: &[Row]) -> String {
    let most = rows.iter().map(|row| row.ratio[2].max(row.goal.unwrap_or(0.0))).fold(3.5, f64::max);
    let x = |ratio: f64| LEFT + WIDTH * ratio / most;
    let bottom = TOP + ROW * rows.len() as f64;
    let (width, height) = (LEFT + WIDTH + 150.0, bottom + 34.0);
    let mut out = String::new();
    let mut put = |line: String| writeln!(out, "{line}").unwrap();
    put(format!(
        "<svg xmlns=\"http://www.w3.org/2000/svg\" viewBox=\"0 0 {width} {height}\" font-family=\"sans-serif\" font-size=\"13\" fill=\"#222\">"
    ));
    put(format!("<rect width=\"{width}\" height=\"{height}\" fill=\"#fff\"/>"));
    put("<text x=\"12\" y=\"24\" font-size=\"16\">Time of the proved code against plain Rust</text>".into());
    put("<text x=\"12\" y=\"44\" fill=\"#555\">bar: median ratio; line: least to most of the rounds; red mark: goal; right: nanoseconds, proved and plain</text>".into());
    let mut at = 0.0;
    while at <= most {
        put(format!(
            "<line x1=\"{0:.1}\" y1=\"{TOP}\" x2=\"{0:.1}\" y2=\"{bottom}\" stroke=\"#ddd\"/>",
            x(at)
        ));
        put(format!(
            "<text x=\"{:.1}\" y=\"{}\" text-anchor=\"middle\" fill=\"#555\">{at}</text>",
            x(at),
            bottom + 18.0
        ));
        at += 0.5;
    }
    for (number, row) in rows.iter().enumerate() {
        let y = TOP + ROW * number as f64;
        let [median, least, greatest] = row.ratio;
        let middle = y + ROW / 2.0;
        let colour = match row.goal {
            Some(goal) if median > goal => "#d08a4a",
            Some(_) => "#5b8f6a",
            None => "#8a9bb0",
        };
        put(format!(
            "<text x=\"{}\" y=\"{}\" text-anchor=\"end\">{}</text>",
            LEFT - 8.0,
            middle + 4.0,
            row.name
        ));
        put(format!(
            "<rect x=\"{LEFT}\" y=\"{}\" width=\"{:.1}\" height=\"{}\" fill=\"{colour}\"/>",
            y + 5.0,
            x(median) - LEFT,
            ROW - 10.0
        ));
        put(format!(
            "<line x1=\"{:.1}\" y1=\"{middle}\" x2=\"{:.1}\" y2=\"{middle}\" stroke=\"#222\"/>",
            x(least),
            x(greatest)
        ));
        if let Some(goal) = row.goal {
            put(format!(
                "<line x1=\"{0:.1}\" y1=\"{1}\" x2=\"{0:.1}\" y2=\"{2}\" stroke=\"#c22\" stroke-width=\"2\"/>",
                x(goal),
                y + 2.0,
                y + ROW - 2.0
            ));
        }
        let digits = if row.plain < 10.0 { 1 } else { 0 };
        put(format!(
            "<text x=\"{}\" y=\"{}\">{:.digits$} and {:.digits$}</text>",
            LEFT + WIDTH + 16.0,
            middle + 4.0,
            row.proved,
            row.plain
        ));
    }
    put("</svg>".into());
    out
}
