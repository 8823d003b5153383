//! The plot of time against size, as SVG, from the measured lines.

use crate::cases::Kind;
use crate::measure::Times;
use crate::Line;

struct Series {
    name: &'static str,
    colour: &'static str,
    time: fn(&Times) -> f64,
}

const SERIES: [Series; 4] = [
    Series { name: "LEMON, every split", colour: "#b45f06", time: |t| t.all },
    Series { name: "proved planner, whole answer", colour: "#1c4587", time: |t| t.proved },
    Series { name: "path searches alone, plain Rust", colour: "#6aa84f", time: |t| t.plain },
    Series { name: "LEMON, one split", colour: "#cc0000", time: |t| t.one },
];

const WIDTH: f64 = 250.0;
const HEIGHT: f64 = 230.0;
const LEFT: f64 = 64.0;
const TOP: f64 = 46.0;
const BETWEEN: f64 = 30.0;

/// Two rows of panels: time against m × n, and time against u - ℓ, for each kind of costs.
pub fn svg(lines: &[Line]) -> String {
    let scale = Scale::of(lines);
    let (width, height) = (LEFT + Kind::ALL.len() as f64 * (WIDTH + BETWEEN), TOP + 2.0 * (HEIGHT + 74.0) + 10.0);
    let mut text = format!(
        "<svg xmlns=\"http://www.w3.org/2000/svg\" width=\"{width}\" height=\"{height}\" viewBox=\"0 0 {width} {height}\" \
         font-family=\"sans-serif\" font-size=\"11\">\n<rect width=\"100%\" height=\"100%\" fill=\"white\"/>\n"
    );
    for (k, series) in SERIES.iter().enumerate() {
        let x = LEFT + k as f64 * 205.0;
        text += &format!("<circle cx=\"{x}\" cy=\"16\" r=\"4\" fill=\"{}\"/>\n", series.colour);
        text += &format!("<text x=\"{}\" y=\"20\">{}</text>\n", x + 9.0, series.name);
    }
    for (k, kind) in Kind::ALL.into_iter().enumerate() {
        let x = LEFT + k as f64 * (WIDTH + BETWEEN);
        let sizes: Vec<&Line> = lines.iter().filter(|l| l.shape.kind == kind && l.shape.steps == 3_000).collect();
        let label = |l: &Line| format!("{}×{}", l.shape.m, l.shape.n);
        let title = format!("costs: {}; u − ℓ = 3,000", kind.name());
        text += &panel(&scale, x, TOP, &title, "m × n", &sizes, |l| (l.shape.m * l.shape.n) as f64, label);
        let steps: Vec<&Line> = lines.iter().filter(|l| l.shape.kind == kind && l.shape.steps != 3_000).collect();
        let title = format!("costs: {}; m × n = 32×64", kind.name());
        let label = |l: &Line| l.shape.steps.to_string();
        text += &panel(&scale, x, TOP + HEIGHT + 74.0, &title, "u − ℓ", &steps, |l| l.shape.steps as f64, label);
    }
    text + "</svg>\n"
}

/// Decades of microseconds that hold every time.
struct Scale {
    low: f64,
    high: f64,
}

impl Scale {
    fn of(lines: &[Line]) -> Scale {
        let times = || lines.iter().flat_map(|l| SERIES.iter().map(move |s| ((s.time)(&l.times) * 1e6).log10()));
        Scale { low: times().fold(f64::INFINITY, f64::min).floor(), high: times().fold(0.0, f64::max).ceil() }
    }

    fn y(&self, top: f64, seconds: f64) -> f64 {
        top + HEIGHT * (self.high - (seconds * 1e6).log10()) / (self.high - self.low)
    }
}

#[allow(clippy::too_many_arguments)]
fn panel(
    scale: &Scale,
    left: f64,
    top: f64,
    title: &str,
    axis: &str,
    lines: &[&Line],
    size: impl Fn(&Line) -> f64,
    label: impl Fn(&Line) -> String,
) -> String {
    let (bottom, right) = (top + HEIGHT, left + WIDTH);
    let mut text = format!(
        "<rect x=\"{left}\" y=\"{top}\" width=\"{WIDTH}\" height=\"{HEIGHT}\" fill=\"none\" stroke=\"#888\"/>\n\
         <text x=\"{left}\" y=\"{}\" font-weight=\"bold\">{title}</text>\n\
         <text x=\"{}\" y=\"{}\" text-anchor=\"middle\">{axis}</text>\n",
        top - 6.0,
        (left + right) / 2.0,
        bottom + 32.0
    );
    for decade in scale.low as i32..=scale.high as i32 {
        let seconds = 10f64.powi(decade - 6);
        let y = scale.y(top, seconds);
        text += &format!("<line x1=\"{left}\" y1=\"{y:.1}\" x2=\"{right}\" y2=\"{y:.1}\" stroke=\"#ddd\"/>\n");
        if left < LEFT + 1.0 {
            let name = decade_name(decade);
            text += &format!("<text x=\"{}\" y=\"{:.1}\" text-anchor=\"end\">{name}</text>\n", left - 5.0, y + 4.0);
        }
    }
    let logs: Vec<f64> = lines.iter().map(|l| size(l).log10()).collect();
    let (first, last) = (logs[0], logs[logs.len() - 1]);
    let x = |log: f64| left + 16.0 + (WIDTH - 32.0) * (log - first) / (last - first);
    for (line, log) in lines.iter().zip(&logs) {
        let at = x(*log);
        text +=
            &format!("<text x=\"{at:.1}\" y=\"{:.1}\" text-anchor=\"middle\">{}</text>\n", bottom + 15.0, label(line));
    }
    for series in &SERIES {
        let points: Vec<(f64, f64)> =
            lines.iter().zip(&logs).map(|(l, log)| (x(*log), scale.y(top, (series.time)(&l.times)))).collect();
        let path: Vec<String> = points.iter().map(|(x, y)| format!("{x:.1},{y:.1}")).collect();
        text += &format!(
            "<polyline points=\"{}\" fill=\"none\" stroke=\"{}\" stroke-width=\"1.5\"/>\n",
            path.join(" "),
            series.colour
        );
        for (x, y) in points {
            text += &format!("<circle cx=\"{x:.1}\" cy=\"{y:.1}\" r=\"2.5\" fill=\"{}\"/>\n", series.colour);
        }
    }
    text
}

fn decade_name(decade: i32) -> String {
    match decade {
        ..=2 => format!("{} µs", 10i64.pow(decade.max(0) as u32)),
        3..=5 => format!("{} ms", 10i64.pow(decade as u32 - 3)),
        _ => format!("{} s", 10i64.pow(decade as u32 - 6)),
    }
}
