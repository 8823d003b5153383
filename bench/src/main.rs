//! Measures the proved planner against one in plain Rust that has path searches alone and against LEMON's NetworkSimplex, on the same cases in
//! one run, and prints a table of ratios.

mod cases;
mod measure;
mod plot;

use cases::{Kind, Shape};
use measure::Times;

/// A line of the table: where it was measured, and what.
pub struct Line {
    pub shape: Shape,
    pub times: Times,
}

const SIZES: [(usize, usize); 4] = [(4, 8), (8, 16), (16, 32), (32, 64)];
const STEPS: [u64; 5] = [1, 10, 100, 1_000, 4_000];

fn main() -> std::io::Result<()> {
    if std::env::args().any(|word| word == "profile") {
        Kind::ALL.into_iter().for_each(|kind| measure::plan_only(Shape { m: 32, n: 64, kind, steps: 3_000 }, 5));
        return Ok(());
    }
    let quick = std::env::args().any(|word| word == "quick");
    let (cases, repeats) = if quick { (4, 3) } else { (20, 7) };
    let mut lines = Vec::new();
    println!("{}", preface(cases, repeats));
    println!("{}", heading());
    for kind in Kind::ALL {
        for (m, n) in SIZES {
            lines.push(measured(Shape { m, n, kind, steps: 3_000 }, cases, repeats));
        }
    }
    println!("\nGrowing u - l\n{}", heading());
    for kind in Kind::ALL {
        for steps in STEPS {
            lines.push(measured(Shape { m: 32, n: 64, kind, steps }, cases, repeats));
        }
    }
    println!("\n{}", goals(&lines));
    println!("The plain planner gave the same answer in each cell of {} cases.", lines.len() as u64 * cases);
    let here = std::path::Path::new(env!("CARGO_MANIFEST_DIR"));
    std::fs::write(here.join("results.csv"), csv(&lines))?;
    std::fs::write(here.join("plot.svg"), plot::svg(&lines))?;
    println!("results.csv and plot.svg are written.");
    Ok(())
}

fn measured(shape: Shape, cases: u64, repeats: u32) -> Line {
    let line = Line { shape, times: measure::times(shape, cases, repeats) };
    println!("{}", row(&line));
    line
}

fn preface(cases: u64, repeats: u32) -> String {
    format!(
        "Each line: {cases} random cases, the same for all four. Processor time of the thread, the least of {repeats} calls, mean over the cases\n\
         (all splits: one pass). Release builds (-O3), no processor-specific flags, answers compared cell by cell and split by split.\n\
         Buffers: the lent slices are cleared before each call, outside the clock; the planners' own working arrays are filled inside it.\n\
         LEMON: graph, costs and solver are made before the clock starts; a solve sets the supplies of one split and runs.\n\
         a = proved planner, whole answer; b = by path searches alone, in plain Rust; c = LEMON NetworkSimplex, one split; d = LEMON, every split.\n"
    )
}

fn heading() -> String {
    format!(
        "{:>8} {:>15} {:>6} {:>6} {:>10} {:>8} {:>8} {:>8}",
        "m x n", "costs", "u - l", "stops", "a, µs", "a / b", "a / c", "d / a"
    )
}

fn row(line: &Line) -> String {
    let (s, t) = (&line.shape, &line.times);
    format!(
        "{:>8} {:>15} {:>6} {:>6.0} {:>10.1} {:>8.2} {:>8.2} {:>8.1}",
        format!("{}x{}", s.m, s.n),
        s.kind.name(),
        s.steps,
        t.stops,
        t.proved * 1e6,
        t.proved / t.plain,
        t.proved / t.one,
        t.all / t.proved
    )
}

/// What is aimed at for costs that are uniform, of few values or distances in a plane: a whole answer in 0.7 of one solve of one split
/// at 32 x 64 and 3,000 splits, in 0.9 with 4,000 splits and at 16 x 32; 500 times faster than split by split, of whatever kind.
fn goals(lines: &[Line]) -> String {
    let met = |yes: bool| if yes { "met" } else { "not met" };
    let worst = |m: usize, steps: u64| {
        let one = |l: &&Line| l.shape.m == m && l.shape.steps == steps && l.shape.kind.in_goals();
        lines.iter().filter(one).map(|l| l.times.proved / l.times.one).fold(0.0, f64::max)
    };
    let least = lines
        .iter()
        .filter(|l| l.shape.m == 32 && l.shape.steps == 3_000)
        .map(|l| l.times.all / l.times.proved)
        .fold(f64::INFINITY, f64::min);
    let mut text = String::from("Goals:");
    for (m, steps, most) in [(32, 3_000, 0.7), (32, 4_000, 0.9), (16, 3_000, 0.9)] {
        let ratio = worst(m, steps);
        text += &format!(
            " a / c at most {most} at {m}x{}, u - l = {steps}: {} (worst {ratio:.2});",
            2 * m,
            met(ratio <= most)
        );
    }
    text + &format!(" d / a at least 500 at 32x64, u - l = 3000: {} (least {least:.0}).", met(least >= 500.0))
}

fn csv(lines: &[Line]) -> String {
    let mut text = String::from("m,n,costs,steps,stops,proved_us,plain_us,lemon_one_us,lemon_all_us\n");
    for Line { shape: s, times: t } in lines {
        text += &format!(
            "{},{},{},{},{:.1},{:.2},{:.2},{:.2},{:.1}\n",
            s.m,
            s.n,
            s.kind.name(),
            s.steps,
            t.stops,
            t.proved * 1e6,
            t.plain * 1e6,
            t.one * 1e6,
            t.all * 1e6
        );
    }
    text
}
