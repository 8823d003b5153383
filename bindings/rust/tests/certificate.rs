//! A second checker of certificates (docs/certificate.md), apart from check_certificate.py: another language, the bound anew at every
//! split, the one plan by vectors instead of long numbers. Reads lines of `right` or `wrong`, a space and a certificate (default: the
//! stored ones), and tells where it judges otherwise. Alone: rustc -O --edition 2021 tests/certificate.rs && ./certificate FILE
#[path = "common/json.rs"]
mod json;
use json::{read, Json, Row};

fn ok(holds: bool) -> Option<()> {
    holds.then_some(())
}
fn within(v: &[i128], low: i128, high: i128) -> Option<()> {
    ok(v.iter().all(|x| (low..=high).contains(x)))
}
fn dot(u: &[i128], v: &[i128]) -> i128 {
    u.iter().zip(v).map(|(a, b)| a * b).sum()
}
fn large(v: &[i128]) -> Option<()> {
    within(v, -(1 << 63), 1 << 63)
}
/// The prices of a piece, or of the one plan.
fn prices(of: &Json, m: usize, n: usize) -> Option<(Row, Row)> {
    let (p, q) = (of.row("sources")?, of.row("terminals")?);
    ok(p.len() == m && q.len() == n)?;
    large(&[&p[..], &q].concat()).map(|_| (p, q))
}

/// Some where the certificate is right.
fn right(cert: &Json) -> Option<()> {
    cert.only(&["form", "case", "refusal", "plan", "split", "total", "pieces", "one"])?;
    ok(cert.get("form")?.says("yadvorkhul certificate 1"))?;
    let case = cert.get("case")?;
    case.only(&["costs", "supplies", "demands", "table", "runs", "ceilings"])?;
    let (a, b, entries, runs) = (case.row("supplies")?, case.row("demands")?, case.row("table")?, case.row("runs")?);
    let (m, n) = (a.len(), b.len());
    ok((2..=32).contains(&m) && (1..=64).contains(&n) && runs.len() == 2)?;
    let (c, k) = (case.table("costs", m, n)?, case.table("ceilings", m, n)?);
    within(&[&a[..], &b, &runs, &k.concat()].concat(), 0, 4000)?;
    within(&c.concat(), -1_000_000, 1_000_000).and(within(&entries, 0, u64::MAX as i128))?;
    ok(entries.len() as i128 == a[0] + 1 && runs[0] <= a[0] && runs[1] <= a[1])?;
    let d = b.iter().sum::<i128>() - a[2..].iter().sum::<i128>();
    let numbers = [(d < runs[0] + runs[1], 7), (d > a[0] + a[1], 8), (true, 27)];
    let (refused, mut x, mut split, mut total) = (cert.get("plan")?.is("null"), vec![], 0, 0);
    if refused {
        ok(cert.get("refusal")?.int()? == numbers.iter().find(|t| t.0)?.1)?;
        ok(["split", "total", "one"].iter().all(|name| cert.get(name).is_some_and(|v| v.is("null"))))?
    } else {
        ok(cert.get("refusal")?.is("null"))?;
        (x, split, total) = (cert.table("plan", m, n)?, cert.get("split")?.int()?, cert.get("total")?.int()?);
        ok(x.concat().iter().zip(k.concat()).all(|(v, most)| 0 <= *v && *v <= most))?;
        let least: Row = runs.iter().chain(&a[2..]).copied().collect();
        ok((0..m).all(|i| (least[i]..=a[i]).contains(&x[i].iter().sum())))?;
        ok((0..n).all(|j| x.iter().map(|row| row[j]).sum::<i128>() == b[j]))?;
        ok(split == x[0].iter().sum() && total == entries[split as usize] + dot(&c.concat(), &x.concat()))?;
    }
    let (low, high) = (runs[0].max(d - a[1]), a[0].min(d - runs[1]));
    let mut seen = std::collections::BTreeSet::new();
    for piece in cert.list("pieces")? {
        piece.only(&["from", "to", "none", "sources", "terminals"])?;
        let ((p, q), none) = (prices(piece, m, n)?, piece.get("none")?.is("true"));
        let (first, last) = (piece.get("from")?.int()?, piece.get("to")?.int()?);
        large(&[first, last]).and(ok(none || piece.get("none")?.is("false")))?;
        let rate = |i: usize, j: usize| if none { 0 } else { c[i][j] } + p[i] - q[j];
        let lanes: i128 = (0..m * n).map(|e| rate(e / n, e % n).min(0) * k[e / n][e % n]).sum();
        for y in low.max(first)..=high.min(last) {
            let (sent, entry): (Row, i128) = ([&[y, d - y], &a[2..]].concat(), entries[y as usize]);
            let bound = dot(&q, &b) - dot(&p, &sent) + lanes;
            let dearer = !refused && entry <= 1_000_000_000 && bound + entry >= total + (y < split) as i128;
            ok(if none { bound > 0 } else { dearer })?;
            seen.insert(y);
        }
    }
    ok((low..=high).all(|y| seen.contains(&y)))?;
    ok(refused).or_else(|| one(cert.get("one")?, &c, &k, &x))
}

/// The plan is slack at costs and prices that are vectors, a place for the money and one for each lane, the first one that is not 0 telling.
fn one(one: &Json, c: &[Row], k: &[Row], x: &[Row]) -> Option<()> {
    let (m, n) = (c.len(), c[0].len());
    one.only(&["sources", "terminals", "tree"])?;
    let ((p, q), steps) = (prices(one, m, n)?, one.list("tree")?.len());
    ok(steps < m + n)?;
    let mut price: Vec<Row> = p.iter().chain(&q).map(|v| [&[*v], &vec![0; m * n][..]].concat()).collect();
    for step in one.table("tree", steps, 2)? {
        let (u, v) = (usize::try_from(step[0]).ok()?, usize::try_from(step[1]).ok()?);
        ok(u < m + n && v < m + n && (u < m) != (v < m))?;
        let from = price[u].clone();
        price[v][1..].copy_from_slice(&from[1..]);
        price[v][1 + u.min(v) * n + u.max(v) - m] += if u < m { 1 } else { -1 };
    }
    let slack = |e: usize| {
        let (i, j) = (e / n, e % n);
        let rate =
            (0..=m * n).map(|t| price[i][t] - price[m + j][t] + if t == 0 { c[i][j] } else { (t == 1 + e) as i128 });
        let sign = rate.map(i128::signum).find(|s| *s != 0).unwrap_or(0);
        (sign <= 0 || x[i][j] == 0) && (sign >= 0 || x[i][j] == k[i][j])
    };
    ok((0..m * n).all(slack))
}

fn main() {
    let path = std::env::args().skip(1).find(|word| !word.starts_with('-')).unwrap_or("tests/certificates.txt".into());
    let text = std::fs::read_to_string(&path).unwrap_or_else(|error| panic!("{path}: {error}"));
    let judged = |line: &str| read(&line[6..]).and_then(|cert| right(&cert)).is_some();
    let other: Vec<&str> = text.lines().filter(|line| judged(line) != line.starts_with("right ")).collect();
    println!("{} certificates judged, {} of them otherwise than told", text.lines().count(), other.len());
    other.first().inspect(|line| println!("{line}"));
    std::process::exit(!other.is_empty() as i32)
}
