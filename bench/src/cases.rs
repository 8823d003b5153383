//! Random cases of a given shape, repeatable.

/// How the unit costs are drawn, and from `Ceilings` on how narrow the lanes are.
#[derive(Clone, Copy, PartialEq, Eq)]
pub enum Kind {
    Uniform,
    Few,
    Two,
    Plane,
    Rebates,
    Ceilings,
    HalfClosed,
    OneInFour,
    FewNarrow,
    TwoNarrow,
    PlaneNarrow,
}

/// Which lanes have ceilings that bind.
enum Narrow {
    None,
    All,
    Half,
    Fourth,
}

impl Kind {
    pub const ALL: [Kind; 11] = [
        Kind::Uniform,
        Kind::Few,
        Kind::Two,
        Kind::Plane,
        Kind::Rebates,
        Kind::Ceilings,
        Kind::HalfClosed,
        Kind::OneInFour,
        Kind::FewNarrow,
        Kind::TwoNarrow,
        Kind::PlaneNarrow,
    ];

    /// The kind that the costs and the table are drawn as.
    fn costs(self) -> Kind {
        match self {
            Kind::Ceilings | Kind::HalfClosed | Kind::OneInFour => Kind::Uniform,
            Kind::FewNarrow => Kind::Few,
            Kind::TwoNarrow => Kind::Two,
            Kind::PlaneNarrow => Kind::Plane,
            other => other,
        }
    }

    fn narrow(self) -> Narrow {
        match self {
            Kind::Ceilings | Kind::FewNarrow | Kind::TwoNarrow | Kind::PlaneNarrow => Narrow::All,
            Kind::HalfClosed => Narrow::Half,
            Kind::OneInFour => Narrow::Fourth,
            _ => Narrow::None,
        }
    }

    /// Is it one of the kinds that the goals are about?
    pub fn in_goals(self) -> bool {
        matches!(self, Kind::Uniform | Kind::Few | Kind::Plane)
    }

    pub fn name(self) -> &'static str {
        match self {
            Kind::Uniform => "uniform",
            Kind::Few => "few values",
            Kind::Two => "two values",
            Kind::Plane => "plane",
            Kind::Rebates => "rebates",
            Kind::Ceilings => "ceilings",
            Kind::HalfClosed => "half closed",
            Kind::OneInFour => "one in four",
            Kind::FewNarrow => "few, ceilings",
            Kind::TwoNarrow => "two, ceilings",
            Kind::PlaneNarrow => "plane, ceilings",
        }
    }
}

#[derive(Clone, Copy)]
pub struct Shape {
    pub m: usize,
    pub n: usize,
    pub kind: Kind,
    /// u - ℓ
    pub steps: u64,
}

pub struct Case {
    pub m: usize,
    pub n: usize,
    pub costs: Vec<i64>,
    pub supplies: Vec<u64>,
    pub demands: Vec<u64>,
    pub ceilings: Vec<u64>,
    pub table: Vec<u64>,
    pub least: u64,
    pub greatest: u64,
}

/// SplitMix64.
struct Random(u64);

impl Random {
    fn next(&mut self) -> u64 {
        self.0 = self.0.wrapping_add(0x9E37_79B9_7F4A_7C15);
        let mut z = self.0;
        z = (z ^ (z >> 30)).wrapping_mul(0xBF58_476D_1CE4_E5B9);
        z = (z ^ (z >> 27)).wrapping_mul(0x94D0_49BB_1331_11EB);
        z ^ (z >> 31)
    }

    fn within(&mut self, low: u64, high: u64) -> u64 {
        low + self.next() % (high - low + 1)
    }
}

/// The plants make 4,000 drums together; the depots hold up to 16,000, about half of it in the mean.
pub fn case(shape: Shape, seed: u64) -> Case {
    let Shape { m, n, kind, steps } = shape;
    let mut random = Random(seed);
    let costs = costs(&mut random, m, n, kind.costs());
    let made = 4_000;
    let first = 2_000 + steps / 2;
    let second = 2_000 + steps - steps / 2;
    let most = (16_000 / (m as u64 - 2)).min(4_000);
    let mut supplies = vec![first, second];
    supplies.extend((2..m).map(|_| random.within(0, most)));
    let drums = supplies[2..].iter().sum::<u64>() + made;
    let demands = shares(&mut random, drums, n);
    let least = made - second;
    let table = table(&mut random, first, steps, least, kind.costs());
    let ceilings = ceilings(&mut random, kind.narrow(), made, &supplies, &demands);
    Case { m, n, costs, supplies, demands, ceilings, table, least, greatest: first }
}

/// Ceilings that bind leave some plan at the first split and some plan at the last, so that all splits keep a plan: the
/// greater of both amounts and up to 200 drums, on all lanes or on one in four; or that amount itself on every other lane,
/// most of which are then closed.
fn ceilings(random: &mut Random, narrow: Narrow, made: u64, supplies: &[u64], demands: &[u64]) -> Vec<u64> {
    if matches!(narrow, Narrow::None) {
        return vec![4_000; supplies.len() * demands.len()];
    }
    let first = some_plan(random, made - supplies[1], made, supplies, demands);
    let last = some_plan(random, supplies[0], made, supplies, demands);
    let ceiling = |(&x, &z): (&u64, &u64)| {
        let amount = x.max(z);
        match narrow {
            Narrow::All => (amount + random.within(0, 200)).min(4_000),
            Narrow::Fourth if random.within(0, 3) == 0 => (amount + random.within(0, 200)).min(4_000),
            Narrow::Half if random.within(0, 1) == 0 => amount,
            _ => 4_000,
        }
    };
    first.iter().zip(&last).map(ceiling).collect()
}

/// A plan at split y: the lanes in a random order, each with all that it can still take.
fn some_plan(random: &mut Random, y: u64, made: u64, supplies: &[u64], demands: &[u64]) -> Vec<u64> {
    let mut left = supplies.to_vec();
    (left[0], left[1]) = (y, made - y);
    let mut wanted = demands.to_vec();
    let mut plan = vec![0; left.len() * wanted.len()];
    let mut lanes: Vec<usize> = (0..plan.len()).collect();
    for k in (1..lanes.len()).rev() {
        lanes.swap(k, random.within(0, k as u64) as usize);
    }
    for k in lanes {
        let (i, j) = (k / wanted.len(), k % wanted.len());
        plan[k] = left[i].min(wanted[j]);
        left[i] -= plan[k];
        wanted[j] -= plan[k];
    }
    plan
}

fn costs(random: &mut Random, m: usize, n: usize, kind: Kind) -> Vec<i64> {
    let mut each = |low: u64, high: u64| (0..m * n).map(|_| random.within(low, high) as i64).collect();
    match kind {
        Kind::Uniform => each(0, 1_000_000),
        Kind::Few => each(1, 5),
        Kind::Two => each(0, 1),
        Kind::Rebates => {
            // on one lane in five the haulier pays
            let mut costs: Vec<i64> = each(0, 1_000_000);
            costs.iter_mut().filter(|_| random.within(0, 4) == 0).for_each(|cost| *cost = -*cost);
            costs
        }
        Kind::Plane => {
            let mut points = |k: usize| -> Vec<(f64, f64)> {
                (0..k).map(|_| (random.within(0, 10_000) as f64, random.within(0, 10_000) as f64)).collect()
            };
            let (sources, terminals) = (points(m), points(n));
            let away = |s: (f64, f64), t: (f64, f64)| (s.0 - t.0).hypot(s.1 - t.1).round() as i64;
            (0..m * n).map(|k| away(sources[k / n], terminals[k % n])).collect()
        }
        other => unreachable!("{} are drawn as another kind", other.name()),
    }
}

/// The drums dealt to n terminals, 4,000 to each at most: random weights, and the rest to those with room.
fn shares(random: &mut Random, drums: u64, n: usize) -> Vec<u64> {
    let weights: Vec<u64> = (0..n).map(|_| random.within(1, 1_000)).collect();
    let all: u64 = weights.iter().sum();
    let mut shares: Vec<u64> = weights.iter().map(|w| (drums * w / all).min(4_000)).collect();
    let mut rest = drums - shares.iter().sum::<u64>();
    for share in shares.iter_mut() {
        let more = rest.min(4_000 - *share);
        *share += more;
        rest -= more;
    }
    assert_eq!(rest, 0, "the terminals take all drums");
    shares
}

/// A concave table whose slopes are of the size of the costs' differences.
fn table(random: &mut Random, first: u64, steps: u64, least: u64, kind: Kind) -> Vec<u64> {
    let most = match kind {
        Kind::Uniform | Kind::Rebates => 100_000,
        Kind::Few | Kind::Two => 2,
        _ => 2_000,
    };
    let mut slopes: Vec<i64> = (0..steps).map(|_| random.within(0, 2 * most) as i64 - most as i64).collect();
    slopes.sort_unstable_by(|a, b| b.cmp(a));
    let mut table = vec![0; first as usize + 1];
    let mut entry = 400_000_000i64;
    table[least as usize] = entry as u64;
    for (k, slope) in slopes.iter().enumerate() {
        entry += slope;
        table[least as usize + 1 + k] = entry as u64;
    }
    table
}
