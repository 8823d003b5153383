//! The least-cost flow against every flow of small networks, and against an independent method on networks of any size.

mod common;

use common::random::Random;
use yadvorkhul::flow_into;

#[derive(Clone, Debug)]
struct Arc {
    start: usize,
    end: usize,
    ceiling: u64,
    cost: i64,
}

#[derive(Clone, Debug)]
struct Network {
    supplies: Vec<i64>,
    arcs: Vec<Arc>,
    named: usize,
    table: Vec<u64>,
}

impl Network {
    /// The file: supplies of 0 are left out, comments stand between.
    fn file(&self) -> Vec<u8> {
        let mut text = format!("c a comment, \u{e9}\np min {} {}\n", self.supplies.len(), self.arcs.len());
        for (v, supply) in self.supplies.iter().enumerate().filter(|(_, supply)| **supply != 0) {
            text += &format!("n {}  {}\ncost\n", v + 1, supply);
        }
        for arc in &self.arcs {
            text += &format!("a {} {} 0 {} {}\n", arc.start + 1, arc.end + 1, arc.ceiling, arc.cost);
        }
        text.into_bytes()
    }

    /// The supply plus the ceilings of all arcs into the node.
    fn amount(&self, v: usize) -> i64 {
        self.supplies[v] + self.arcs.iter().filter(|arc| arc.end == v).map(|arc| arc.ceiling as i64).sum::<i64>()
    }

    fn total(&self, flow: &[u64]) -> i64 {
        let own = self.arcs.iter().zip(flow).enumerate().filter(|(k, _)| *k != self.named);
        own.map(|(_, (arc, &x))| arc.cost * x as i64).sum::<i64>() + self.table[flow[self.named] as usize] as i64
    }

    fn is_flow(&self, flow: &[u64]) -> bool {
        let mut left = self.supplies.clone();
        for (arc, &x) in self.arcs.iter().zip(flow) {
            left[arc.start] -= x as i64;
            left[arc.end] += x as i64;
        }
        left.iter().all(|&x| x == 0) && self.arcs.iter().zip(flow).all(|(arc, &x)| x <= arc.ceiling)
    }
}

/// The least total and the smallest flow on the named arc with it, over all flows.
fn by_listing(network: &Network) -> Option<(i64, u64)> {
    let mut flow = vec![0; network.arcs.len()];
    let mut best = None;
    loop {
        if network.is_flow(&flow) {
            let found = (network.total(&flow), flow[network.named]);
            if best.map_or(true, |b| found < b) {
                best = Some(found);
            }
        }
        let Some(k) = (0..flow.len()).find(|&k| flow[k] < network.arcs[k].ceiling) else {
            return best;
        };
        flow[k] += 1;
        flow[..k].fill(0);
    }
}

/// The least cost of a flow with so much on the named arc: all arcs of cost below 0 are filled, then shortest paths in the residual
/// network carry the excess to where it lacks.
fn least(network: &Network, on_named: u64) -> Option<i64> {
    let n = network.supplies.len();
    let mut excess = network.supplies.clone();
    // from, to, what is left, cost; the reverse of arc e is e ^ 1
    let mut arcs: Vec<(usize, usize, i64, i64)> = Vec::new();
    let mut cost = 0;
    for (k, arc) in network.arcs.iter().enumerate() {
        let (mut there, mut back) = (arc.ceiling as i64, 0);
        if k == network.named {
            excess[arc.start] -= on_named as i64;
            excess[arc.end] += on_named as i64;
            (there, back) = (0, 0);
        } else if arc.cost < 0 {
            excess[arc.start] -= there;
            excess[arc.end] += there;
            cost += arc.cost * there;
            (there, back) = (back, there);
        }
        arcs.push((arc.start, arc.end, there, arc.cost));
        arcs.push((arc.end, arc.start, back, -arc.cost));
    }
    if excess.iter().sum::<i64>() != 0 {
        return None;
    }
    while let Some(from) = (0..n).find(|&v| excess[v] > 0) {
        let mut distance = vec![i64::MAX; n];
        let mut by = vec![usize::MAX; n];
        distance[from] = 0;
        for _ in 0..n {
            for (e, &(u, v, left, c)) in arcs.iter().enumerate() {
                if left > 0 && distance[u] < i64::MAX && distance[u] + c < distance[v] {
                    (distance[v], by[v]) = (distance[u] + c, e);
                }
            }
        }
        let to = (0..n).filter(|&v| excess[v] < 0 && distance[v] < i64::MAX).min_by_key(|&v| distance[v])?;
        let mut carried = excess[from].min(-excess[to]);
        let mut v = to;
        while v != from {
            carried = carried.min(arcs[by[v]].2);
            v = arcs[by[v]].0;
        }
        v = to;
        while v != from {
            let e = by[v];
            arcs[e].2 -= carried;
            arcs[e ^ 1].2 += carried;
            cost += carried * arcs[e].3;
            v = arcs[e].0;
        }
        excess[from] -= carried;
        excess[to] += carried;
    }
    Some(cost)
}

fn by_paths(network: &Network) -> Option<(i64, u64)> {
    (0..=network.arcs[network.named].ceiling)
        .filter_map(|x| Some((least(network, x)? + network.table[x as usize] as i64, x)))
        .min()
}

/// What is answered, with 7 in every lent cell before: number, report, worth and the five slices.
type Answer = (u64, [u64; 2], [i64; 2], [Vec<u64>; 4], Vec<i64>);

fn call(file: &[u8], place: usize, table: &[u64], cells: [usize; 5]) -> Answer {
    let [mut flow, mut starts, mut ends, mut ceilings] = [0, 1, 2, 3].map(|k| vec![7; cells[k]]);
    let (mut costs, mut report, mut worth) = (vec![7; cells[4]], [7; 2], [7; 2]);
    let number = flow_into(
        file,
        place,
        table,
        &mut flow,
        &mut starts,
        &mut ends,
        &mut ceilings,
        &mut costs,
        &mut report,
        &mut worth,
    );
    (number, report, worth, [flow, starts, ends, ceilings], costs)
}

fn refused(file: &[u8], place: usize, table: &[u64], cells: [usize; 5], number: u64, line: u64) {
    let kept = [0, 1, 2, 3].map(|k| vec![7; cells[k]]);
    assert_eq!(
        call(file, place, table, cells),
        (number, [line, 7], [7; 2], kept, vec![7; cells[4]]),
        "{:?}",
        String::from_utf8_lossy(file)
    );
}

/// The answer is a flow of the due total with the due flow on the named arc, and every other cell is as it should be; or the refusal is
/// the due one. Answers the number.
fn held(network: &Network, due: Option<(i64, u64)>) -> u64 {
    let (file, count) = (network.file(), network.arcs.len());
    let (place, cells) = (network.named + 1, [count + 1, count, count + 2, count, count + 1]);
    if (0..network.supplies.len()).any(|v| network.amount(v) > 4_000) {
        refused(&file, place, &network.table, cells, 30, 0);
        return 30;
    }
    let Some((total, on_named)) = due else {
        refused(&file, place, &network.table, cells, 27, 0);
        return 27;
    };
    let (number, report, worth, [flow, starts, ends, ceilings], costs) = call(&file, place, &network.table, cells);
    assert_eq!((number, report, worth), (0, [count as u64, 7], [total, 7]), "{network:?}");
    assert!(network.is_flow(&flow[..count]), "{network:?} {flow:?}");
    assert_eq!((network.total(&flow[..count]), flow[network.named]), (total, on_named), "{network:?} {flow:?}");
    for (k, arc) in network.arcs.iter().enumerate() {
        assert_eq!(
            (starts[k], ends[k], ceilings[k], costs[k]),
            (arc.start as u64 + 1, arc.end as u64 + 1, arc.ceiling, arc.cost)
        );
    }
    assert!([&flow, &starts, &ends, &ceilings].iter().all(|cells| cells[count..].iter().all(|&cell| cell == 7)));
    assert!(costs[count..].iter().all(|&cell| cell == 7));
    refused(&file, place, &network.table, [count, count, count - 1, count, count], 30, 0);
    0
}

/// A network whose supplies are those of some flow, but for one in eight.
fn network(random: &mut Random, nodes: (usize, usize), arcs: (usize, usize), most: u64, cost: u64) -> Network {
    let n = random.size(nodes.0, nodes.1);
    let mut supplies = vec![0; n];
    let mut found = Vec::new();
    for _ in 0..random.size(arcs.0, arcs.1) {
        let start = random.size(0, n - 1);
        let end = (start + random.size(1, n - 1)) % n;
        let ceiling = random.within(0, most);
        let x = random.within(0, ceiling) as i64;
        supplies[start] += x;
        supplies[end] -= x;
        found.push(Arc { start, end, ceiling, cost: random.signed(-(cost as i64), cost as i64) });
    }
    if random.size(0, 7) == 0 {
        let v = random.size(0, n - 1);
        supplies[v] += random.signed(-2, 2);
        let v = random.size(0, n - 1);
        supplies[v] -= random.signed(-2, 2);
    }
    let named = random.size(0, found.len() - 1);
    let table = (0..=found[named].ceiling).map(|_| random.within(0, 4 * cost)).collect();
    Network { supplies, arcs: found, named, table }
}

#[test]
fn every_flow() {
    let mut random = Random::new(211);
    let mut counts = [0; 31];
    for _ in 0..3_000 {
        let drawn = network(&mut random, (2, 5), (1, 7), 3, 6);
        let due = by_listing(&drawn);
        assert_eq!(due, by_paths(&drawn), "the two referees; {drawn:?}");
        counts[held(&drawn, due) as usize] += 1;
    }
    println!("{} flows agree with all flows, {} have none", counts[0], counts[27]);
    assert!(counts[0] > 1_000 && counts[27] > 100);
}

#[test]
fn any_size() {
    let mut random = Random::new(2_110);
    let mut counts = [0; 31];
    for round in 0..150 {
        let (nodes, arcs) = if round % 2 == 0 { ((32, 32), (64, 64)) } else { ((2, 32), (1, 64)) };
        let most = [30, 200, 600][round % 3];
        let drawn = network(&mut random, nodes, arcs, most, 1_000_000);
        let due = by_paths(&drawn);
        counts[held(&drawn, due) as usize] += 1;
    }
    println!(
        "{} flows agree with shortest paths, {} have none, {} are out of the limits",
        counts[0], counts[27], counts[30]
    );
    assert!(counts[0] > 80);
}

/// The numbers in their order: the form, then the limits, then the flows.
#[test]
fn refusals() {
    let five = |cells: usize| [cells; 5];
    let file = b"p min 2 1\nn 1 2\nn 2 -2\na 1 2 0 2 5\n";
    assert_eq!(call(file, 1, &[0, 1, 9], five(1)).0, 0);
    refused(b"", 1, &[], five(0), 29, 1);
    refused(b"p min 2 1\nn 1 2\nn 2 -2\na 1 2 0 2 5", 1, &[0, 1, 9], five(1), 29, 4);
    refused(b"p min 2 1\nn 1 2\nn 2 -2\na 1 2 0 02 5\n", 9, &[], five(0), 29, 4);
    refused(b"p min 2 1\nn 1 2\nn 2 -2\n", 1, &[0, 1, 9], five(1), 29, 4);
    refused(b"p min 2 1\n\nn 1 2\nn 2 -2\na 1 2 0 2 5\n", 1, &[0, 1, 9], five(1), 29, 2);
    refused(b"p min 2 1\r\nn 1 2\nn 2 -2\na 1 2 0 2 5\n", 1, &[0, 1, 9], five(1), 29, 1);
    for (place, table) in
        [(0, vec![0, 1, 9]), (2, vec![0, 1, 9]), (1, vec![0, 1]), (1, vec![0; 4]), (1, vec![0, 1_000_000_001, 9])]
    {
        refused(file, place, &table, five(1), 30, 0);
    }
    for short in 0..5 {
        let mut cells = five(2);
        cells[short] = 0;
        refused(file, 1, &[0, 1, 9], cells, 30, 0);
    }
    refused(b"p min 2 1\nn 1 2\nn 1 2\nn 2 -4\na 1 2 0 2 5\n", 1, &[0, 1, 9], five(1), 30, 0);
    refused(b"p min 2 1\nn 1 2\nn 2 -2\na 1 1 0 2 5\n", 1, &[0, 1, 9], five(1), 30, 0);
    refused(b"p min 2 1\nn 1 2\nn 2 -2\na 1 2 1 2 5\n", 1, &[0, 1, 9], five(1), 30, 0);
    refused(b"p min 2 1\nn 1 4001\nn 2 -4001\na 1 2 0 2 5\n", 1, &[0, 1, 9], five(1), 30, 0);
    refused(b"p min 2 1\nn 1 3\nn 2 -3\na 1 2 0 2 5\n", 1, &[0, 1, 9], five(1), 27, 0);
    refused(b"p min 2 1\nn 1 2\nn 2 -1\na 1 2 0 2 5\n", 1, &[0, 1, 9], five(1), 27, 0);
}

/// Without a cell to tell anything in, nothing is looked at.
#[test]
fn no_report() {
    let (mut flow, mut starts, mut ends, mut ceilings, mut costs) = ([7; 1], [7; 1], [7; 1], [7; 1], [7; 1]);
    for (report, worth) in [(0, 1), (1, 0)] {
        let (mut told, mut valued) = (vec![7; report], vec![7; worth]);
        let number = flow_into(
            b"p min 2 1\na 1 2 0 0 5\n",
            1,
            &[0],
            &mut flow,
            &mut starts,
            &mut ends,
            &mut ceilings,
            &mut costs,
            &mut told,
            &mut valued,
        );
        assert_eq!((number, told, valued), (yadvorkhul::SHORT_REPORT, vec![7; report], vec![7; worth]));
    }
    assert_eq!((flow, starts, ends, ceilings, costs), ([7; 1], [7; 1], [7; 1], [7; 1], [7; 1]));
}
