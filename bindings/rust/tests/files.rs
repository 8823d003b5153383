//! The functions on the bytes of files: what they read, print and write, what each lent slice keeps on a refusal, and the version.

mod common;

use common::random::Random;
use yadvorkhul::files::*;
use yadvorkhul::{Case, SHORT_REPORT};

const T: &[u8] = b"2,6,3\r\n5,3,3\r\n1,4,1\r\n3,2,";
const P: &[u8] = b"99\r\n20\r\n24\r\n20";

#[test]
fn version_is_the_crates() {
    let (major, minor, patch) = version();
    assert_eq!(format!("{major}.{minor}.{patch}"), env!("CARGO_PKG_VERSION"));
}

#[test]
fn case_a_is_read_printed_and_written() {
    let case = read_case(T, P).unwrap();
    assert_eq!(case.costs, [2, 6, 5, 3, 1, 4]);
    assert_eq!(
        (&case.supplies[..], &case.demands[..], &case.table[..]),
        (&[3, 3, 1][..], &[3, 2][..], &[99, 20, 24, 20][..])
    );
    let printed = plan_files(T, P);
    let due =
        "source,terminal,amount,cost\r\n0,0,3,20\r\n1,1,3,6\r\n1,2,0,0\r\n2,1,0,0\r\n2,2,1,3\r\n3,1,0,0\r\n3,2,1,4\r\n";
    assert_eq!((printed.number, printed.place, std::str::from_utf8(&printed.text).unwrap()), (0, 0, due));
    let (tariff, production) = write_case(&case).unwrap();
    assert_eq!(tariff, [T, b"\r\n"].concat());
    assert_eq!(production, [P, b"\r\n"].concat());
    assert_eq!(tidy_files(b"\"2\",6,3\r\n5,3,\"3\"\r\n1,4,1\r\n3,2,", P).unwrap(), (tariff, production));
    let bounds = bounds_files(T, P, b"99\r\n20\r\n24\r\n22");
    assert_eq!(bounds.text, b"smallest,largest\r\n33,34\r\nsplit,possible\r\n1,1\r\n2,0\r\n3,1\r\n");
    let network = b"p min 2 2\nn 1 3\nn 2 -3\na 1 2 0 2 5\na 1 2 0 3 1\n";
    let flow = flow_files(network, b"2", b"0\r\n4\r\n6\r\n20");
    assert_eq!(
        (flow.number, &flow.text[..]),
        (0, &b"total\r\n11\r\nstart,end,flow,cost\r\n1,2,1,5\r\n1,2,2,6\r\n"[..])
    );
    assert_eq!(flow_files(network, b"two", b"0\r\n4\r\n6\r\n20").number, 30);
    assert_eq!(flow_files(b"p min 2 2\r\n", b"2", P).text, b"refusal,place\r\n29,1\r\n");
}

#[test]
fn refusals_name_number_place_and_file() {
    let told = |t: &[u8], p: &[u8]| read_case(t, p).map_err(|r| (r.number, r.place, r.file)).unwrap_err();
    assert_eq!(told(b"2,6,3\n", P), (21, 5, Faulty::Tariff));
    assert_eq!(told(T, b"99;20"), (21, 2, Faulty::Production));
    assert_eq!(told(T, b"99\r\n20,5\r\n"), (22, 2, Faulty::Production));
    assert_eq!(told(&[b'2'; LONGEST_FILE + 1], P), (20, 0, Faulty::Tariff));
    assert_eq!(told(b"2,3\r\n1,", P), (1, 0, Faulty::Neither));
    let row = "1,".repeat(65) + "1\r\n";
    let wide = [row.as_bytes(), row.as_bytes(), "1,".repeat(65).as_bytes()].concat();
    assert_eq!(told(&wide, P), (2, 0, Faulty::Neither));
    assert_eq!(plan_files(T, b"99;20").text, b"refusal,place\r\n21,2\r\n");
    let case = Case { table: vec![99, 10_000_000_000, 24, 20], ..read_case(T, P).unwrap() };
    assert_eq!(write_case(&case).unwrap_err().number, 9);
    let case = Case { table: vec![10_000_000_000, 20, 24, 20], ..read_case(T, P).unwrap() };
    assert_eq!(write_case(&case).map_err(|r| (r.number, r.place)), Err((32, 0)));
}

#[test]
fn short_slices_keep_their_cells() {
    for (c, s, d, t, r) in [(5, 3, 2, 4, 3), (6, 2, 2, 4, 3), (6, 3, 1, 4, 3), (6, 3, 2, 3, 3), (6, 3, 2, 4, 2)] {
        let (mut costs, mut supplies, mut demands) = (vec![7; c], vec![7; s], vec![7; d]);
        let (mut table, mut report) = (vec![7; t], vec![7; r]);
        let number = read_case_into(T, P, &mut costs, &mut supplies, &mut demands, &mut table, &mut report);
        assert_eq!(number, if r < 3 { SHORT_REPORT } else { 11 });
        assert_eq!(report, if r < 3 { vec![7, 7] } else { vec![0, 0, 7] });
        assert!(costs.iter().all(|&x| x == 7));
        assert!([supplies, demands, table].concat().iter().all(|&x| x == 7));
    }
    let (mut table, mut report) = ([7; 3], [7; 2]);
    assert_eq!((read_table_into(P, &mut table, &mut report), table, report), (11, [7; 3], [0, 7]));
    assert_eq!((read_table_into(P, &mut table, &mut report[..1]), table, report), (SHORT_REPORT, [7; 3], [0, 7]));
    let (mut text, mut report) = ([7; 10], [7; 3]);
    assert_eq!(plan_files_into(T, P, &mut text, &mut report), 0);
    assert_eq!((&text[..], report), (&b"source,ter"[..], [plan_files(T, P).text.len() as u64, 0, 7]));
}

/// Damaged files: what is read and planned is what is printed.
#[test]
fn damaged_files_are_told_alike() {
    let mut draw = Random::new(1995);
    let signs = b"0123456789,,,\r\n\r\n\"--;. x";
    let mut seen = std::collections::BTreeSet::new();
    for _ in 0..4_000 {
        let mut both = [T.to_vec(), P.to_vec()];
        for _ in 0..draw.size(0, 3) {
            let file = &mut both[draw.size(0, 1)];
            let at = draw.size(0, file.len() - 1);
            file[at] = signs[draw.size(0, signs.len() - 1)];
        }
        let printed = plan_files(&both[0], &both[1]);
        let told = match read_case(&both[0], &both[1]) {
            Err(refusal) => (refusal.number, refusal.place),
            Ok(case) => case.plan().map_or_else(|refusal| (refusal.number, refusal.place), |_| (0, 0)),
        };
        assert_eq!((printed.number, printed.place), told);
        seen.insert(printed.number);
    }
    assert!([0, 6, 7, 8, 21].iter().all(|number| seen.contains(number)), "{seen:?}");
}
