//! Ask 3: "In the calendar of ISO 8601 a year that 100 divides is leap only if
//! 400 divides it."
mod common;
use common::*;
use second::values::{Kind, Value};
use second::{find_tables, write_graph};
use std::collections::BTreeSet;

/// The answer for the bench with this date for its Run, in property row 1.
fn run_on(date: u32) -> [u32; 5] {
    let mut g = bench_graph();
    g.nodes[1].props = vec![(1, V::Date(date))];
    answer(&g, &bench_schema())
}

/// "2000-02-29 stays good; 1900-02-29 and 2100-02-29 become bad property rows."
#[test]
fn the_days_of_the_ask() {
    for good in [20000229, 20240229] {
        assert_eq!(run_on(good), [0, 0, 0, 0, 0]);
        assert_eq!(run_on(good + 1), [8, 1, 0, 0, 0]);
    }
    for bad in [19000229, 21000229] {
        assert_eq!(run_on(bad), [8, 1, 0, 0, 0]);
        // The days about it stay good.
        assert_eq!(run_on(bad - 1), [0, 0, 0, 0, 0]);
        assert_eq!(run_on(bad - 229 + 301), [0, 0, 0, 0, 0]);
    }
}

/// The file of a node and an edge with three of these dates each. The edge row
/// is at 16, the property rows are at 40, and there is no text.
fn file_with(dates: [u32; 6]) -> Vec<u8> {
    let [a, b, c, d, e, f] = dates.map(V::Date);
    let mut g = G {
        nodes: vec![obj(RUN, &[(0, a), (1, b), (2, c)])],
        edges: vec![edge(0, 0, OF)],
        labels: 5,
        names: 5,
        preface: Vec::new(),
    };
    g.edges[0].o.props = vec![(0, d), (1, e), (2, f)];
    g.bytes()
}

/// "Refusals: 8, in its old place": the lowest bad row's, after 7, before 9.
#[test]
fn the_refusal_in_its_old_place() {
    let good = file_with([20000229; 6]);
    assert_eq!(second::answer(&good, &[]), [9, 0, 0, 0, 0]);
    for place in 0..6 {
        let bad = [8, place as u32, 0, 0, 0];
        let mut dates = [20000229; 6];
        dates[place] = 21000229;
        assert_eq!(second::answer(&file_with(dates), &[]), bad);
        dates[place..].fill(19000229);
        let mut file = file_with(dates);
        assert_eq!(second::answer(&file, &[]), bad);
        assert_eq!(find_tables(&file)[..5], bad);
        // The writer: "41 when [...] the reader would refuse the values".
        let (nodes, edges, rows) = (&file[..16], &file[16..40], &file[40..136]);
        let mut out = [7; 200];
        let told = write_graph(nodes, edges, rows, &[], 5, 5, &mut out);
        assert_eq!((told, out), ((41, 0), [7; 200]));
        // The edge's target is not below the node count.
        put(&mut file, 16 + 12, 4, 1);
        assert_eq!(second::answer(&file, &[]), [7, 0, 0, 0, 0]);
    }
}

/// Every number that is a Date; they rise from day to day.
fn calendar() -> Vec<u64> {
    let good = |number: &u64| Value::read(Kind::Date, 0, *number, &[]).is_some();
    (0..100_020_000).filter(good).collect()
}

/// All years by fours, but of the hundreds those of a list.
fn leap_years() -> BTreeSet<u64> {
    let leap_hundreds = [
        400, 800, 1200, 1600, 2000, 2400, 2800, 3200, 3600, 4000, 4400, 4800, 5200, 5600, 6000,
        6400, 6800, 7200, 7600, 8000, 8400, 8800, 9200, 9600,
    ];
    let mut years: BTreeSet<u64> = (4..=9999).step_by(4).collect();
    for hundred in (100..=9999).step_by(100) {
        assert!(years.remove(&hundred));
    }
    years.extend(leap_hundreds);
    years
}

#[test]
fn every_date_there_is() {
    let leap_years = leap_years();
    // All 2,499 fours, without the 99 hundreds, with 24 of these again.
    assert_eq!(leap_years.len(), 2_499 - 99 + 24);
    let mut days = Vec::new();
    for year in 1..=9999 {
        let february = if leap_years.contains(&year) { 29 } else { 28 };
        let lengths = [31, february, 31, 30, 31, 30, 31, 31, 30, 31, 30, 31];
        for (month, length) in (1..).zip(lengths) {
            days.extend((1..=length).map(|day| year * 10_000 + month * 100 + day));
        }
    }
    assert!(calendar() == days);
}

#[test]
fn days_counted() {
    let calendar = calendar();
    assert_eq!(calendar.len(), 3_652_059);
    let before = |date: u64| calendar.partition_point(|day| *day < date);
    for year in 1..=9_600 {
        let (from, to) = (year * 10_000, (year + 400) * 10_000);
        assert_eq!(before(to) - before(from), 146_097);
    }
    // Four hundreds in a row, the leap one first.
    let hundreds = [20000101, 21000101, 22000101, 23000101, 24000101].map(before);
    let spans = [0, 1, 2, 3].map(|at| hundreds[at + 1] - hundreds[at]);
    assert_eq!(spans, [36_525, 36_524, 36_524, 36_524]);
    assert_eq!(before(20000101) - before(19000101), 36_524);
    // A clock's second 2,147,483,647 since 1970 is in 2038.
    assert_eq!(before(20380119) - before(19700101), 2_147_483_647 / 86_400);
    // Days of the week, 0 for a Monday, as almanacs have them.
    let weekdays = [
        (10101, 0),
        (15821015, 4),
        (19000101, 0),
        (19700101, 3),
        (20000101, 5),
        (20000229, 1),
        (20240229, 3),
        (21000301, 0),
        (99991231, 4),
    ];
    for (date, weekday) in weekdays {
        assert_eq!(before(date) % 7, weekday, "{date}");
    }
}
