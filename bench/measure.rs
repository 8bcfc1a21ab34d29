//! The measuring: the best time of many single calls, the two sides in turn.
use crate::figures::Figures;
use crate::random::{self, Random};
use crate::{library, plain};
use std::hint::black_box;
use std::time::{Duration, Instant};

/// The kinds of record.
const KINDS: [(u8, &str); 3] = [(1, "codes"), (2, "snapshots"), (3, "runs")];

/// Eight rules of four rows each, of every kind of row.
const RULES: [&str; 8] = [
    "s0 => (s1 since s2)",
    "s1 => (s2 until s3)",
    "s2 => (s4 or s5)",
    "s3 => (not (next s4))",
    "(s4 and s6) => start",
    "s5 => (yest (not s0))",
    "(true since s6) => s7",
    "(false or end) => s1",
];

/// The first rules, as lines.
fn rule_lines(count: usize) -> Vec<u8> {
    RULES[..count].iter().flat_map(|rule| [rule.as_bytes(), b"\n"]).flatten().copied().collect()
}

/// A trace of `n` instants with no fault.
fn sound_body(kind: u8, n: usize) -> Vec<u8> {
    let mut random = Random::new(11);
    loop {
        let body = random::body_of(&mut random, kind, n);
        if plain::take_in(&rule_lines(1), kind, &body, &mut [Figures::default()]) == 0 {
            return body;
        }
    }
}

/// A log of records of each kind in turn that fills 65,536 bytes.
fn full_log() -> Vec<u8> {
    let mut log = Vec::new();
    let bodies = [1, 2, 3].map(|kind| random::record(kind, &sound_body(kind, 1024)));
    for record in bodies.iter().cycle() {
        if log.len() + record.len() > 65_536 - 4 {
            break;
        }
        log.extend_from_slice(record);
    }
    let last = 65_536 - log.len() - 4;
    log.extend(random::record(1, &vec![3; last]));
    assert_eq!(log.len(), 65_536);
    log
}

/// The best times of two calls, over this many turns, in each of which each is called once.
fn best(turns: usize, mut ours: impl FnMut(), mut theirs: impl FnMut()) -> (Duration, Duration) {
    let mut times = (Duration::MAX, Duration::MAX);
    let timed = |call: &mut dyn FnMut()| {
        let start = Instant::now();
        call();
        start.elapsed()
    };
    for _ in 0..turns {
        times.0 = times.0.min(timed(&mut ours));
        times.1 = times.1.min(timed(&mut theirs));
    }
    times
}

fn best_take_in(turns: usize, rules: usize, kind: u8, n: usize) -> (Duration, Duration) {
    let lines = rule_lines(rules);
    let body = sound_body(kind, n);
    let mut ours = [Figures::default(); 8];
    let mut theirs = ours;
    let times = best(
        turns,
        || assert_eq!(library::take_in(black_box(&lines), kind, black_box(&body), &mut ours), 0),
        || assert_eq!(plain::take_in(black_box(&lines), kind, black_box(&body), &mut theirs), 0),
    );
    assert_eq!(ours, theirs);
    times
}

fn best_peek(turns: usize) -> (Duration, Duration) {
    let lines = rule_lines(8);
    let codes = sound_body(1, 1024);
    let (mut ours, mut theirs) = ((0, 0), (0, 0));
    let times = best(
        turns,
        || {
            let codes = black_box(&codes);
            let answer = library::peek(black_box(&lines), codes, 1, 512, &mut ours.0, &mut ours.1);
            assert_eq!(answer, 0);
        },
        || {
            let codes = black_box(&codes);
            let answer = plain::peek(black_box(&lines), codes, 1, 512, &mut theirs.0, &mut theirs.1);
            assert_eq!(answer, 0);
        },
    );
    assert_eq!(ours, theirs);
    times
}

fn best_report(turns: usize) -> (Duration, Duration) {
    let lines = rule_lines(8);
    let log = full_log();
    let (mut ours, mut theirs) = (vec![0; 8192], vec![0; 8192]);
    let times = best(
        turns,
        || assert!(library::report(black_box(&lines), black_box(&log), &mut ours) <= 8192),
        || assert!(plain::report(black_box(&lines), black_box(&log), &mut theirs) <= 8192),
    );
    assert!(ours == theirs);
    times
}

fn best_rule_text(turns: usize) -> (Duration, Duration) {
    let lines = rule_lines(8);
    best(
        turns,
        || assert_eq!(library::rule_text(black_box(&lines)), 8),
        || assert_eq!(plain::rule_text(black_box(&lines)), 8),
    )
}

fn micros(time: Duration) -> f64 {
    time.as_nanos() as f64 / 1000.0
}

fn print_times(name: &str, (ours, theirs): (Duration, Duration)) {
    let ratio = micros(theirs) / micros(ours);
    println!("{name:44} {:12.2} {:12.2} {ratio:7.2}", micros(ours), micros(theirs));
}

/// Prints the best times and the ratios of each call.
pub fn print_ratios(turns: usize) {
    println!("{:44} {:>12} {:>12} {:>7}", "call", "library us", "plain us", "ratio");
    for (kind, name) in KINDS {
        let name = format!("take in, {name}, 1024 instants, 32 rows");
        print_times(&name, best_take_in(turns, 8, kind, 1024));
    }
    print_times("peek, 1024 codes, 32 rows", best_peek(turns));
    print_times("report, log of 65536 bytes, 32 rows", best_report(turns.div_ceil(10)));
    print_times("rule text, 8 rules, 32 rows", best_rule_text(turns));
}

/// Prints how the times grow with the instants and with the rows.
pub fn print_growth(turns: usize) {
    for (kind, kind_name) in KINDS {
        for n in [128, 256, 512, 1024] {
            let name = format!("take in, {kind_name}, {n} instants, 32 rows");
            print_times(&name, best_take_in(turns, 8, kind, n));
        }
        for rules in [1, 2, 4, 8] {
            let name = format!("take in, {kind_name}, 1024 instants, {} rows", 4 * rules);
            print_times(&name, best_take_in(turns, rules, kind, 1024));
        }
    }
}
