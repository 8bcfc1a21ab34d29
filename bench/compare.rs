//! The comparison: both sides give the same answers, and leave the same in what they are lent.
use crate::figures::Figures;
use crate::random::{self, Random};
use crate::{library, plain};

/// What is in a lent place before a call, so that what is written shows.
const BEFORE: u64 = 0xD1D2_D3D4_D5D6_D7D8;

/// How often each answer came, by its number.
#[derive(Default)]
struct Answers(std::collections::BTreeMap<u32, u32>);

impl Answers {
    fn add(&mut self, answer: u32) {
        *self.0.entry(answer).or_default() += 1;
    }
}

fn old_figures(count: usize) -> Vec<Figures> {
    let old = Figures {
        both: BEFORE,
        act: BEFORE,
        tgt: BEFORE,
        none: BEFORE,
        triggered: BEFORE,
        degrees: BEFORE,
    };
    vec![old; count]
}

fn compare_rule_text(random: &mut Random, answers: &mut Answers) {
    let rules = random::rules(random);
    let answer = library::rule_text(&rules);
    assert_eq!(answer, plain::rule_text(&rules), "rule text {rules:?}");
    answers.add(answer);
}

fn compare_take_in(random: &mut Random, answers: &mut Answers) {
    let rules = random::rules(random);
    let kind = if random.once_in(50) { random.byte() } else { 1 + random.below(3) as u8 };
    let body = random::body(random, kind);
    let room = if random.once_in(20) { random.below(8) } else { 8 };
    let (mut ours, mut theirs) = (old_figures(room), old_figures(room));
    let answer = library::take_in(&rules, kind, &body, &mut ours);
    let other = plain::take_in(&rules, kind, &body, &mut theirs);
    assert_eq!((answer, ours), (other, theirs), "take in {rules:?} {kind} {body:?}");
    answers.add(answer);
}

fn compare_peek(random: &mut Random, answers: &mut Answers) {
    let rules = random::rules(random);
    let codes = random::body(random, 1);
    let rule = random.below(9);
    let instant = random.below(codes.len() + 2);
    let (mut ours, mut theirs) = ((77, 78), (77, 78));
    let answer = library::peek(&rules, &codes, rule, instant, &mut ours.0, &mut ours.1);
    let other = plain::peek(&rules, &codes, rule, instant, &mut theirs.0, &mut theirs.1);
    assert_eq!((answer, ours), (other, theirs), "peek {rules:?} {codes:?} {rule} {instant}");
    answers.add(answer);
}

fn compare_report(random: &mut Random, answers: &mut Answers) {
    let mut rules = random::rules(random);
    if random.once_in(100) {
        rules.resize(8190 + random.below(5), b'\n');
    }
    let log = random::log(random);
    let room = if random.once_in(10) { random.below(200) } else { 411_520 };
    let (mut ours, mut theirs) = (vec![7u8; room], vec![7u8; room]);
    let answer = library::report(&rules, &log, &mut ours);
    let other = plain::report(&rules, &log, &mut theirs);
    assert_eq!(answer, other, "report {rules:?} {log:?}");
    assert!(ours == theirs, "report {rules:?} {log:?}");
    answers.add(u32::from(answer > room));
}

/// Compares each call on this many random inputs, and prints how often each answer came.
pub fn compare_all(times: usize) {
    let calls: [(&str, fn(&mut Random, &mut Answers)); 4] = [
        ("rule text", compare_rule_text),
        ("take in", compare_take_in),
        ("peek", compare_peek),
        ("report", compare_report),
    ];
    for (name, call) in calls {
        let mut random = Random::new(7);
        let mut answers = Answers::default();
        for _ in 0..times {
            call(&mut random, &mut answers);
        }
        let counts: Vec<String> = answers.0.iter().map(|(a, n)| format!("{a}: {n}")).collect();
        println!("{name}: {times} random inputs, all the same (answers {})", counts.join(", "));
    }
}
