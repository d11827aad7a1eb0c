//! Families of asking whose questions are made at random, round a hidden solution, or damaged. What is due comes from
//! the reader and route B.

use crate::asking::Asker;
use crate::damage::damaged;
use crate::hidden::largest_built;
use crate::make::{
    crowded, entailment, hidden_question, largest, random_question, Counts, Size, CHANGES,
};
use crate::question::{
    split, write, Question, MOST_CONSTANTS, MOST_DISEQUATIONS, MOST_POSITIVE, MOST_VARIABLES,
};
use crate::random::Random;
use crate::report::{Family, Report};

pub const FAMILIES: &[Family] = &[
    ("random questions", random_questions),
    ("questions built round a hidden solution", hidden_solutions),
    ("entailments with one change", entailments),
    ("many disequations at one leaf", crowded_leaves),
    ("12 variables with few clauses", few_clauses),
    ("12 variables with all clauses", all_clauses),
    ("large entailments", large_entailments),
    ("large questions of kind 0", large_systems),
    ("damaged bytes", damaged_bytes),
    ("questions cut at every place", truncations),
];

const SMALL: Size = Size {
    free: 5,
    own: 3,
    constants: 5,
    height: 3,
    positive: 5,
    disequations: 5,
    policies: true,
};

fn random_questions(report: &mut Report) {
    let mut asker = Asker::new(report);
    for _ in 0..asker.report.rounds(70_000) {
        let question = random_question(&mut asker.random, &SMALL);
        asker.question(&question);
    }
    asker.seen.kind_0(asker.report, 200);
    asker.seen.kind_1(asker.report, 200);
}

fn some_counts(random: &mut Random, positive: usize, disequations: usize) -> Counts {
    Counts {
        positive: random.below(positive + 1),
        disequations: random.below(disequations + 1),
        policies: random.once_in(2),
    }
}

fn hidden_solutions(report: &mut Report) {
    let mut asker = Asker::new(report);
    for round in 0..asker.report.rounds(10_000) {
        let random = &mut asker.random;
        let free = random.between(1, 7);
        let constants = random.between(1, 6);
        let height = random.below(6) as u32;
        let counts = some_counts(random, 10, 31);
        let question = hidden_question(random, free, constants, height, counts);
        asker.question(&question);
        let found = asker.seen.satisfiable;
        asker
            .report
            .same_apart("each has a solution", found, [0, round + 1]);
    }
}

fn entailments(report: &mut Report) {
    let mut asker = Asker::new(report);
    for round in 0..asker.report.rounds(40_000) {
        let random = &mut asker.random;
        let variables = (random.between(1, 5), random.below(4));
        let constants = (random.between(1, 5), random.below(4) as u32);
        let clauses = (some_counts(random, 6, 8), some_counts(random, 6, 8));
        let change = CHANGES[round % CHANGES.len()];
        let question = entailment(random, variables, constants, clauses, change);
        asker.question(&question);
    }
    asker.seen.kind_1(asker.report, 500);
}

/// Many disequations at one leaf, with numbers round the powers of two.
fn crowded_leaves(report: &mut Report) {
    let mut asker = Asker::new(report);
    for round in 0..asker.report.rounds(3_200) {
        let disequations = round % (MOST_DISEQUATIONS + 1);
        let entailment = !asker.random.once_in(3);
        let question = crowded(&mut asker.random, entailment, disequations);
        asker.question(&question);
    }
    asker.seen.kind_0(asker.report, 20);
    asker.seen.kind_1(asker.report, 20);
}

/// Every split of 12 variables with so few clauses that many choices are allowed.
fn few_clauses(report: &mut Report) {
    let mut asker = Asker::new(report);
    for round in 0..asker.report.rounds(400) {
        for own in 0..=MOST_VARIABLES {
            let random = &mut asker.random;
            let free = MOST_VARIABLES - own;
            let constants = (random.between(1, 4), random.below(2) as u32);
            let clauses = (some_counts(random, 5, 4), some_counts(random, 5, 4));
            let change = CHANGES[round % CHANGES.len()];
            let question = entailment(random, (free, own), constants, clauses, change);
            asker.question(&question);
        }
    }
    asker.seen.kind_1(asker.report, 100);
}

/// Every split of 12 variables with as many clauses as the format allows, with permission policies and without. How it was built
/// tells the answer.
fn all_clauses(report: &mut Report) {
    let mut asker = Asker::new(report);
    for round in 0..asker.report.rounds(2) {
        for own in 0..=MOST_VARIABLES {
            for change in CHANGES {
                let policies = round % 2 == 0;
                let built = largest_built(&mut asker.random, own, change, policies);
                asker.built(&built);
                all_stand(asker.report, &built.question);
            }
        }
    }
    asker.seen.kind_1(asker.report, 26);
}

/// A largest question has height 5 and as many clauses as the format allows.
fn all_stand(report: &mut Report, question: &Question) {
    let counts = [&question.first, &question.second].map(|system| {
        let split = split(system);
        (split.positive.len(), split.disequations.len())
    });
    let all = [(MOST_POSITIVE, MOST_DISEQUATIONS); 2];
    report.same_apart("clauses", counts, all);
    report.same_apart("height", question.height(), 5);
}

fn large_entailments(report: &mut Report) {
    let mut asker = Asker::new(report);
    for round in 0..asker.report.rounds(1_000) {
        let random = &mut asker.random;
        let variables = (random.between(4, 8), random.below(5));
        let constants = (random.between(1, MOST_CONSTANTS), 5);
        let clauses = (
            some_counts(random, MOST_POSITIVE, MOST_DISEQUATIONS),
            some_counts(random, MOST_POSITIVE, MOST_DISEQUATIONS),
        );
        let change = CHANGES[round % CHANGES.len()];
        let question = entailment(random, variables, constants, clauses, change);
        asker.question(&question);
    }
    asker.seen.kind_1(asker.report, 5);
}

/// Kind 0 with 8 to 12 variables and nearly all clauses, built round a hidden solution; in every second one a
/// clause is then turned into its negation.
fn large_systems(report: &mut Report) {
    let mut asker = Asker::new(report);
    for round in 0..asker.report.rounds(120) {
        let counts = Counts {
            positive: MOST_POSITIVE - 1,
            disequations: MOST_DISEQUATIONS - 1,
            policies: round % 4 < 2,
        };
        let free = asker.random.between(8, MOST_VARIABLES);
        let mut question = hidden_question(&mut asker.random, free, MOST_CONSTANTS, 5, counts);
        if round % 2 == 1 {
            let clauses = question.first.iter_mut();
            let mut turned: Vec<_> = clauses.filter(|c| c.negation().is_some()).collect();
            let one = asker.random.below(turned.len());
            turned[one].negated ^= true;
        }
        asker.question(&question);
    }
    asker.seen.kind_0(asker.report, 5);
}

fn damaged_bytes(report: &mut Report) {
    let mut asker = Asker::new(report);
    for round in 0..asker.report.rounds(60_000) {
        let random = &mut asker.random;
        let question = random_question(random, &SMALL);
        let whole = write(&question, || random.once_in(2));
        let bytes = if round % 20 == 0 {
            let count = random.below(1500);
            [vec![0x01, 0x01, 0x02, 0x02], random.bytes(count)].concat()
        } else {
            damaged(random, &whole)
        };
        let lengths = if random.once_in(10) {
            (random.between(1530, 1540), random.between(4090, 4100))
        } else {
            asker.enough()
        };
        asker.bytes(&bytes, lengths);
    }
    asker
        .seen
        .refused(asker.report, &[0, 1, 2, 3, 4, 5, 8, 9, 10], 50);
}

/// One question of each size, with permission policies and without, cut at every place.
fn truncations(report: &mut Report) {
    let mut asker = Asker::new(report);
    let sizes = [0, 5, 12].map(|own| [(own, true), (own, false)]);
    for (own, policies) in sizes.concat() {
        let random = &mut asker.random;
        let question = largest(random, own, CHANGES[own % CHANGES.len()], policies);
        let bytes = write(&question, || random.once_in(2));
        for length in 0..bytes.len() {
            let lengths = asker.enough();
            asker.bytes(&bytes[..length], lengths);
        }
    }
    asker.seen.refused(asker.report, &[2], 4000);
}
