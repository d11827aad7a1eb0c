//! Families in which many choices are allowed and one of them decides: one free choice that leaves the second system
//! unmet, or that lacks its disequation, or that meets a disequation of the first; one own choice that has one.

use crate::asking::{Asker, Built};
use crate::draft::{self, Draft, System, EMPTY, FULL};
use crate::make::shuffle;
use crate::question::{Relation, Term, MOST_DISEQUATIONS, MOST_VARIABLES};
use crate::random::Random;
use crate::report::{Family, Report};

pub const FAMILIES: &[Family] = &[
    ("one free choice among many", one_free_choice),
    ("one of three choices", one_of_three),
];

/// Loose free variables, one choice of their values, and an own variable that can be full beside every other choice
/// and beside that one never.
struct Among {
    draft: Draft,
    loose: Vec<usize>,
    choice: Vec<bool>,
    /// Full where it can be: beside every choice but the one.
    differs: Term,
    empty: Term,
    full: Term,
}

/// How many own variables it takes to tell this choice from the others.
fn own_needed(choice: &[bool]) -> usize {
    let complements = choice.iter().filter(|full| **full).count();
    complements + 3 * (choice.len() - 1)
}

fn among(random: &mut Random, own: usize) -> Among {
    let free = MOST_VARIABLES - own;
    let mut draft = Draft::new(free, own);
    let [empty, full] = [EMPTY, FULL].map(|leaves| draft.constant(leaves));
    let choice = loop {
        let count = random.between(1, free.min(4));
        let choice: Vec<bool> = (0..count).map(|_| random.once_in(2)).collect();
        if own_needed(&choice) <= own {
            break choice;
        }
    };
    let mut numbers: Vec<usize> = (0..free).collect();
    shuffle(random, &mut numbers);
    let mut own_numbers: Vec<usize> = (free..MOST_VARIABLES).collect();
    shuffle(random, &mut own_numbers);
    let loose = numbers[..choice.len()].to_vec();
    let used = own_numbers[..own_needed(&choice)].to_vec();
    draft.pin_others(random, &[&loose[..], &used].concat());
    let mut own_terms = used.into_iter().map(Term::Variable);
    let differs = differs(&mut draft, full, (&loose, &choice), &mut own_terms);
    Among {
        draft,
        loose,
        choice,
        differs,
        empty,
        full,
    }
}

/// Puts in what ties the own variables to the loose ones, and gives the one that tells the choices apart. For each loose
/// variable there is a term that is full where it differs from the choice; parts of these terms are joined.
fn differs(
    draft: &mut Draft,
    full: Term,
    (loose, choice): (&[usize], &[bool]),
    own: &mut impl Iterator<Item = Term>,
) -> Term {
    let positive = &mut draft.second.positive;
    let mut next = || own.next().expect("counted before");
    let mut sum = None;
    for (variable, is_full) in loose.iter().zip(choice) {
        let mut term = Term::Variable(*variable);
        if *is_full {
            let complement = next();
            positive.push(Relation::Join(term, complement, full));
            term = complement;
        }
        let Some(sofar) = sum else {
            sum = Some(term);
            continue;
        };
        let (part, rest, joined) = (next(), next(), next());
        positive.push(Relation::Join(part, rest, term));
        positive.push(Relation::Join(sofar, part, joined));
        sum = Some(joined);
    }
    sum.expect("some variable is loose")
}

/// Disequations that always hold, and one among them.
fn disequations(
    random: &mut Random,
    (empty, full): (Term, Term),
    one: Relation,
) -> (usize, Vec<Relation>) {
    let count = random.between(1, MOST_DISEQUATIONS);
    let number = random.below(count);
    let mut all = vec![Relation::Equal(empty, full); count];
    all[number] = one;
    (number, all)
}

/// What is asked of the one choice.
#[derive(Clone, Copy, PartialEq, Eq)]
enum Ask {
    /// Beside it the second's positive clauses cannot be met.
    Unmet,
    /// Beside it a disequation of the second cannot be had.
    Missed,
}

/// What keeps a solution from being that choice everywhere.
#[derive(Clone, Copy, PartialEq, Eq)]
enum Kept {
    /// Nothing.
    Nothing,
    /// A positive clause of the first holds a loose variable to the other value.
    Held,
    /// A disequation of the first asks for another choice at one leaf.
    Asked,
}

fn one_free_choice(report: &mut Report) {
    let mut asker = Asker::new(report);
    for round in 0..asker.report.rounds(40) {
        for own in 0..MOST_VARIABLES {
            let ask = if round % 2 == 0 {
                Ask::Unmet
            } else {
                Ask::Missed
            };
            for kept in [Kept::Nothing, Kept::Held, Kept::Asked] {
                one_choice(&mut asker, own, ask, kept);
            }
        }
    }
    asker.report.same_apart(
        "reasons",
        [0, 2, 3].map(|n| asker.seen.reasons[n] > 200),
        [true; 3],
    );
}

fn one_choice(asker: &mut Asker, own: usize, ask: Ask, kept: Kept) {
    let random = &mut asker.random;
    let mut among = among(random, own);
    let terms = (among.empty, among.full);
    let second = &mut among.draft.second;
    let mut number = 0;
    match ask {
        Ask::Unmet => {
            let full = Relation::Equal(among.differs, among.full);
            let one = random.pick(&[full, Relation::Full(among.differs)]);
            second.positive.push(one);
        }
        Ask::Missed => {
            let empty = Relation::Equal(among.differs, among.empty);
            let one = random.pick(&[empty, Relation::Empty(among.differs)]);
            (number, second.disequations) = disequations(random, terms, one);
        }
    }
    let at = random.below(among.loose.len());
    let (variable, full) = (among.loose[at], among.choice[at]);
    match kept {
        Kept::Nothing => {}
        Kept::Held => among.draft.pin(variable, if full { EMPTY } else { FULL }),
        Kept::Asked => {
            let value = if full { among.full } else { among.empty };
            let one = Relation::Equal(Term::Variable(variable), value);
            (_, among.draft.first.disequations) = disequations(random, terms, one);
        }
    }
    let question = among.draft.finish(random, true);
    let (reason, number) = match (ask, kept) {
        (_, Kept::Held) | (Ask::Missed, Kept::Asked) => (0, 0),
        (Ask::Unmet, _) => (2, 0),
        (Ask::Missed, Kept::Nothing) => (3, number),
    };
    asker.built(&draft::entailment(question, reason, number));
}

/// Three variables a, b, c of one system with a join b is c and nothing else: three choices. A disequation asks for a
/// to be not empty, which one of them meets; or a is held to be empty besides. For the first system also of kind 0.
fn one_of_three(report: &mut Report) {
    let mut asker = Asker::new(report);
    for _ in 0..asker.report.rounds(40) {
        for free in 0..=MOST_VARIABLES {
            for held in [true, false] {
                if free >= 3 {
                    let built = of_three(&mut asker.random, System::First, free, held);
                    asker.built(&built);
                }
                if MOST_VARIABLES - free >= 3 {
                    let built = of_three(&mut asker.random, System::Second, free, held);
                    asker.built(&built);
                }
            }
        }
    }
}

fn of_three(random: &mut Random, system: System, free: usize, held: bool) -> Built {
    let mut draft = Draft::new(free, MOST_VARIABLES - free);
    let [empty, full] = [EMPTY, FULL].map(|leaves| draft.constant(leaves));
    let mut loose: Vec<usize> = match system {
        System::First => (0..free).collect(),
        System::Second => (free..MOST_VARIABLES).collect(),
    };
    shuffle(random, &mut loose);
    let [a, b, c] = [loose[0], loose[1], loose[2]].map(Term::Variable);
    draft.pin_others(random, &loose[..3]);
    let one = random.pick(&[
        Relation::Equal(a, empty),
        Relation::Equal(c, b),
        Relation::Empty(a),
    ]);
    let (number, disequations) = disequations(random, (empty, full), one);
    let clauses = draft.system(system);
    clauses.positive.push(Relation::Join(a, b, c));
    clauses.disequations = disequations;
    if held {
        draft.pin(loose[0], EMPTY);
    }
    if system == System::First && random.once_in(2) {
        draft.own = 0;
        draft.second = draft::Clauses::default();
        return draft::satisfiable(draft.finish(random, false), !held);
    }
    let question = draft.finish(random, true);
    match (held, system) {
        (false, _) => draft::entailment(question, 0, 0),
        (true, System::First) => draft::entailment(question, 1, 0),
        (true, System::Second) => draft::entailment(question, 3, number),
    }
}
