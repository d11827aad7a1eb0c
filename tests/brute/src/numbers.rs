//! Families in which one clause decides, whatever its number: each disequation of each system, each pair of one of the
//! first and one of the second, each positive clause.

use crate::asking::{Asker, Built};
use crate::draft::{self, leaf_mask, Draft, System, EMPTY, FULL};
use crate::make::shuffle;
use crate::question::{Relation, Term, MOST_DISEQUATIONS, MOST_POSITIVE, MOST_VARIABLES};
use crate::random::Random;
use crate::report::{Family, Report};

pub const FAMILIES: &[Family] = &[
    ("each disequation of the first system", of_the_first),
    ("each disequation of the second system", of_the_second),
    ("each disequation of one for each of the other", of_both),
    ("each positive clause", each_positive),
    ("each sub-leaf of each leaf", each_sub_leaf),
];

/// A question at whose leaf `leaf` two free variables and two own ones are loose: one of either pair is full there, and
/// both are empty elsewhere. All other variables are held.
struct Base {
    draft: Draft,
    /// The disequations that do not decide hold only at the leaf, by the second of the loose pair.
    crowded: bool,
    /// Permission policies are among the clauses.
    policies: bool,
    /// The full one is the first or the second of each pair.
    free: [Term; 2],
    own: [Term; 2],
    leaf: Term,
    empty: Term,
    full: Term,
}

fn base(random: &mut Random) -> Base {
    let height = random.below(6) as u32;
    let leaf = random.below(1 << height);
    let crowded = random.once_in(2);
    Base {
        crowded,
        ..base_at(random, height, leaf)
    }
}

fn base_at(random: &mut Random, height: u32, leaf: usize) -> Base {
    let variables = match random.once_in(12) {
        true => MOST_VARIABLES,
        false => random.between(4, 7),
    };
    let free = random.between(2, variables - 2);
    let mut draft = Draft::new(free, variables - free);
    let leaves = leaf_mask(height, leaf);
    let mut pair = |count: usize| {
        let mut numbers: Vec<usize> = (0..count).collect();
        shuffle(random, &mut numbers);
        [numbers[0], numbers[1]]
    };
    let loose_free = pair(free);
    let loose_own = pair(variables - free).map(|number| free + number);
    draft.pin_others(random, &[loose_free, loose_own].concat());
    let [empty, full, leaf] = [EMPTY, FULL, leaves].map(|leaves| draft.constant(leaves));
    let [a, b] = loose_free.map(Term::Variable);
    let [c, d] = loose_own.map(Term::Variable);
    draft.first.positive.push(Relation::Join(a, b, leaf));
    draft.second.positive.push(Relation::Join(c, d, leaf));
    Base {
        draft,
        crowded: true,
        policies: random.once_in(2),
        free: [a, b],
        own: [c, d],
        leaf,
        empty,
        full,
    }
}

impl Base {
    /// One of these relations that may stand in a positive clause, or in a disequation.
    fn pick(&self, random: &mut Random, negated: bool, relations: &[Relation]) -> Relation {
        let mut fitting = relations.to_vec();
        fitting.retain(|one| one.fits(negated) && (self.policies || !one.is_policy()));
        random.pick(&fitting)
    }

    /// A relation that never holds: as a disequation it always does.
    fn never(&self, random: &mut Random) -> Relation {
        let (empty, full) = (self.empty, self.full);
        let relations = [
            Relation::Equal(empty, full),
            Relation::Join(full, full, full),
            Relation::Join(empty, empty, full),
            Relation::Join(full, empty, empty),
            Relation::Empty(full),
            Relation::Empty(self.leaf),
        ];
        self.pick(random, true, &relations)
    }

    /// A relation that always holds: as a disequation it never does.
    fn always(&self, random: &mut Random, system: System, negated: bool) -> Relation {
        let pair = match system {
            System::First => self.free,
            System::Second => self.own,
        };
        let term = random.pick(&[pair[0], pair[1], self.leaf, self.empty]);
        let relations = [
            Relation::Equal(term, term),
            Relation::Join(term, self.empty, term),
            Relation::Join(self.empty, term, term),
            Relation::Join(pair[0], pair[1], self.leaf),
            Relation::Full(self.full),
            Relation::Empty(self.empty),
            Relation::Together(pair[0], pair[1]),
            Relation::Together(term, self.empty),
        ];
        self.pick(random, negated, &relations)
    }

    /// Disequations of a system that always hold, but for the number that decides.
    fn disequations(
        &mut self,
        random: &mut Random,
        system: System,
        count: usize,
        decides: (usize, Relation),
    ) {
        let second = match system {
            System::First => self.free[1],
            System::Second => self.own[1],
        };
        let other = |random: &mut Random| match self.crowded {
            true => self.empty_is(random, second, true),
            false => self.never(random),
        };
        let others = (0..count).map(|_| other(random)).collect();
        let clauses = self.draft.system(system);
        clauses.disequations = others;
        clauses.disequations[decides.0] = decides.1;
    }

    /// Positive clauses of a system that always hold, up to so many and besides those that stand, but for the number that
    /// decides, if it does not hold.
    fn positive(
        &mut self,
        random: &mut Random,
        system: System,
        count: usize,
        decides: (usize, bool),
    ) {
        let term = match system {
            System::First => self.free[0],
            System::Second => self.own[0],
        };
        let never = [
            Relation::Join(term, term, self.leaf),
            Relation::Full(self.empty),
            Relation::Together(self.leaf, self.full),
        ];
        let one = match decides.1 {
            true => self.always(random, system, false),
            false => self.pick(random, false, &never),
        };
        while self.draft.system(system).positive.len() + 1 < count {
            let relation = self.always(random, system, false);
            self.draft.system(system).positive.push(relation);
        }
        let positive = &mut self.draft.system(system).positive;
        positive.insert(decides.0.min(positive.len()), one);
    }

    /// The relation "this term is empty", for a positive clause or for a disequation.
    fn empty_is(&self, random: &mut Random, term: Term, negated: bool) -> Relation {
        let relations = [
            Relation::Equal(term, self.empty),
            Relation::Equal(self.empty, term),
            Relation::Join(term, self.empty, self.empty),
            Relation::Join(self.empty, term, self.empty),
            Relation::Empty(term),
            Relation::Together(term, self.full),
            Relation::Together(self.full, term),
        ];
        self.pick(random, negated, &relations)
    }
}

/// Number `number` of the first system's disequations is met by one choice at one leaf, or by none. Beside it kind 0, or
/// a second system that holds, or one that the first's solutions do not all meet.
fn of_the_first(report: &mut Report) {
    let mut asker = Asker::new(report);
    for number in 0..MOST_DISEQUATIONS {
        for case in 0..12 {
            let random = &mut asker.random;
            let mut base = base(random);
            let (met, whole, ending) = (case % 2 == 0, case / 2 % 2 == 0, case / 4);
            let count = if whole { MOST_DISEQUATIONS } else { number + 1 };
            let decides = match met {
                true => base.empty_is(random, base.free[0], true),
                false => base.always(random, System::First, true),
            };
            base.disequations(random, System::First, count, (number, decides));
            if ending == 0 {
                base.draft.own = 0;
                base.draft.second = draft::Clauses::default();
            }
            if ending == 2 {
                let unmet = base.empty_is(random, base.free[0], false);
                base.draft.second.positive.push(unmet);
            }
            let question = base.draft.finish(random, ending > 0);
            asker.built(&match (ending, met) {
                (0, _) => draft::satisfiable(question, met),
                (_, false) => draft::entailment(question, 1, 0),
                (1, true) => draft::entailment(question, 0, 0),
                (_, true) => draft::entailment(question, 2, 0),
            });
        }
    }
    asker.seen.kind_0(asker.report, 31);
}

/// Number `number` of the second system's disequations is had by one own choice at one leaf, or by none.
fn of_the_second(report: &mut Report) {
    let mut asker = Asker::new(report);
    for number in 0..MOST_DISEQUATIONS {
        for case in 0..8 {
            let random = &mut asker.random;
            let mut base = base(random);
            let (had, whole) = (case % 2 == 0, case / 2 % 2 == 0);
            let count = if whole { MOST_DISEQUATIONS } else { number + 1 };
            let decides = match had {
                true => base.empty_is(random, base.own[0], true),
                false => base.always(random, System::Second, true),
            };
            base.disequations(random, System::Second, count, (number, decides));
            let question = base.draft.finish(random, true);
            asker.built(&match had {
                true => draft::entailment(question, 0, 0),
                false => draft::entailment(question, 3, number),
            });
        }
    }
}

/// Number `one` of the first and number `other` of the second: where the first's asks for the choice that has the
/// second's, every solution has it. Where it asks for the other choice, some solution lacks it.
fn of_both(report: &mut Report) {
    let mut asker = Asker::new(report);
    for one in 0..MOST_DISEQUATIONS {
        for other in 0..MOST_DISEQUATIONS {
            for had in [true, false] {
                let random = &mut asker.random;
                let mut base = base(random);
                let counts = [one, other].map(|least| random.between(least + 1, MOST_DISEQUATIONS));
                let asked = base.free[usize::from(!had)];
                let (asked, looked_for) = (
                    base.empty_is(random, asked, true),
                    base.empty_is(random, base.free[0], true),
                );
                base.disequations(random, System::First, counts[0], (one, asked));
                base.disequations(random, System::Second, counts[1], (other, looked_for));
                let question = base.draft.finish(random, true);
                asker.built(&match had {
                    true => draft::entailment(question, 0, 0),
                    false => draft::entailment(question, 3, other),
                });
            }
        }
    }
}

/// Positive clause `number` of either system fails for every choice at one leaf or at all, or for none.
fn each_positive(report: &mut Report) {
    let mut asker = Asker::new(report);
    for number in 0..MOST_POSITIVE {
        for count in [number + 1, MOST_POSITIVE] {
            for system in [System::First, System::Second] {
                for holds in [true, false] {
                    let random = &mut asker.random;
                    let mut base = base(random);
                    base.positive(random, system, count, (number, holds));
                    let question = base.draft.finish(random, true);
                    let reason = match (holds, system) {
                        (true, _) => 0,
                        (false, System::First) => 1,
                        (false, System::Second) => 2,
                    };
                    asker.built(&draft::entailment(question, reason, 0));
                }
            }
        }
    }
}

fn each_sub_leaf(report: &mut Report) {
    let mut asker = Asker::new(report);
    for height in 0..=5 {
        for leaf in 0..1 << height {
            for number in 0..MOST_DISEQUATIONS {
                for unmet in [false, true] {
                    let base = base_at(&mut asker.random, height, leaf);
                    let built = one_sub_leaf(&mut asker.random, base, number, unmet);
                    asker.built(&built);
                }
            }
        }
    }
}

/// 31 disequations at one leaf, of which only one asks for the other choice there; alone, and behind a choice that leaves
/// the second system unmet, which takes the first sub-leaf.
fn one_sub_leaf(random: &mut Random, mut base: Base, number: usize, unmet: bool) -> Built {
    let one = base.empty_is(random, base.free[0], true);
    base.disequations(random, System::First, MOST_DISEQUATIONS, (number, one));
    let mut draft = base.draft.clone();
    if unmet {
        let clause = base.empty_is(random, base.free[0], false);
        draft.second.positive.push(clause);
        let question = draft.finish(random, true);
        return draft::entailment(question, 2, 0);
    }
    draft.own = 0;
    draft.second = draft::Clauses::default();
    let question = draft.finish(random, false);
    draft::satisfiable(question, true)
}
