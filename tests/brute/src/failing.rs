//! Families of how a clause fails. Each clause has terms of its own, and these get their values leaf by leaf, so that it is known beforehand where the clause fails first, and which
//! way.

use crate::handed::Judgement::{self, Broken};
use crate::handed::{Failing, Way};
use crate::judge::{ANSWER_BYTES, ROW_BYTES};
use crate::judger::Judger;
use crate::make::{random_system, shuffle, Counts};
use crate::question::{
    write, Clause, ClauseSort, Question, Relation, Term, MOST_CONSTANTS, MOST_DISEQUATIONS,
    MOST_POSITIVE, MOST_VARIABLES, SORTS,
};
use crate::random::Random;
use crate::report::{Family, Report};
use crate::seen::enough;
use crate::tree::tree_of_number;

pub const FAMILIES: &[Family] = &[
    ("each way at the edges of words", each_way),
    ("each term of a clause that fails", each_term),
    ("several clauses that fail", several),
];

const LEAVES: usize = 8 * ROW_BYTES;
/// So many leaves of the rows stand below one of a constant.
const BELOW: usize = LEAVES / 32;

/// Leaves at the edges of bytes, of a leaf of the constants, of words and of halves.
const EDGES: [usize; 24] = [
    0, 1, 7, 8, 31, 32, 33, 63, 64, 65, 127, 128, 255, 256, 257, 511, 512, 513, 767, 768, 991, 992,
    1022, 1023,
];

/// Which way each relation fails, if it does, where its terms have these values.
pub fn says(relation: Relation, full: impl Fn(Term) -> bool) -> Option<Way> {
    match relation {
        Relation::Join(a, b, c) => match (full(a), full(b), full(c)) {
            (true, true, _) => Some(Way::Overlap),
            (true, false, false) | (false, true, false) => Some(Way::Surplus),
            (false, false, true) => Some(Way::Shortfall),
            _ => None,
        },
        Relation::Equal(a, b) => match (full(a), full(b)) {
            (true, false) => Some(Way::Surplus),
            (false, true) => Some(Way::Shortfall),
            _ => None,
        },
        Relation::Full(a) => (!full(a)).then_some(Way::Shortfall),
        Relation::Empty(a) => full(a).then_some(Way::Surplus),
        Relation::Together(a, b) => (full(a) && full(b)).then_some(Way::Overlap),
    }
}

/// The ways in which each relation can fail.
fn ways(relation: Relation) -> &'static [Way] {
    match relation {
        Relation::Join(..) => &[Way::Overlap, Way::Surplus, Way::Shortfall],
        Relation::Equal(..) => &[Way::Surplus, Way::Shortfall],
        Relation::Full(_) => &[Way::Shortfall],
        Relation::Empty(_) => &[Way::Surplus],
        Relation::Together(..) => &[Way::Overlap],
    }
}

/// The kind, the command of a clause of the first system, and the way in which it fails, if it is positive.
type Lowest = (bool, u8, Option<Way>);

/// All that there are.
fn all_lowest() -> Vec<Lowest> {
    let mut all = Vec::new();
    for entailment in [false, true] {
        for sort in SORTS {
            let command = sort.commands[0];
            match sort.negated {
                true => all.push((entailment, command, None)),
                false => all.extend(
                    ways(sort.relation)
                        .iter()
                        .map(|way| (entailment, command, Some(*way))),
                ),
            }
        }
    }
    all
}

fn is_constant(term: Term) -> bool {
    matches!(term, Term::Constant(_))
}

/// What a relation is to do at a leaf.
#[derive(Clone, Copy, PartialEq)]
enum AtLeaf {
    Holds,
    Fails(Way),
    Anything,
}

impl AtLeaf {
    /// Up to the leaf where it first fails, if it does, a relation holds, and behind that leaf it does anything.
    fn of(leaf: usize, first: Option<Failing>) -> AtLeaf {
        match first {
            Some(at) if at.leaf == leaf => AtLeaf::Fails(at.way),
            Some(at) if at.leaf < leaf => AtLeaf::Anything,
            _ => AtLeaf::Holds,
        }
    }

    fn is(self, said: Option<Way>) -> bool {
        match self {
            AtLeaf::Holds => said.is_none(),
            AtLeaf::Fails(way) => said == Some(way),
            AtLeaf::Anything => true,
        }
    }
}

/// A question that grows clause by clause, and its rows. Terms that no clause has yet are taken in any order.
pub struct Growing {
    pub question: Question,
    pub rows: Vec<u8>,
    constants: Vec<u32>,
    /// Of variables and of constants.
    unused: [Vec<Term>; 2],
    /// Of each clause, where its relation fails first.
    first: Vec<Option<Failing>>,
}

impl Growing {
    /// There are at least so many variables, and as many constants, now and then all that there may be; what no clause names is anything.
    pub fn new(random: &mut Random, entailment: bool, least: usize) -> Growing {
        let more = if random.once_in(8) { MOST_CONSTANTS } else { 3 };
        let mut count = |most: usize| random.between(least, most.min(least + more));
        let counts = (count(MOST_VARIABLES), count(MOST_CONSTANTS));
        Growing::of(random, entailment, counts)
    }

    /// The same of so many variables and constants.
    fn of(random: &mut Random, entailment: bool, (free, count): (usize, usize)) -> Growing {
        let mut rows = random.bytes(free * ROW_BYTES);
        rows.resize(ANSWER_BYTES, 0);
        let mut unused = [
            (0..free).map(Term::Variable).collect::<Vec<Term>>(),
            (0..count).map(Term::Constant).collect(),
        ];
        for terms in &mut unused {
            shuffle(random, terms);
        }
        Growing {
            question: Question {
                entailment,
                free,
                own: match entailment {
                    true => random.below((MOST_VARIABLES - free).min(3) + 1),
                    false => 0,
                },
                ..Question::default()
            },
            rows,
            constants: (0..count).map(|_| random.number() as u32).collect(),
            unused,
            first: Vec::new(),
        }
    }

    /// The next clause has this term in this place, if a variable, or a constant, is to stand there.
    fn put_next(&mut self, term: Term, place: usize) {
        let unused = &mut self.unused[usize::from(is_constant(term))];
        let at = unused.iter().position(|other| *other == term);
        let last = unused.len() - 1;
        unused.swap(at.expect("it is not used yet"), last - place);
    }

    /// One more clause: of this sort, its terms variables, or constants where a digit of the number is 1, all different or the first two the same. Its relation fails there first,
    /// or nowhere. False, and nothing is changed, if no values do that.
    pub fn clause(
        &mut self,
        random: &mut Random,
        sort: &ClauseSort,
        (constants, same): (usize, bool),
        first: Option<Failing>,
    ) -> bool {
        let mut rest = constants;
        let mut terms = Vec::new();
        let relation = sort.relation.with(|_| {
            let unused = &self.unused[rest % 2];
            rest /= 2;
            let term = match (same, terms.len()) {
                (true, 1) => terms[0],
                (_, place) => unused[unused.len() - 1 - place],
            };
            terms.push(term);
            term
        });
        if !self.put(random, relation, first) {
            return false;
        }
        for unused in &mut self.unused {
            unused.retain(|term| !terms.contains(term));
        }
        let negated = sort.negated;
        self.question.first.push(Clause { relation, negated });
        self.first.push(first);
        true
    }

    /// The first clauses, up to 87, all of which hold: two variables differ at some leaf, once and more, and one equals itself.
    fn held(&mut self, random: &mut Random) {
        let (way, leaf) = (Way::Surplus, random.below(LEAVES));
        let alike = Clause {
            relation: Relation::Equal(Term::Variable(0), Term::Variable(0)),
            negated: false,
        };
        let differ = alike.relation.sort(true).expect("a disequation");
        self.clause(random, differ, (0, false), Some(Failing { way, leaf }));
        let unlike = self.question.first[0];
        let unlike = vec![unlike; random.below(MOST_DISEQUATIONS - 4)];
        let alike = vec![alike; random.below(MOST_POSITIVE - 3)];
        let mut clauses = [unlike, alike].concat();
        shuffle(random, &mut clauses);
        for clause in clauses {
            let first = self.first[0].filter(|_| clause.negated);
            self.first.push(first);
            self.question.first.push(clause);
        }
    }

    /// Gives the terms of a relation their values, if there are such: below each leaf of the constants these are the same.
    fn put(&mut self, random: &mut Random, relation: Relation, first: Option<Failing>) -> bool {
        let values = Values::new(relation);
        let mut found = Vec::new();
        for block in 0..LEAVES / BELOW {
            let wanted: Vec<AtLeaf> = (0..BELOW)
                .map(|leaf| AtLeaf::of(BELOW * block + leaf, first))
                .collect();
            let able = values.of_constants(&wanted);
            if able.is_empty() {
                return false;
            }
            let constants = random.pick(&able);
            let some = |at: &AtLeaf| values.some(random, *at, constants);
            found.extend(wanted.iter().map(some));
        }
        for (leaf, values_here) in found.into_iter().enumerate() {
            for (place, term) in values.terms.iter().enumerate() {
                self.set(*term, leaf, values_here >> place & 1 == 1);
            }
        }
        true
    }

    fn set(&mut self, term: Term, leaf: usize, full: bool) {
        match term {
            Term::Variable(v) => {
                let byte = &mut self.rows[v * ROW_BYTES + leaf / 8];
                *byte = *byte & !(1 << (leaf % 8)) | u8::from(full) << (leaf % 8);
            }
            Term::Constant(c) => {
                let place = leaf / BELOW;
                let constant = &mut self.constants[c];
                *constant = *constant & !(1 << place) | u32::from(full) << place;
            }
        }
    }

    /// The lowest clause that is broken, with where it fails if it is positive.
    pub fn due(&self) -> Option<Judgement> {
        let clauses = self.question.first.iter().zip(&self.first).enumerate();
        let mut broken = clauses.filter(|(_, (clause, first))| clause.negated == first.is_none());
        let (number, (_, first)) = broken.next()?;
        Some(Broken(number, *first))
    }

    /// The kind, and of the lowest clause that is broken the command and the way in which it fails, if it is positive.
    fn sort_of_lowest(&self) -> Option<Lowest> {
        let Some(Broken(number, failing)) = self.due() else {
            return None;
        };
        let Clause { relation, negated } = self.question.first[number];
        let sort = relation.sort(negated)?;
        let way = failing.map(|at| at.way);
        Some((self.question.entailment, sort.commands[0], way))
    }

    /// Whether a positive clause behind the lowest that is broken, which is positive too, fails further left.
    fn fails_further_left(&self) -> bool {
        let Some(Broken(number, Some(lowest))) = self.due() else {
            return false;
        };
        let behind = self.question.first.iter().zip(&self.first).skip(number + 1);
        behind
            .filter(|(clause, _)| !clause.negated)
            .any(|(_, first)| first.is_some_and(|at| at.leaf < lowest.leaf))
    }

    /// The bytes of the question. For an entailment some clauses of the second system stand between the others.
    pub fn bytes(&mut self, random: &mut Random) -> Vec<u8> {
        self.question.constants = self.constants.iter().copied().map(tree_of_number).collect();
        let (variables, constants) = (self.question.variables(), self.constants.len());
        if self.question.entailment {
            let counts = Counts {
                positive: random.below(4),
                disequations: random.below(3),
                policies: true,
            };
            self.question.second = random_system(random, variables, constants, counts);
        }
        write(&self.question, || random.once_in(2))
    }
}

/// The different terms of a relation. Values of theirs are a number, with a digit for each.
struct Values {
    terms: Vec<Term>,
    said: Vec<Option<Way>>,
    constants: usize,
}

impl Values {
    fn new(relation: Relation) -> Values {
        let mut terms = relation.terms();
        terms.dedup();
        let place = |term| terms.iter().position(|other| *other == term);
        let digit = |values: usize, term| values >> place(term).expect("a term of it") & 1 == 1;
        let said = |values| says(relation, |term| digit(values, term));
        let constants = (0..terms.len()).filter(|place| is_constant(terms[*place]));
        Values {
            said: (0..1 << terms.len()).map(said).collect(),
            constants: constants.map(|place| 1 << place).sum(),
            terms,
        }
    }

    /// All values that do at a leaf what is wanted there, with the constants having these.
    fn fitting(&self, at: AtLeaf, constants: usize) -> impl Iterator<Item = usize> + '_ {
        let fits =
            move |values: &usize| values & self.constants == constants && at.is(self.said[*values]);
        (0..self.said.len()).filter(fits)
    }

    /// Some of these.
    fn some(&self, random: &mut Random, at: AtLeaf, constants: usize) -> usize {
        let count = self.fitting(at, constants).count();
        let mut fitting = self.fitting(at, constants);
        fitting.nth(random.below(count)).expect("one of them")
    }

    /// The values of the constants with which all that is wanted can be.
    fn of_constants(&self, wanted: &[AtLeaf]) -> Vec<usize> {
        let mut different = wanted.to_vec();
        different.dedup();
        let able = |constants: &usize| {
            let mut different = different.iter();
            constants & !self.constants == 0
                && different.all(|at| self.fitting(*at, *constants).next().is_some())
        };
        (0..self.said.len()).filter(able).collect()
    }
}

/// Each sort of positive clause fails each way that it can, first at each of these leaves and at some others, with each term a variable or a constant, for both kinds.
fn each_way(report: &mut Report) {
    let mut judger = Judger::new(report);
    for _ in 0..judger.report.rounds(1) {
        let some = [(); 4].map(|()| judger.random.below(LEAVES));
        for leaf in EDGES.into_iter().chain(some) {
            for sort in SORTS.iter().filter(|sort| !sort.negated) {
                for way in ways(sort.relation) {
                    each_pattern(&mut judger, sort, Failing { way: *way, leaf });
                }
            }
        }
    }
    judger.seen_ways_of_positive(100);
}

/// With each term a variable or a constant, for both kinds.
fn each_pattern(judger: &mut Judger, sort: &ClauseSort, at: Failing) {
    let count = sort.relation.terms().len();
    for number in 0..2 << count {
        let (constants, entailment) = (number / 2, number % 2 == 1);
        let mut growing = Growing::new(&mut judger.random, entailment, 3);
        one_clause(judger, &mut growing, sort, constants, at);
    }
}

/// One clause fails so first. Where constants alone decide, it fails at the first of the 32 leaves below one of theirs.
fn one_clause(
    judger: &mut Judger,
    growing: &mut Growing,
    sort: &ClauseSort,
    constants: usize,
    at: Failing,
) {
    let count = sort.relation.terms().len();
    let overlap = at.way == Way::Overlap && constants & 3 == 3;
    let leaf = match overlap || constants + 1 == 1 << count {
        true => at.leaf / BELOW * BELOW,
        false => at.leaf,
    };
    let at = Failing { leaf, ..at };
    let random = &mut judger.random;
    let made = growing.clause(random, sort, (constants, false), Some(at));
    let bytes = growing.bytes(random);
    judger.report.same_apart("it can fail so", made, true);
    judger.known(&bytes, &growing.rows, Ok(Broken(0, Some(at))));
}

/// Each variable and each constant in each place of each sort of positive clause, which fails each way that it can, at any leaf. The other terms are variables.
fn each_term(report: &mut Report) {
    let mut judger = Judger::new(report);
    let variables = (0..MOST_VARIABLES).map(Term::Variable);
    let terms: Vec<Term> = variables
        .chain((0..MOST_CONSTANTS).map(Term::Constant))
        .collect();
    for sort in SORTS.iter().filter(|sort| !sort.negated) {
        for way in ways(sort.relation) {
            for place in 0..sort.relation.terms().len() {
                for term in &terms {
                    let random = &mut judger.random;
                    let (entailment, leaf) = (random.once_in(2), random.below(LEAVES));
                    let counts = (MOST_VARIABLES, MOST_CONSTANTS);
                    let mut growing = Growing::of(random, entailment, counts);
                    growing.put_next(*term, place);
                    let constants = usize::from(is_constant(*term)) << place;
                    let at = Failing { way: *way, leaf };
                    one_clause(&mut judger, &mut growing, sort, constants, at);
                    let there = growing.question.first[0].terms()[place];
                    judger.report.same_apart("the term", there, *term);
                }
            }
        }
    }
    judger.seen_ways_of_positive(100);
}

/// Up to four clauses of any sort, of which some fail at any leaf, or are disequations that hold nowhere; one is broken at least. Now and then many that hold stand before them.
pub fn some_failing(random: &mut Random) -> Growing {
    loop {
        let entailment = random.once_in(2);
        let many = random.once_in(4);
        let count = random.between(1, if many { 3 } else { 4 });
        let mut growing = Growing::new(random, entailment, 3 * (count + usize::from(many)));
        if many {
            growing.held(random);
        }
        for _ in 0..count {
            let sort = &SORTS[random.below(SORTS.len())];
            let leaf = match random.once_in(3) {
                true => random.pick(&EDGES),
                false => random.below(LEAVES),
            };
            let way = random.pick(ways(sort.relation));
            let first = (!random.once_in(3)).then_some(Failing { way, leaf });
            let pattern = (random.pick(&[0, 0, 1, 2, 4, 3, 5, 6]), random.once_in(6));
            growing.clause(random, sort, pattern, first);
        }
        if growing.due().is_some() {
            return growing;
        }
    }
}

/// The lowest broken clause counts, often with one behind it that fails further left. It is of each sort, fails each way that it can, and is of both kinds.
fn several(report: &mut Report) {
    let mut judger = Judger::new(report);
    let (mut further_left, mut high) = (0, [0; 2]);
    let mut lowest = Vec::new();
    for round in 0..judger.report.rounds(3_000) {
        let mut growing = some_failing(&mut judger.random);
        let due = growing.due().expect("a clause is broken");
        further_left += usize::from(growing.fails_further_left());
        lowest.extend(growing.sort_of_lowest());
        if let Broken(number @ 32.., Some(Failing { leaf, .. })) = due {
            high[number / 64] += usize::from(leaf % BELOW != 0);
        }
        let bytes = growing.bytes(&mut judger.random);
        match round % 4 {
            0 => judger.known(&bytes, &growing.rows, Ok(due)),
            _ => judger.known_by_leaf(&bytes, &growing.rows, Ok(due)),
        }
    }
    enough(
        judger.report,
        "a later one further left",
        &[further_left],
        200,
    );
    enough(judger.report, "high numbers", &high, 20);
    let count = |one: Lowest| lowest.iter().filter(|other| **other == one).count();
    let counts: Vec<usize> = all_lowest().into_iter().map(count).collect();
    enough(judger.report, "sorts, ways and kinds", &counts, 30);
    judger.seen_ways(200);
}
