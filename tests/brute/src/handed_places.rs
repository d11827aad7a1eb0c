//! Families of judging in which one clause, one leaf, one bit or one length decides, so that how rows were made tells what is due.

use crate::damage::damaged;
use crate::failing::says;
use crate::handed::Judgement::{self, Accepted, Broken, Extends};
use crate::handed::{Failing, Judged, Way, FOREIGN_BIT, WRONG_LENGTH};
use crate::handed_rows::{any, faulty, some};
use crate::judge::{ANSWER_BYTES, ROW_BYTES};
use crate::judger::Judger;
use crate::library::{self, ASK_WORK_BYTES};
use crate::make::shuffle;
use crate::question::{
    read, Clause, Question, Refusal, Relation, Term, MOST_CONSTANTS, MOST_DISEQUATIONS,
    MOST_POSITIVE, MOST_VARIABLES, SORTS,
};
use crate::random::Random;
use crate::refusals;
use crate::report::{Family, Report};
use crate::seen::enough;
use crate::slips::some_question;
use crate::tree::tree_of_number;
use crate::worked;

pub const FAMILIES: &[Family] = &[
    ("each clause of the first system broken", each_clause),
    ("each leaf of the rows", each_leaf),
    ("each leaf of a constant beside rows", each_constant_leaf),
    ("each choice of 12 variables at one leaf", each_choice),
    ("faults of the question before those of the rows", faults),
    ("lengths of the rows", lengths),
    ("bits of rows of no free variable", foreign_bits),
];

const CLAUSES: usize = MOST_POSITIVE + MOST_DISEQUATIONS;

fn refused(number: u8) -> Judged {
    Err(Refusal { number, place: 0 })
}

/// All clauses over some terms.
fn all_clauses(terms: &[Term]) -> Vec<Clause> {
    let mut clauses = Vec::new();
    for sort in SORTS {
        let count = sort.relation.terms().len() as u32;
        for number in 0..terms.len().pow(count) {
            let mut rest = number;
            let relation = sort.relation.with(|_| {
                let term = terms[rest % terms.len()];
                rest /= terms.len();
                term
            });
            let negated = sort.negated;
            clauses.push(Clause { relation, negated });
        }
    }
    clauses
}

/// Whether a clause holds of leaves that are given as numbers, 32 to each term.
fn holds(clause: &Clause, leaves: impl Fn(Term) -> u32) -> bool {
    let plain = match clause.relation {
        Relation::Join(a, b, c) => {
            let (a, b) = (leaves(a), leaves(b));
            a & b == 0 && a | b == leaves(c)
        }
        Relation::Equal(a, b) => leaves(a) == leaves(b),
        Relation::Full(a) => leaves(a) == u32::MAX,
        Relation::Empty(a) => leaves(a) == 0,
        Relation::Together(a, b) => leaves(a) & leaves(b) == 0,
    };
    plain != clause.negated
}

/// Where a clause fails of which the leaves are given so, if it is positive: at the first of the 32 below one of these.
fn failing(clause: &Clause, leaves: impl Fn(Term) -> u32) -> Option<Failing> {
    let at = |place: usize| says(clause.relation, |term| leaves(term) >> place & 1 == 1);
    let first = (0..32).find_map(|place| {
        let (way, leaf) = (at(place)?, 32 * place);
        Some(Failing { way, leaf })
    });
    first.filter(|_| !clause.negated)
}

/// Puts these values at random places, and tells the places.
fn put(random: &mut Random, all: &mut [u32], values: &[u32]) -> Vec<usize> {
    let mut places: Vec<usize> = (0..all.len()).collect();
    shuffle(random, &mut places);
    places.truncate(values.len());
    for (place, value) in places.iter().zip(values) {
        all[*place] = *value;
    }
    places
}

/// Clauses that hold of some rows and clauses that they break, the positive ones and the disequations.
struct Pools {
    question: Question,
    rows: Vec<u8>,
    held: [Vec<Clause>; 2],
    broken: [Vec<Clause>; 2],
    shares: [u32; MOST_VARIABLES],
    constants: [u32; MOST_CONSTANTS],
}

impl Pools {
    /// The clauses are of four variables, which are any share, the rest of it, a part of it, and full, and of three constants: empty, full and any share. They stand
    /// anywhere among as many as there may be; the others are any shares.
    fn new(random: &mut Random, entailment: bool) -> Pools {
        let mut share = || random.number() as u32;
        let (any, part) = (share(), share());
        let mut shares = [(); MOST_VARIABLES].map(|()| share());
        let mut constants = [(); MOST_CONSTANTS].map(|()| share());
        let variables = put(random, &mut shares, &[any, !any, any & part, u32::MAX]);
        let named = put(random, &mut constants, &[0, u32::MAX, part]);
        let leaves = |term| match term {
            Term::Variable(v) => shares[v],
            Term::Constant(c) => constants[c],
        };
        let variables = variables.into_iter().map(Term::Variable);
        let terms: Vec<Term> = variables
            .chain(named.into_iter().map(Term::Constant))
            .collect();
        let pool = |held: bool, negated: bool| {
            let clauses = all_clauses(&terms).into_iter();
            let wanted = |c: &Clause| c.negated == negated && holds(c, leaves) == held;
            clauses.filter(wanted).collect::<Vec<Clause>>()
        };
        Pools {
            held: [false, true].map(|negated| pool(true, negated)),
            broken: [false, true].map(|negated| pool(false, negated)),
            rows: rows_of_numbers(&shares),
            shares,
            constants,
            question: Question {
                entailment,
                free: shares.len(),
                constants: constants.map(tree_of_number).to_vec(),
                ..Question::default()
            },
        }
    }

    /// Where a positive clause fails.
    fn failing(&self, clause: &Clause) -> Option<Failing> {
        failing(clause, |term| match term {
            Term::Variable(v) => self.shares[v],
            Term::Constant(c) => self.constants[c],
        })
    }

    /// Whether a clause holds of the rows.
    fn has(&self, clause: &Clause) -> bool {
        self.held[usize::from(clause.negated)].contains(clause)
    }

    /// As many clauses as a system may have, in any order. Those before number `lowest` hold, that one is broken, and some behind it are.
    fn system(&self, random: &mut Random, lowest: usize) -> Vec<Clause> {
        let mut signs = [vec![0; MOST_POSITIVE], vec![1; MOST_DISEQUATIONS]].concat();
        shuffle(random, &mut signs);
        let mut clauses = Vec::new();
        for (number, sign) in signs.into_iter().enumerate() {
            let behind = number > lowest && random.once_in(3);
            let pools = match number == lowest || behind {
                true => &self.broken,
                false => &self.held,
            };
            clauses.push(random.pick(&pools[sign]));
        }
        clauses
    }
}

/// The first rows, each with these 32 leaves; the others are zero.
fn rows_of_numbers(shares: &[u32]) -> Vec<u8> {
    let mut rows = vec![0; ANSWER_BYTES];
    for (row, share) in rows.chunks_mut(ROW_BYTES).zip(shares) {
        for (leaf, part) in row.chunks_mut(ROW_BYTES / 32).enumerate() {
            part.fill(if share >> leaf & 1 == 1 { 0xFF } else { 0x00 });
        }
    }
    rows
}

/// As many clauses as there may be, each in turn the lowest that is broken, and none. For an entailment as many of the second stand between
/// them: once the first of these is broken, once none.
fn each_clause(report: &mut Report) {
    let mut judger = Judger::new(report);
    let seconds = [None, Some(0), Some(CLAUSES)];
    for _ in 0..judger.report.rounds(4) {
        for (lowest, second) in (0..=CLAUSES).flat_map(|k| seconds.map(|second| (k, second))) {
            let pools = Pools::new(&mut judger.random, second.is_some());
            let mut question = pools.question.clone();
            question.first = pools.system(&mut judger.random, lowest);
            if let Some(broken) = second {
                question.second = pools.system(&mut judger.random, broken);
            }
            let extends = second.is_some() && question.second.iter().all(|c| pools.has(c));
            let due = match (lowest < CLAUSES, extends) {
                (true, _) => Broken(lowest, pools.failing(&question.first[lowest])),
                (false, true) => Extends,
                (false, false) => Accepted,
            };
            let bytes = judger.mixed(&question);
            judger.known(&bytes, &pools.rows, Ok(due));
        }
    }
    judger.seen_all(4);
    judger.seen_ways(40);
}

/// A question of variable vv, which is one of 11; what fills its row; and what is due once one leaf of that is turned, and without that.
type OneLeaf = (&'static str, u8, Said, Said);

/// What is said, by the leaf.
type Said = fn(usize) -> Judgement;

const ACCEPTED: Said = |_| Accepted;
const EXTENDS: Said = |_| Extends;
/// A disequation is broken.
const BROKEN: Said = |_| Broken(0, None);
/// A positive clause is, and fails at the leaf, one way or the other.
const OVERLAP: Said = |leaf| fails(Way::Overlap, leaf);
const SURPLUS: Said = |leaf| fails(Way::Surplus, leaf);
const SHORTFALL: Said = |leaf| fails(Way::Shortfall, leaf);

fn fails(way: Way, leaf: usize) -> Judgement {
    Broken(0, Some(Failing { way, leaf }))
}

const ONE_LEAF: &[OneLeaf] = &[
    ("01 00 0C 00 | E | 12 vv 20 | 00", 0x00, SURPLUS, ACCEPTED),
    ("01 00 0C 00 | E | 12 20 vv | 00", 0x00, SHORTFALL, ACCEPTED),
    ("01 00 0C 00 | E | 13 vv 20 | 00", 0x00, ACCEPTED, BROKEN),
    ("01 00 0C 00 | F | 12 20 vv | 00", 0xFF, SURPLUS, ACCEPTED),
    ("01 00 0C 00 | F | 12 vv 20 | 00", 0xFF, SHORTFALL, ACCEPTED),
    ("01 00 0C 00 | F | 13 20 vv | 00", 0xFF, ACCEPTED, BROKEN),
    ("01 00 0C 00 | 31 vv | 00", 0x00, ACCEPTED, BROKEN),
    ("01 00 0C 00 | 30 vv | 00", 0xFF, SHORTFALL, ACCEPTED),
    ("01 00 0C 00 | 32 vv vv | 00", 0x00, OVERLAP, ACCEPTED),
    ("01 00 0C 00 | F | 32 20 vv | 00", 0x00, OVERLAP, ACCEPTED),
    ("01 00 0C 00 | 10 vv vv vv | 00", 0x00, OVERLAP, ACCEPTED),
    (
        "01 00 0C 00 | F E | 10 20 vv 20 | 00",
        0x00,
        OVERLAP,
        ACCEPTED,
    ),
    (
        "01 00 0C 00 | F E | 10 vv 20 20 | 00",
        0x00,
        OVERLAP,
        ACCEPTED,
    ),
    (
        "01 00 0C 00 | F E | 10 vv vv 21 | 00",
        0x00,
        OVERLAP,
        ACCEPTED,
    ),
    (
        "01 00 0C 00 | F E | 10 vv 21 21 | 00",
        0x00,
        SURPLUS,
        ACCEPTED,
    ),
    (
        "01 00 0C 00 | F E | 10 21 vv 21 | 00",
        0x00,
        SURPLUS,
        ACCEPTED,
    ),
    (
        "01 00 0C 00 | F E | 10 20 21 vv | 00",
        0xFF,
        SURPLUS,
        ACCEPTED,
    ),
    (
        "01 00 0C 00 | F E | 10 21 vv 20 | 00",
        0xFF,
        SHORTFALL,
        ACCEPTED,
    ),
    (
        "01 00 0C 00 | F E | 10 21 21 vv | 00",
        0x00,
        SHORTFALL,
        ACCEPTED,
    ),
    ("01 00 0C 00 | 11 vv vv vv | 00", 0x00, ACCEPTED, BROKEN),
    ("01 01 0C 00 | E | 22 vv 20 | 00", 0x00, ACCEPTED, EXTENDS),
    ("01 01 0C 00 | E | 23 vv 20 | 00", 0x00, EXTENDS, ACCEPTED),
    ("01 01 0C 00 | F | 22 vv 20 | 00", 0xFF, ACCEPTED, EXTENDS),
    ("01 01 0C 00 | F | 23 vv 20 | 00", 0xFF, EXTENDS, ACCEPTED),
    (
        "01 01 0B 01 | 3A vv 0B | 39 0B | 00",
        0xFF,
        EXTENDS,
        ACCEPTED,
    ),
    (
        "01 01 0B 01 | 3A vv 0B | 38 0B | 00",
        0x00,
        ACCEPTED,
        EXTENDS,
    ),
    (
        "01 01 0B 01 | F | 20 vv 0B 20 | 39 0B | 23 0B 20 | 00",
        0xFF,
        EXTENDS,
        ACCEPTED,
    ),
];

/// Each of the 1,024 leaves alone makes the difference, in the row of some variable; a leaf at an end of a word of 64 in the row of each.
fn each_leaf(report: &mut Report) {
    let mut judger = Judger::new(report);
    for leaf in 0..8 * ROW_BYTES {
        let some = judger.random.below(MOST_VARIABLES - 1);
        let variables = match leaf % 64 {
            0 | 63 => 0..MOST_VARIABLES - 1,
            _ => some..some + 1,
        };
        for variable in variables {
            for one in ONE_LEAF {
                one_leaf(&mut judger, one, variable, leaf);
            }
        }
    }
}

/// Two calls: with the leaf turned and without. For every eighth leaf whole trees are tried too.
fn one_leaf(judger: &mut Judger, one: &OneLeaf, variable: usize, leaf: usize) {
    let (text, filling, turned, unturned) = one;
    let bytes = worked::bytes(&text.replace("vv", &format!("{variable:02X}")));
    let question = read(&bytes).expect("an accepted question");
    let mut rows = any(&mut judger.random, &question, 0);
    let row = variable * ROW_BYTES..(variable + 1) * ROW_BYTES;
    rows[row].fill(*filling);
    judger.known_by_leaf(&bytes, &rows, Ok(unturned(leaf)));
    rows[variable * ROW_BYTES + leaf / 8] ^= 1 << (leaf % 8);
    match leaf % 8 {
        0 => judger.known(&bytes, &rows, Ok(turned(leaf))),
        _ => judger.known_by_leaf(&bytes, &rows, Ok(turned(leaf))),
    }
}

/// Each leaf of a constant, full or empty alone, beside a row that is the constant, or differs from it at an end of the leaf's 32: it is full there where the constant is empty,
/// or empty where that is full.
fn each_constant_leaf(report: &mut Report) {
    let mut judger = Judger::new(report);
    for leaf in 0..32_usize {
        for share in [1 << leaf, !(1_u32 << leaf)] {
            let c: Vec<String> = share.to_le_bytes().map(|b| format!("{b:02X}")).to_vec();
            let with = |kind: &str, clause: &str| {
                worked::bytes(&format!(
                    "01 {kind} 01 00 | 03 {} | {clause} | 00",
                    c.join(" ")
                ))
            };
            let same: [(Vec<u8>, Said, [Said; 2]); 4] = [
                (with("00", "12 00 20"), ACCEPTED, [SURPLUS, SHORTFALL]),
                (with("00", "13 00 20"), BROKEN, [ACCEPTED; 2]),
                (with("01", "22 00 20"), EXTENDS, [ACCEPTED; 2]),
                (with("01", "23 00 20"), ACCEPTED, [EXTENDS; 2]),
            ];
            let rows = rows_of_numbers(&[share]);
            for (bytes, due, due_turned) in same {
                judger.known(&bytes, &rows, Ok(due(leaf)));
                for turned in [32 * leaf, 32 * leaf + 31, (32 * leaf + 1023) % 1024] {
                    let mut rows = rows.clone();
                    rows[turned / 8] ^= 1 << (turned % 8);
                    let due = due_turned[(share >> (turned / 32) & 1) as usize];
                    judger.known(&bytes, &rows, Ok(due(turned)));
                }
            }
        }
    }
}

/// Each of the 4,096 choices of 12 variables, free and own, at one leaf of the constants, and all empty at the others, for each split.
fn each_choice(report: &mut Report) {
    let mut judger = Judger::new(report);
    for choice in 0..1_u32 << MOST_VARIABLES {
        for free in 0..=MOST_VARIABLES {
            let full_at = 1 << judger.random.below(32);
            let shares: Vec<u32> = (0..MOST_VARIABLES)
                .map(|variable| (choice >> variable & 1) * full_at)
                .collect();
            one_choice(&mut judger, free, &shares);
        }
    }
    let given = [judger.given.accepted[1], judger.given.extends];
    enough(judger.report, "judgements", &given, 50_000);
}

/// The rows of the free variables are these shares. They extend if a share with a full leaf must not be empty. They do not with a leaf turned, nor, where no variable is
/// free, if a share that is empty must not be.
fn one_choice(judger: &mut Judger, free: usize, shares: &[u32]) {
    let all = 0..MOST_VARIABLES;
    let (empty, full): (Vec<usize>, Vec<usize>) = all.partition(|v| shares[*v] == 0);
    let mut rows = rows_of_numbers(&shares[..free]);
    if !full.is_empty() {
        let bytes = pinned(judger, free, shares, &full);
        judger.known_by_leaf(&bytes, &rows, Ok(Extends));
    }
    if free > 0 {
        let at = judger.random.below(free * ROW_BYTES);
        rows[at] ^= 1 << judger.random.below(8);
    }
    let wanted = if free > 0 && !full.is_empty() {
        &full
    } else {
        &empty
    };
    if !wanted.is_empty() {
        let bytes = pinned(judger, free, shares, wanted);
        judger.known_by_leaf(&bytes, &rows, Ok(Accepted));
    }
}

/// The second system says of each variable that it is the share given here, so that no other choice will do, and of one of these that it is not empty.
fn pinned(judger: &mut Judger, free: usize, shares: &[u32], of_these: &[usize]) -> Vec<u8> {
    let wanted = Term::Variable(judger.random.pick(of_these));
    let equal = |v| Relation::Equal(Term::Variable(v), Term::Constant(v));
    let clause = |relation, negated| Clause { relation, negated };
    let mut second: Vec<Clause> = (0..MOST_VARIABLES)
        .map(|v| clause(equal(v), false))
        .collect();
    second.push(clause(Relation::Empty(wanted), true));
    shuffle(&mut judger.random, &mut second);
    judger.mixed(&Question {
        entailment: true,
        free,
        own: MOST_VARIABLES - free,
        constants: shares.iter().map(|share| tree_of_number(*share)).collect(),
        first: Vec::new(),
        second,
    })
}

/// The refusal that asking gives of these bytes with buffers that are long enough, as a number.
fn asked(bytes: &[u8]) -> Option<u64> {
    let (mut answer, mut work) = ([0; ANSWER_BYTES], [0; ASK_WORK_BYTES]);
    let number = library::ask(bytes, &mut answer, &mut work);
    (number as u8 == 0).then_some(number)
}

/// Each fault worked by hand, and bytes that are damaged, with rows of every sort: judging gives the number and the place that asking gives.
fn faults(report: &mut Report) {
    let mut judger = Judger::new(report);
    let mut questions: Vec<Vec<u8>> = Vec::new();
    for fault in refusals::by_hand() {
        if let Some(refusal) = fault.refusal {
            for rows in some_rows(&mut judger.random) {
                judger.known(&fault.bytes, &rows, Err(refusal));
            }
        }
        questions.push(fault.bytes);
    }
    for _ in 0..judger.report.rounds(6_000) {
        let question = some_question(&mut judger.random);
        let bytes = judger.mixed(&question);
        questions.push(damaged(&mut judger.random, &bytes));
    }
    for bytes in questions {
        for rows in some_rows(&mut judger.random) {
            judger.bytes(&bytes, &rows);
            if let Some(number) = asked(&bytes) {
                judger.gives(&bytes, &rows, number);
            }
        }
    }
    judger.seen_refusals(&(1..=10).collect::<Vec<usize>>(), 4);
}

/// All zero; a bit in the last row; one byte less, and none.
fn some_rows(random: &mut Random) -> [Vec<u8>; 4] {
    let mut last = vec![0; ANSWER_BYTES];
    last[ANSWER_BYTES - 1 - random.below(ROW_BYTES)] = 1 << random.below(8);
    [
        vec![0; ANSWER_BYTES],
        last,
        random.bytes(ANSWER_BYTES - 1),
        Vec::new(),
    ]
}

/// Rows of another length than 1,536, whatever they hold: 18 comes before 19.
fn lengths(report: &mut Report) {
    let mut judger = Judger::new(report);
    let near = (0..4).chain(ANSWER_BYTES - 8..ANSWER_BYTES + 9);
    let far = [127, 128, 1024, 1408, 1664, 2048, 3072, 4096, 65_536, 67_072];
    let lengths: Vec<usize> = near.chain(far).filter(|n| *n != ANSWER_BYTES).collect();
    for worked in worked::all() {
        let bytes = worked::bytes(worked.bytes);
        for length in &lengths {
            let random = judger.random.bytes(*length);
            for rows in [random, vec![0; *length], vec![0xFF; *length]] {
                judger.known(&bytes, &rows, refused(WRONG_LENGTH));
            }
        }
    }
}

/// One bit set in a row, for every number of free and own variables: 19 if the row is of no free variable.
fn foreign_bits(report: &mut Report) {
    let mut judger = Judger::new(report);
    for free in 0..=MOST_VARIABLES {
        for own in 0..=MOST_VARIABLES - free {
            let bytes = [0x01, 0x01, free as u8, own as u8, 0x00];
            for row in 0..MOST_VARIABLES {
                let leaves = [0, 1023, judger.random.below(1024)];
                for leaf in leaves {
                    one_bit(&mut judger, &bytes, free, 8 * ROW_BYTES * row + leaf);
                }
            }
        }
        // Each byte, with one of its bits.
        let bytes = [0x01, 0x00, free as u8, 0x00, 0x00];
        for byte in 0..ANSWER_BYTES {
            let bit = 8 * byte + judger.random.below(8);
            one_bit(&mut judger, &bytes, free, bit);
        }
    }
    for _ in 0..judger.report.rounds(2_000) {
        let question = some_question(&mut judger.random);
        let bytes = judger.mixed(&question);
        let rows = some(&mut judger.random, &question);
        let rows = faulty(&mut judger.random, &question, &rows);
        let number = match rows.len() == ANSWER_BYTES {
            true => FOREIGN_BIT,
            false => WRONG_LENGTH,
        };
        judger.known(&bytes, &rows, refused(number));
    }
    judger.seen_refusals(&[18, 19], 500);
}

/// A question without a clause, and rows with one bit set.
fn one_bit(judger: &mut Judger, bytes: &[u8], free: usize, bit: usize) {
    let mut rows = vec![0; ANSWER_BYTES];
    rows[bit / 8] = 1 << (bit % 8);
    let due = match (bit / 8 < free * ROW_BYTES, bytes[1]) {
        (false, _) => refused(FOREIGN_BIT),
        (true, 0) => Ok(Accepted),
        (true, _) => Ok(Extends),
    };
    judger.known(bytes, &rows, due);
}
