//! Families of questions that define many constants and name few of them: what the others are changes nothing, and the height given is that of the
//! tallest that some clause names.

use crate::asking::Asker;
use crate::draft::renumbered;
use crate::handed_rows::{changed, some};
use crate::judge::ANSWER_BYTES;
use crate::judger::Judger;
use crate::library::{self, ASK_WORK_BYTES};
use crate::make::{random_tree, shuffle};
use crate::question::{hex, operand_count, write_in_order, Clause, Question, Term, MOST_CONSTANTS};
use crate::random::Random;
use crate::report::{Family, Report};
use crate::seen::enough;
use crate::slips::some_question;
use crate::tree::{tree_of_row, Tree, CONSTANT_HEIGHT};

pub const FAMILIES: &[Family] = &[
    ("few of 32 constants named", few_named),
    ("other constants that no clause names", other_constants),
    ("rows beside constants that no clause names", rows_beside),
];

/// The heights up to which the constants that no clause names are: half of the time tall ones among them, else low ones.
pub fn height_of_others(random: &mut Random) -> u32 {
    random.pick(&[CONSTANT_HEIGHT, CONSTANT_HEIGHT, 1, 0])
}

/// A question with the constants of this one among so many, in any order; the others are no taller than `height`, and no clause names them.
pub fn among(random: &mut Random, question: &Question, count: usize, height: u32) -> Question {
    let mut numbers: Vec<usize> = (0..count).collect();
    shuffle(random, &mut numbers);
    let mut constants: Vec<Tree> = (0..count).map(|_| random_tree(random, height)).collect();
    for (constant, number) in question.constants.iter().zip(&numbers) {
        constants[*number] = constant.clone();
    }
    with_constants(question, constants, &numbers)
}

/// The same clauses with other constants: number `numbers[i]` stands for number i.
fn with_constants(question: &Question, constants: Vec<Tree>, numbers: &[usize]) -> Question {
    let renamed = |clause: &Clause| Clause {
        relation: renumbered(clause.relation, numbers),
        ..*clause
    };
    Question {
        constants,
        first: question.first.iter().map(renamed).collect(),
        second: question.second.iter().map(renamed).collect(),
        ..question.clone()
    }
}

/// Any small question with its constants among 32.
pub fn some_among(random: &mut Random) -> Question {
    let question = some_question(random);
    let height = height_of_others(random);
    among(random, &question, MOST_CONSTANTS, height)
}

/// The height h once more, from the bytes of a question: that of the tallest constant whose term stands behind the command of a clause, in one of its places.
pub fn height_by_bytes(bytes: &[u8]) -> u32 {
    let mut heights = Vec::new();
    let mut tallest = 0;
    let mut at = 4;
    while let Some(&command) = bytes.get(at) {
        let count = operand_count(command).expect("a known command");
        let operands = &bytes[at + 1..at + 1 + count];
        if command == 0x03 {
            heights.push(tree_of_row(operands).height());
        } else {
            let constants = operands.iter().filter(|term| **term >= 0x20);
            let named = constants.map(|term| heights[usize::from(term - 0x20)]);
            tallest = named.fold(tallest, u32::max);
        }
        at += 1 + count;
    }
    tallest
}

/// How often the tallest constant was named, and how often it was not.
#[derive(Default)]
pub struct Tallest([usize; 2]);

impl Tallest {
    pub fn note(&mut self, question: &Question) {
        let tallest = question.constants.iter().map(Tree::height).max();
        self.0[usize::from(tallest > Some(question.height()))] += 1;
    }

    pub fn enough(&self, report: &mut Report, least: usize) {
        enough(report, "tallest constants", &self.0, least);
    }
}

fn few_named(report: &mut Report) {
    let mut asker = Asker::new(report);
    let mut tallest = Tallest::default();
    for _ in 0..asker.report.rounds(10_000) {
        let question = some_among(&mut asker.random);
        tallest.note(&question);
        asker.question(&question);
        let by_bytes = height_by_bytes(&write_in_order(&question));
        let what = "the height by the bytes";
        asker.report.same_apart(what, by_bytes, question.height());
    }
    tallest.enough(asker.report, 1_000);
    asker.seen.kind_0(asker.report, 200);
    asker.seen.kind_1(asker.report, 200);
}

/// Which constants some clause names.
fn names(question: &Question) -> Vec<bool> {
    let mut named = vec![false; question.constants.len()];
    for clause in question.first.iter().chain(&question.second) {
        for term in clause.terms() {
            if let Term::Constant(number) = term {
                named[number] = true;
            }
        }
    }
    named
}

/// The same question without the constants that no clause names; what number one of these gets does not matter.
fn without_others(question: &Question) -> Question {
    let named = names(question);
    let mut numbers = Vec::new();
    let mut constants = Vec::new();
    for (constant, named) in question.constants.iter().zip(named) {
        numbers.push(constants.len());
        constants.extend(named.then(|| constant.clone()));
    }
    with_constants(question, constants, &numbers)
}

/// The same question with others in the place of the constants that no clause names.
fn with_others(random: &mut Random, question: &Question, height: u32) -> Question {
    let mut changed = question.clone();
    for (constant, named) in changed.constants.iter_mut().zip(names(question)) {
        if !named {
            *constant = random_tree(random, height);
        }
    }
    changed
}

/// Questions that say the same of the constants that are named: without others, with others in their place, low and tall, and with as many as there is room for.
fn alike(random: &mut Random, question: &Question) -> Vec<Question> {
    let alone = without_others(question);
    let mut alike = vec![among(random, &alone, MOST_CONSTANTS, CONSTANT_HEIGHT)];
    for height in [0, CONSTANT_HEIGHT] {
        alike.push(with_others(random, question, height));
    }
    alike.push(alone);
    alike
}

/// What asking gives: the number, and the bytes of the answer buffer.
fn asked(bytes: &[u8]) -> (u64, Vec<u8>) {
    let mut answer = vec![0xA5; ANSWER_BYTES];
    let number = library::ask(bytes, &mut answer, &mut [0x5A; ASK_WORK_BYTES]);
    (number, answer)
}

fn same_of(report: &mut Report, what: &str, bytes: [&[u8]; 2], same: bool) {
    report.case(match same {
        true => Ok(()),
        false => {
            let [one, other] = bytes.map(hex);
            Err(format!("{what} tells {one} from {other}"))
        }
    });
}

/// The number and the rows are the same for questions that differ only in constants that no clause names, and so is what judging says of rows.
fn other_constants(report: &mut Report) {
    let mut asker = Asker::new(report);
    for _ in 0..asker.report.rounds(3_000) {
        let question = some_among(&mut asker.random);
        let bytes = asker.mixed(&question);
        let lengths = asker.enough();
        asker.bytes(&bytes, lengths);
        let rows = some(&mut asker.random, &question);
        let (given, judged) = (asked(&bytes), library::judge(&bytes, &rows));
        for other in alike(&mut asker.random, &question) {
            let other = asker.mixed(&other);
            let both = [&bytes[..], &other];
            same_of(asker.report, "asking", both, asked(&other) == given);
            let same = library::judge(&other, &rows) == judged;
            same_of(asker.report, "judging", both, same);
        }
    }
    asker.seen.kind_0(asker.report, 100);
    asker.seen.kind_1(asker.report, 100);
}

/// Rows near to a solution, and the same with a change.
fn rows_beside(report: &mut Report) {
    let mut judger = Judger::new(report);
    for _ in 0..judger.report.rounds(4_000) {
        let question = some_among(&mut judger.random);
        let rows = some(&mut judger.random, &question);
        judger.question(&question, &rows);
        let changed = changed(&mut judger.random, &question, &rows);
        judger.question(&question, &changed);
    }
    judger.seen_all(200);
    judger.seen_by_trees(100);
}
