//! decoder FILE: holds questions of the C++ builder to the reader of tests/brute. Each line of the file has the
//! bytes in hexadecimal, a tab, and what the builder was told to put (tests/cpp/programs.cpp writes them). The reader
//! must read just that. The last line is 'N passed, M failed'.

use brute::question::{read, Clause, Question, Relation, Term};
use brute::tree::number_of_tree;

fn bytes_of(hexadecimal: &str) -> Option<Vec<u8>> {
    let byte = |at| u8::from_str_radix(hexadecimal.get(at..at + 2)?, 16).ok();
    (0..hexadecimal.len()).step_by(2).map(byte).collect()
}

/// A variable by its number among those of its sort, a constant by its share.
fn term(question: &Question, term: Term) -> String {
    match term {
        Term::Variable(v) if v < question.free => format!(" f{v}"),
        Term::Variable(v) => format!(" o{}", v - question.free),
        Term::Constant(c) => format!(" {:08X}", number_of_tree(&question.constants[c])),
    }
}

/// What a clause says of its terms, before it is negated.
fn said(relation: Relation) -> &'static str {
    match relation {
        Relation::Join(..) => "join",
        Relation::Equal(..) => "equal",
        Relation::Full(..) => "full",
        Relation::Empty(..) => "empty",
        Relation::Together(..) => "together",
    }
}

fn clauses(question: &Question, system: char, clauses: &[Clause]) -> String {
    let one = |clause: &Clause| {
        let terms = clause.terms().into_iter().map(|t| term(question, t));
        let sign = if clause.negated { '-' } else { '+' };
        format!(" | {system}{sign} {}", said(clause.relation)) + &terms.collect::<String>()
    };
    clauses.iter().map(one).collect()
}

fn meaning(question: &Question) -> String {
    let kind = if question.entailment {
        "entails"
    } else {
        "satisfiable"
    };
    let constant = |tree| format!(" {:08X}", number_of_tree(tree));
    format!("{kind} {} {} |", question.free, question.own)
        + &question.constants.iter().map(constant).collect::<String>()
        + &clauses(question, '1', &question.first)
        + &clauses(question, '2', &question.second)
}

fn is_read_as_put(line: &str) -> bool {
    let Some((bytes, put)) = line.split_once('\t') else {
        return false;
    };
    bytes_of(bytes).is_some_and(|b| read(&b).is_ok_and(|question| meaning(&question) == put))
}

fn main() {
    let name = std::env::args().nth(1).expect("a file");
    let file = std::fs::read_to_string(name).expect("the file can be read");
    let (mut passed, mut failed) = (0, 0);
    for line in file.lines() {
        if is_read_as_put(line) {
            passed += 1;
        } else {
            failed += 1;
            println!("FAILED {line}");
        }
    }
    println!("{passed} passed, {failed} failed");
    if passed == 0 || failed > 0 {
        std::process::exit(1);
    }
}
