//! Questions and tree texts that several families start from.

use brute::due::{decided, Decided};
use brute::handed::{judged, packed};
use brute::handed_by_hand;
use brute::handed_rows::some_case;
use brute::make::{crowded, entailment, random_question, Counts, Size, CHANGES};
use brute::named::some_among;
use brute::question::write;
use brute::random::Random;
use brute::tree_text::MOST_PAIRS;
use brute::typed::{grown, grown_within, unfolded, BY_HAND};
use brute::{refusals, worked};

/// The questions worked by hand, and those that are refused.
pub fn by_hand() -> Vec<Vec<u8>> {
    let accepted = worked::all().map(|worked| worked::bytes(worked.bytes));
    let refused = refusals::by_hand().into_iter().map(|fault| fault.bytes);
    accepted.chain(refused).collect()
}

const SMALL: Size = Size {
    free: 4,
    own: 2,
    constants: 4,
    height: 3,
    positive: 4,
    disequations: 4,
    policies: true,
};

/// An accepted question of one of four makes.
pub fn accepted(random: &mut Random) -> Vec<u8> {
    let question = match random.below(4) {
        0 => random_question(random, &SMALL),
        1 => {
            let change = random.pick(&CHANGES);
            let counts = Counts {
                positive: random.below(5),
                disequations: random.below(5),
                policies: true,
            };
            entailment(random, (3, 2), (3, 3), (counts, counts), change)
        }
        2 => some_among(random),
        _ => {
            let (entailment, disequations) = (random.once_in(2), random.below(32));
            crowded(random, entailment, disequations)
        }
    };
    write(&question, || random.once_in(2))
}

/// One question for each thing that can be shown or not: a solution of kind 0, none, each reason of kind 1,
/// and a refusal.
pub fn one_of_each() -> Vec<(Vec<u8>, Decided)> {
    let mut kinds = Vec::new();
    let mut found = Vec::new();
    for bytes in by_hand() {
        let decided = decided(&bytes);
        let kind = match &decided {
            Decided::Refused(_) => (false, false, 0),
            Decided::Answered(one) => (
                one.question.entailment,
                one.outcome.yes,
                one.outcome.reason + 1,
            ),
        };
        if !kinds.contains(&kind) {
            kinds.push(kind);
            found.push((bytes, decided));
        }
    }
    found
}

/// A leaf, and texts of 94 bytes: of a tree of height 5, of one of height 31, and of one with a pair that could be folded.
pub fn few_tree_texts(random: &mut Random) -> [Vec<u8>; 4] {
    let [low, tall] = [5, MOST_PAIRS].map(|height| grown(random, height, MOST_PAIRS));
    [b"*".to_vec(), unfolded(random, &low), low, tall]
}

/// The same; those worked by hand, of which some are no tree text; and two of each height, one with a pair that could be folded.
pub fn tree_texts(random: &mut Random) -> Vec<Vec<u8>> {
    let mut texts = few_tree_texts(random).to_vec();
    texts.extend(BY_HAND.iter().map(|(text, _)| text.as_bytes().to_vec()));
    for height in 1..=MOST_PAIRS {
        let text = grown_within(random, height, MOST_PAIRS);
        texts.extend([unfolded(random, &text), text]);
    }
    texts
}

/// Questions and the rows that are handed over for them.
pub type Handed = (Vec<u8>, Vec<u8>);

/// Those worked by hand; each fault of a question worked by hand, with no rows but zeros; and random ones, some of them refused.
pub fn handed(random: &mut Random, count: usize) -> Vec<Handed> {
    let worked = handed_by_hand::all()
        .map(|(_, bytes, texts, _)| (worked::bytes(bytes), handed_by_hand::rows(texts)));
    let refused = refusals::by_hand().into_iter();
    let refused = refused.map(|fault| (fault.bytes, handed_by_hand::rows(&[])));
    let mut handed: Vec<Handed> = worked.chain(refused).collect();
    handed.extend((0..count).map(|_| some_case(random)));
    handed
}

/// One for each thing that judging says: accepted of each kind, broken of each kind, as a disequation and each way, extended, a fault of the question, and a bit where none may be.
pub fn few_handed() -> Vec<Handed> {
    let all = handed(&mut Random::new(0), 0);
    let foreign = all.iter().map(|(bytes, rows)| {
        let without_last = &rows[..rows.len() - 1];
        (bytes.clone(), [without_last, &[0x80]].concat())
    });
    let mut sorts = Vec::new();
    let mut found = Vec::new();
    for (bytes, rows) in all.iter().cloned().chain(foreign) {
        let [said, refusal, _, _, _, way, ..] = packed(judged(&bytes, &rows)).to_le_bytes();
        let sort = match said {
            0 => (0, 0, refusal.max(10)),
            _ => (said, bytes[1], way),
        };
        if !sorts.contains(&sort) {
            sorts.push(sort);
            found.push((bytes, rows));
        }
    }
    assert_eq!(found.len(), 13, "one of each was worked by hand");
    found
}
