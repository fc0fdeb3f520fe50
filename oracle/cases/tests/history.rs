//! Histories: calls of every sort are answered as they should be, and the row
//! that the Rust is left with is the builder's row of the last accepted values.

use cases::column::{ColumnType, RustColumns};
use cases::generate::history::{Sort, call, history};
use cases::generate::list::Sort as ListSort;
use cases::generate::schema::any_types;
use cases::history::{Answer, Call, replay};
use cases::layout::Layout;
use cases::rng::Rng;
use cases::row::{is_sound, zero_null_slots};
use cases::rust::{self, Outcome};
use rookdb::types::value::DataValue;
use std::collections::{BTreeMap, BTreeSet};

/// Whether a call of this sort, the first of a history, may have this answer.
fn allowed(sort: Sort, answer: Answer) -> bool {
    let allowed: &[Answer] = match sort {
        Sort::SetNull => &[Answer::Accepted],
        Sort::Column => &[Answer::Internal],
        Sort::AtLimit => &[Answer::Accepted],
        Sort::Above => &[Answer::Added(13)],
        Sort::Set(ListSort::Values) => &[Answer::Accepted, Answer::Added(13)],
        Sort::Set(ListSort::TextAtLimit) => {
            &[Answer::Accepted, Answer::Added(11), Answer::Added(13)]
        }
        Sort::Set(ListSort::Nulls) => &[Answer::Added(11)],
        Sort::Set(ListSort::OtherKind) => &[Answer::Internal],
        Sort::Set(ListSort::Unsuitable) => &[Answer::TypeMismatch, Answer::Added(12)],
        Sort::Set(ListSort::Outside) => &[Answer::Added(12)],
        Sort::Set(ListSort::Random) => return true,
        Sort::Set(_) => &[Answer::Added(10)],
    };
    allowed.contains(&answer)
}

#[test]
fn calls_are_answered_as_made() {
    let mut rng = Rng::new(1);
    let mut seen = BTreeSet::new();
    for _ in 0..2000 {
        let types = any_types(&mut rng);
        let columns = RustColumns::of(&types).unwrap();
        for sort in Sort::ALL {
            if let Some(call) = call(&mut rng, &types, sort) {
                let answer = replay(&columns, &[call]).answers[0];
                assert!(allowed(sort, answer), "{sort:?} {answer:?} {types:?}");
                seen.insert((sort, answer));
            }
        }
    }
    for sort in Sort::ALL {
        assert!(seen.iter().any(|(seen, _)| *seen == sort), "{sort:?}");
        for answer in ANSWERS {
            // 13 for a value of common length needs a row near its limit.
            let rare = answer == Answer::Added(13) && sort != Sort::Above;
            let missing = allowed(sort, answer) && !seen.contains(&(sort, answer));
            let random = sort == Sort::Set(ListSort::Random);
            assert!(!missing || rare || random, "{sort:?} {answer:?}");
        }
    }
}

const ANSWERS: [Answer; 7] = [
    Answer::Accepted,
    Answer::Internal,
    Answer::TypeMismatch,
    Answer::Added(10),
    Answer::Added(11),
    Answer::Added(12),
    Answer::Added(13),
];

#[test]
fn histories_leave_the_builders_row() {
    let mut rng = Rng::new(2);
    let mut answers: BTreeMap<Answer, usize> = BTreeMap::new();
    let mut zeroed = 0;
    let mut longest = 0;
    for length in (0..=40).cycle().take(2000).chain([300, 500]) {
        let types = any_types(&mut rng);
        let calls = history(&mut rng, &types, length);
        assert_eq!(calls.len(), length);
        let columns = RustColumns::of(&types).unwrap();
        let left = replay(&columns, &calls);
        assert!(is_sound(&columns, &left.row));
        for answer in &left.answers {
            *answers.entry(*answer).or_default() += 1;
        }
        let mut row = left.row.clone();
        zero_null_slots(&types, &mut row);
        zeroed += usize::from(row != left.row);
        longest = longest.max(row.len());
        assert_eq!(row.len(), length_by_sheet(&types, &left.sheet));
        assert_eq!(rust::build(&columns.rust, &left.sheet), Outcome::Ok(row));
    }
    for answer in ANSWERS {
        assert!(answers[&answer] > 20, "{answers:?}");
    }
    assert!(zeroed > 20 && longest > 60_000, "{zeroed} {longest}");
}

/// The layout's minimum and the payloads of the Varchars that are not null.
fn length_by_sheet(types: &[ColumnType], sheet: &[Option<DataValue>]) -> usize {
    let payload = |value: &DataValue| match value {
        DataValue::Varchar(text) => text.len(),
        _ => 0,
    };
    Layout::packed(types).minimum + sheet.iter().flatten().map(payload).sum::<usize>()
}

#[test]
fn refused_calls_change_nothing() {
    let mut rng = Rng::new(3);
    let mut refused = 0;
    for _ in 0..100 {
        let types = any_types(&mut rng);
        let calls = history(&mut rng, &types, 30);
        let columns = RustColumns::of(&types).unwrap();
        let left = replay(&columns, &calls);
        let accepted: Vec<Call> = calls
            .into_iter()
            .zip(&left.answers)
            .filter(|(_, answer)| **answer == Answer::Accepted)
            .map(|(call, _)| call)
            .collect();
        refused += left.answers.len() - accepted.len();
        let again = replay(&columns, &accepted);
        assert_eq!((again.row, again.sheet), (left.row, left.sheet));
    }
    assert!(refused > 500, "{refused}");
}
