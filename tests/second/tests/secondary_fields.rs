//! FIELD where a row has a rated primary or secondary [02 §1], by hand.

use second::answer::{Answer, FIELD};
use second::current::{Fraction, Primary, Ratio, Secondary};
use second::fast;
use second::generate::{list_keyed, text, with_ratio, Keyed, Shape, RATIO_CASES};
use second::row::{field::*, Row, CARD_NUMBERS, FIELDS};
use second::text::printed;
use second::whole::whole;

/// An accepted list of three rows in a chain.
fn list() -> Vec<u64> {
    let made = (0..).map(|seed| list_keyed(Shape::Chain, 3, Keyed::Primary, seed));
    made.into_iter().find(|list| answer(list) == Answer::DONE).expect("about half are")
}

/// By both whole calculations.
fn answer(list: &[u64]) -> Answer {
    let given = whole(list, &mut [0; 3 * CARD_NUMBERS]);
    assert_eq!(given, fast::whole(list, &mut [0; 3 * CARD_NUMBERS]));
    given
}

#[test]
fn field_named_in_each_row() {
    for case in &RATIO_CASES {
        for place in 1..=3 {
            let given = answer(&with_ratio(&list(), place, case));
            match case.named {
                Some(field) => {
                    assert_eq!(given, Answer::field(place, field as u64), "{:?}", case.changes);
                }
                None => assert_ne!(given.number, FIELD, "{:?}", case.changes),
            }
        }
    }
}

/// The row's last test comes before the next row's first, and after the last of the
/// row before.
#[test]
fn fields_of_other_rows() {
    for case in RATIO_CASES.iter().filter(|case| case.named.is_some()) {
        let mut list = with_ratio(&list(), 2, case);
        list[2 * FIELDS] = 0;
        assert_eq!(answer(&list), Answer::field(2, case.named.unwrap() as u64));
        list[RATED_SECONDARY - 1] = 5;
        assert_eq!(answer(&list), Answer::field(1, 20));
    }
}

#[test]
fn fields_named_in_print() {
    for case in RATIO_CASES
        .iter()
        .filter(|case| case.changes.iter().all(|&(_, value)| value < 1_000_000_000))
    {
        let given = printed(&text(&with_ratio(&list(), 2, case), 1)).answer;
        let named = case.named.map(|field| Answer::field(2, field as u64));
        assert!(named.is_none_or(|named| named == given), "{:?}", case.changes);
    }
}

/// The ratio 7/5: so many fifths of a mA for each secondary mA.
#[test]
fn currents_on_both_sides() {
    let ratio = Ratio { primary: 7, secondary: 5 };
    let fifths = |number: u64| Primary(Fraction::from(number).over(5));
    for (secondary, primary) in [(1, 7), (5, 35), (11, 77), (500_000, 3_500_000)] {
        assert_eq!(ratio.primary(Secondary(secondary)), fifths(primary));
        assert_eq!(ratio.secondary(fifths(primary)), Secondary(secondary));
        assert_eq!(ratio.secondary(fifths(primary - 1)), Secondary(secondary));
        assert_eq!(ratio.secondary(fifths(primary + 1)), Secondary(secondary + 1));
    }
    let Primary(current) = ratio.primary(Secondary(11));
    assert_eq!((current.is_whole(), current.down(), current.up()), (false, 15, 16));
    let row = Row::read(&[1; FIELDS]);
    assert_eq!(Row { rated_primary: 0, rated_secondary: 0, ..row }.primary(11), fifths(55));
}
