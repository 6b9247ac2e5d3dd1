//! Texts of refusals.

use lukhtari::Refusal;
use std::collections::HashSet;

fn text(number: u32, place: u64) -> String {
    Refusal { number, place }.to_string()
}

#[test]
fn every_number_has_its_own_text() {
    let reason = |number| {
        let text = text(number, 0);
        let (head, reason) = text.split_once(": ").expect("number and reason");
        assert_eq!(head, format!("refused {number}"));
        reason.to_string()
    };
    let reasons: HashSet<String> = (1..=31).map(reason).collect();
    assert_eq!(reasons.len(), 31);
}

#[test]
fn places_are_told_where_named() {
    for number in 1..=30 {
        let named = [3, 5, 6, 7, 10, 11, 14, 16, 17, 18, 19, 22, 23, 26, 29].contains(&number);
        assert_eq!(text(number, 70_001).contains("70001"), named, "{number}");
    }
}
