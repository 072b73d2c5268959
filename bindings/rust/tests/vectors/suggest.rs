//! Addresses that may have been meant.

use bech32_proved::{hrp, segwit, Edit, Hrp, Refusal};

const ADDRESS: &str = "bc1qw508d6qejxtdg4y5r3zarvary0c5xw7kv8f3t4";
const TAPROOT: &str = "bc1p0xlxvlhemja6c4dqv22uapctqupfhlxm9h8z3k2e72q4k9hcz7vqzk5jj0";

// The same with another character at each of these places.
fn with(right: &str, places: &[usize], other: char) -> String {
    let put = |(place, c)| if places.contains(&place) { other } else { c };
    right.chars().enumerate().map(put).collect()
}

fn words(text: &str, right: &str) -> String {
    let found = segwit::suggest(text, hrp::BC).unwrap();
    assert_eq!(found.len(), 1, "{text}");
    assert_eq!(found[0].as_str(), right);
    found[0].to_string()
}

#[test]
fn suggests_addresses() {
    for right in [ADDRESS, TAPROOT] {
        assert_eq!(words(right, right), "");
        assert_eq!(words(&right.to_uppercase(), &right.to_uppercase()), "");
        for text in [with(right, &[10, 20], 'y'), with(right, &[10, 20, 30], '?')] {
            let found = segwit::suggest(&text, hrp::BC).unwrap();
            assert_eq!(found.len(), 1, "{text}");
            assert_eq!((found[0].as_str(), found[0].edit()), (right, None));
            for change in found[0].changes() {
                assert_eq!(text.chars().nth(change.place), Some(change.from));
                assert_eq!(right.chars().nth(change.place), Some(change.to));
            }
        }
        let missing = format!("{}{}", &right[..20], &right[21..]);
        let found = &segwit::suggest(&missing, hrp::BC).unwrap()[0];
        assert_eq!((found.as_str(), found.changes()), (right, [].as_slice()));
        assert!(matches!(found.edit(), Some(Edit::PutIn { .. })));
        // Another network, and what is no address.
        assert_eq!(segwit::suggest(right, hrp::TB), Ok(vec![]));
    }
    // The text itself may be of any form, here version 1 with 33 bytes, and a guess may not.
    let other = "bc1paek6qccmuwpjh9cyknjdedcyr06lgvh83edqsvtpmaaahwx2cszk7d0t7tv";
    assert_eq!(words(other, other), "");
    assert_eq!(
        segwit::suggest(&other.replace("7tv", "7tw"), hrp::BC),
        Ok(vec![])
    );
    assert_eq!(
        segwit::suggest("a12uel5l", Hrp::parse("a").unwrap()),
        Ok(vec![])
    );
    assert_eq!(
        segwit::suggest(&with(ADDRESS, &[10, 20, 30, 40], '?'), hrp::BC),
        Ok(vec![])
    );
    assert_eq!(
        segwit::suggest("bc1qb", hrp::BC),
        Err(Refusal::InvalidCharacter)
    );
    assert_eq!(segwit::suggest(&"q".repeat(92), hrp::BC), Ok(vec![]));
}
