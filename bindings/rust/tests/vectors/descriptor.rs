//! Output descriptors (BIP-380).

use bech32_proved::descriptor::{check, checksum, mend, mend_two, Error, Mistake};
use bech32_proved::Refusal;

const RIGHT: &str = "raw(deadbeef)#89f8spxm";
const LONG: &str =
    "wpkh(02f9308a019258c31049344f85f89d5229b531c845836f99b08601f113bce036f9)#8zl0zxma";

#[test]
fn computes_and_tests_checksums() {
    for text in [RIGHT, LONG] {
        let (before, sum) = text.rsplit_once('#').unwrap();
        assert_eq!(checksum(before).as_deref(), Ok(sum));
        assert_eq!(check(text), Ok(before));
    }
    let every: String = (32..127).map(char::from).collect();
    let text = format!("{every}#{}", checksum(&every).unwrap());
    assert_eq!(check(&text), Ok(every.as_str()));
}

#[test]
fn refuses_other_texts() {
    for (text, place) in [
        ("raw(dead\u{1f}beef)", 8),
        ("raw(d\u{e9}adbeef)", 5),
        ("\u{1f600}", 0),
    ] {
        assert_eq!(checksum(text), Err(Error::Character(place)));
        assert_eq!(
            check(&format!("{text}#89f8spxm")),
            Err(Error::Character(place))
        );
    }
    for (text, error, number) in [
        ("", Error::NoChecksum, 88),
        ("raw(deadbeef)", Error::NoChecksum, 88),
        ("raw(deadbeef)#89f8spx", Error::NoChecksum, 88),
        ("raw(deadbeef)#89f8spxmm", Error::NoChecksum, 88),
        ("raw(deadbeef)#89f8spxb", Error::Character(21), 80),
        ("raw(deadbeef)#89f8spxM", Error::Character(21), 80),
        ("raw(deedbeef)#89f8spxm", Error::WrongChecksum, 33),
    ] {
        assert_eq!(check(text), Err(error), "{text}");
        assert_eq!(Refusal::from(error).number(), number);
    }
    assert_eq!(mend(&"x".repeat(7501), 1).unwrap_err(), Error::TooLong);
    assert_eq!(mend(RIGHT, 2).unwrap_err(), Error::Changed);
    // What is wrong with the number comes first.
    assert_eq!(mend(&"x".repeat(7501), 2).unwrap_err(), Error::Changed);
    let said = check("raw(deadbeef)#89f8spxb").unwrap_err().to_string();
    let words = "a character may not stand in a descriptor, or not in its checksum: character 22";
    assert_eq!(said, words);
}

// That one text is listed, and how it is made.
fn alone(text: &str, right: &str, mistake: Mistake, words: &str) {
    let found = mend(text, 1).unwrap();
    let found: Vec<_> = found.iter().filter(|it| it.as_str() == right).collect();
    assert_eq!(found.len(), 1, "{text}");
    assert_eq!(
        (found[0].mistake(), found[0].to_string().as_str()),
        (mistake, words)
    );
}

#[test]
fn mends_one_mistake() {
    for right in [RIGHT, LONG] {
        for place in 0..right.len() - 1 {
            let (front, behind) = (&right[..place], &right[place + 1..]);
            let it = right.as_bytes()[place] as char;
            let next = behind.chars().next().unwrap();
            let other = if it == 'x' { 'y' } else { 'x' };
            let (number, after) = (place + 1, place + 2);
            let words = format!("character {number}: {other} becomes {it}");
            alone(
                &format!("{front}{other}{behind}"),
                right,
                Mistake::Changed(place),
                &words,
            );
            if it == next {
                continue;
            }
            let words = format!("character {number}: {it} is put in");
            alone(
                &format!("{front}{behind}"),
                right,
                Mistake::PutIn(place),
                &words,
            );
            let words = format!("characters {number} and {after}: {next} and {it} are swapped");
            let swapped = format!("{front}{next}{it}{}", &behind[1..]);
            alone(&swapped, right, Mistake::Swapped(place), &words);
            if other != next {
                let words = format!("character {after}: {other} is left out");
                let longer = format!("{front}{it}{other}{behind}");
                alone(&longer, right, Mistake::LeftOut(place + 1), &words);
            }
        }
    }
    // Two changed characters are more than one mistake.
    let two = mend("sawqdeadbeef)#89f8spxm", 1).unwrap();
    assert!(two.iter().all(|it| it.as_str() != RIGHT));
    let none = mend("raw(deedbeef)#89f8spxm", 0).unwrap();
    assert!(none.iter().all(|it| it.as_str() != RIGHT));
    let words = "character 6: \u{e9} becomes e";
    alone(
        "raw(d\u{e9}adbeef)#89f8spxm",
        RIGHT,
        Mistake::Changed(5),
        words,
    );
}

// That one text alone is listed, and how it is made.
fn alone_by_two(text: &str, right: &str, places: (usize, usize), words: &str) {
    let found = mend_two(text).unwrap();
    assert_eq!(found.len(), 1, "{text}");
    assert_eq!(
        (
            found[0].as_str(),
            found[0].places(),
            found[0].to_string().as_str()
        ),
        (right, places, words)
    );
    assert!(!format!("{found:?}").contains(&right[..5]));
}

// A text with other characters at two places.
fn with_two(text: &str, places: (usize, usize), others: (char, char)) -> String {
    let mut all: Vec<char> = text.chars().collect();
    all[places.0] = others.0;
    all[places.1] = others.1;
    all.into_iter().collect()
}

fn mends_two(right: &str, places: (usize, usize), others: (char, char)) {
    let it = |place: usize| char::from(right.as_bytes()[place]);
    let words = format!(
        "characters {} and {}: {} becomes {}, {} becomes {}",
        places.0 + 1,
        places.1 + 1,
        others.0,
        it(places.0),
        others.1,
        it(places.1)
    );
    let wrong = with_two(right, places, others);
    alone_by_two(&wrong, right, places, &words);
}

#[test]
fn mends_two_changed_characters() {
    let other = |place: usize, one, two| {
        if RIGHT[place..].starts_with(one) {
            two
        } else {
            one
        }
    };
    for first in (0..RIGHT.len()).step_by(3) {
        for second in (first + 1..RIGHT.len()).step_by(5) {
            let others = (other(first, 'x', 'y'), other(second, 'q', 'p'));
            mends_two(RIGHT, (first, second), others);
        }
    }
    mends_two(LONG, (0, LONG.len() - 1), ('W', 'q'));
    mends_two(LONG, (LONG.len() - 9, LONG.len() - 1), (' ', '#'));
    mends_two(RIGHT, (5, 6), ('\u{e9}', '\u{1f600}'));
    for text in [RIGHT, "xaw(deadbeef)#89f8spxm", "", "#", "raw(deadbeef)"] {
        assert!(mend_two(text).unwrap().is_empty(), "{text}");
    }
    assert!(mend_two(&"x".repeat(1400)).unwrap().is_empty());
    let error = mend_two(&"x".repeat(1401)).unwrap_err();
    assert_eq!(error, Error::TooLong);
    assert_eq!(Refusal::from(error).number(), 89);
}
