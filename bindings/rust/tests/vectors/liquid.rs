//! Confidential addresses of Liquid.

use bech32_proved::{liquid, Hrp, Refusal};

const ADDRESS: &str = "lq1qqf8er278e6nyvuwtgf39e6ewvdcnjupn9a86rzpx655y5lhkt0walu3djf9cklkxd3ryld97hu8h3xepw7sh2rlu7q45dcew5";

// The same with other characters at places.
fn with(changes: &[(usize, char)]) -> String {
    let mut text: Vec<char> = ADDRESS.chars().collect();
    for (place, other) in changes {
        assert_ne!(text[*place], *other);
        text[*place] = *other;
    }
    text.into_iter().collect()
}

#[test]
fn reads_and_writes_addresses() {
    for text in [ADDRESS.to_owned(), ADDRESS.to_uppercase()] {
        let found = liquid::decode(&text).unwrap();
        assert_eq!(found.hrp, Hrp::parse("lq").unwrap());
        assert_eq!((found.version, found.program.len()), (0, 20));
        assert!([2, 3].contains(&found.key[0]));
        let again = liquid::encode(found.hrp, 0, &found.key, &found.program);
        assert_eq!(again.as_deref(), Ok(ADDRESS));
    }
    let el = Hrp::parse("el").unwrap();
    let text = liquid::encode(el, 0, &[2; 33], &[7; 32]).unwrap();
    let found = liquid::decode(&text).unwrap();
    assert_eq!((found.key, found.program), ([2; 33], vec![7; 32]));
}

#[test]
fn refuses_what_is_no_address() {
    let part = Hrp::parse("lq").unwrap();
    for (version, size, refusal) in [
        (32, 20, Refusal::BadNumber),
        (17, 20, Refusal::EncodedBadVersion),
        (1, 32, Refusal::UnsupportedVersion),
        (0, 1, Refusal::ProgramTooShort),
        (0, 41, Refusal::ProgramTooLong),
        (0, 21, Refusal::ProgramNotV0),
    ] {
        let program = vec![0; size];
        assert_eq!(
            liquid::encode(part, version, &[2; 33], &program),
            Err(refusal)
        );
    }
    for (text, refusal) in [
        (with(&[(20, 'q')]), Refusal::WrongChecksum),
        (with(&[(3, 'p')]), Refusal::UnsupportedVersion),
        (with(&[(3, '3')]), Refusal::BadVersion),
        (with(&[(20, 'b')]), Refusal::InvalidCharacter),
        ("lq1".to_owned(), Refusal::NoData),
        (String::new(), Refusal::NoSeparator),
    ] {
        assert_eq!(liquid::decode(&text), Err(refusal), "{text}");
    }
}

#[cfg(feature = "correct")]
#[test]
fn mends_up_to_the_bound() {
    let last = ADDRESS.len() - 1;
    let wrong = [(10, 'q'), (50, '3'), (90, 'y')];
    for count in 0..=3 {
        let text = with(&wrong[..count]);
        let mended = liquid::correct(&text, &[]).unwrap();
        assert_eq!((mended.as_str(), mended.changes().len()), (ADDRESS, count));
        let near = liquid::nearest(&text, &[], 3).unwrap();
        assert_eq!(near.len(), 1);
        assert_eq!(near[0].as_str(), ADDRESS);
        let upper = liquid::correct(&text.to_uppercase(), &[]).unwrap();
        assert_eq!(upper.as_str(), ADDRESS.to_uppercase());
    }
    // Six characters that are known to be wrong, or four beside one that is not.
    let places = [5, 17, 29, 41, 53, 65];
    let text = with(&places.map(|place| {
        (
            place,
            if &ADDRESS[place..=place] == "q" {
                'p'
            } else {
                'q'
            },
        )
    }));
    let erasures = places.map(|place| last - place);
    assert_eq!(liquid::correct(&text, &erasures).unwrap().as_str(), ADDRESS);
    assert_eq!(
        liquid::correct(&text, &erasures[..4]),
        Err(Refusal::NoCorrection)
    );
    let seven: Vec<usize> = (0..7).collect();
    assert_eq!(liquid::correct(ADDRESS, &seven), Err(Refusal::NoCorrection));
    assert_eq!(liquid::nearest(ADDRESS, &[], 4), Err(Refusal::BadNumber));
    // Twice the errors and the different erasures are seven at most; beside more than six nothing is near.
    for (erasures, errors) in [(1, 3), (3, 2), (5, 1), (6, 0)] {
        let near = liquid::nearest(ADDRESS, &seven[..erasures], errors).unwrap();
        assert_eq!(near[0].as_str(), ADDRESS);
        assert_eq!(
            liquid::nearest(ADDRESS, &seven[..erasures.min(5) + 1], errors.max(1)),
            Err(Refusal::BadNumber)
        );
    }
    let twice = liquid::nearest(ADDRESS, &[3, 3, 3], 3).unwrap();
    assert_eq!(twice[0].as_str(), ADDRESS);
    for errors in [0, 3] {
        assert_eq!(liquid::nearest(ADDRESS, &seven, errors), Ok(vec![]));
    }
    assert_eq!(
        liquid::correct("lq1qb", &[]),
        Err(Refusal::InvalidCharacter)
    );
}
