//! Strings of BIP-93 and shares: its vectors, lines of the program c32 with the replies of a model, and each
//! refusal.

mod split;

use bech32_proved::codex32::{
    derive, encode, encode_payload, propose, propose_long, recover, split_with, Header, Identifier,
    Refusal, SecretText, Share, Threshold, MAX_SHARES,
};
use bech32_proved::{fault, Fe32, NoChecksum};
use std::collections::HashSet;

const HEADER: &str = include_str!("../../../../dist/codex32.h");

// Lines of c32, each with its reply. The first ten are the examples of BIP-93.
const LINES: &str = include_str!("lines.tsv");

// The secret of threshold 0, and two shares of another, of BIP-93.
const SECRET: &str = "ms10testsxxxxxxxxxxxxxxxxxxxxxxxxxx4nzvca9cmczlw";
const A: &str = "MS12NAMEA320ZYXWVUTSRQPNMLKJHGFEDCAXRPP870HKKQRM";
const C: &str = "MS12NAMECACDEFGHJKLMNPQRSTUVWXYZ023FTR2GDZMPY6PN";

// Three shares of another secret, that at `s` the secret itself.
const CASH: [&str; 3] = [
    "ms13cashsllhdmn9m42vcsamx24zrxgs3qqjzqud4m0d6nln",
    "ms13casha320zyxwvutsrqpnmlkjhgfedca2a8d0zehn8a0t",
    "ms13cashcacdefghjklmnpqrstuvwxyz023949xq35my48dr",
];

// What its secret's string holds.
const CASH_BYTES: &str = "ffeeddccbbaa99887766554433221100";

const LONG: &str = "ms100c8vsm32zxfguhpchtlupzry9x8gf2tvdw0s3jn54khce6mua7lqpzygsfjd6an074rxvcemlh8wu3tk925acdefghjklmnpqrstuvwxy06fhpv80undvarhrak";

// Strings that are refused, each with its number; the second to the fourth are examples of BIP-93.
const NOT_CODEX32: [(&str, u32); 12] = [
    ("ms10testsxxxxxxxxxxxxxxxxxxxxxxxxxx4nzvca9cmczlq", 33),
    ("ms10fauxsxxxxxxxxxxxxxxxxxxxxxxxxxxve740yyge2ghP", 22),
    ("ms1fauxxxxxxxxxxxxxxxxxxxxxxxxxxxxxda3kr3s0s2swg", 83),
    ("ms10fauxxxxxxxxxxxxxxxxxxxxxxxxxxxx0z26tfn0ulw3p", 84),
    ("ms10fauxsxxxxxxxxxxxxxxxxxxxxbxxxxxve740yyge2ghp", 21),
    ("0fauxsxxxxxxxxxxxxxxxxxxxxxxxxxxuqxkk05lyf3x2", 23),
    ("10fauxsxxxxxxxxxxxxxxxxxxxxxxxxxxuqxkk05lyf3x2", 11),
    ("m\u{e9}10fauxsxxxxxxxxxxxxxxxxxxxxxxxxxxuqxkk05lyf3x2", 13),
    ("m 10fauxsxxxxxxxxxxxxxxxxxxxxxxxxxxuqxkk05lyf3x2", 14),
    ("mS10FAUXSXXXXXXXXXXXXXXXXXXXXXXXXXXUQXKK05LYF3X2", 22),
    ("mt10fauxsxxxxxxxxxxxxxxxxxxxxxxxxxxuqxkk05lyf3x2", 81),
    ("ms10fauxsxxxxxxxxxxxxxxxxxxxxxxxxxxuqxkk05lyf3x", 82),
];

fn shares<'s>(texts: &[&'s str]) -> Result<Vec<Share<'s>>, Refusal> {
    texts.iter().map(|text| Share::parse(text)).collect()
}

fn index(word: &str) -> Result<Fe32, Refusal> {
    let mut characters = word.chars();
    match (characters.next(), characters.next()) {
        (Some(character), None) => Ok(Fe32::from_char(character)?),
        _ => Err(Refusal::NoShareIndex),
    }
}

fn header(threshold: &str, identifier: &str, share_index: &str) -> Result<Header, Refusal> {
    let threshold = threshold_of(threshold)?;
    let identifier = Identifier::parse(identifier)?;
    Header::new(threshold, identifier, index(share_index)?)
}

// The bytes of hexadecimal digits, and the digits of bytes.
fn bytes(digits: &str) -> Vec<u8> {
    let digits = digits.trim_matches('-');
    let pairs = (0..digits.len()).step_by(2).map(|i| &digits[i..i + 2]);
    pairs
        .map(|pair| u8::from_str_radix(pair, 16).unwrap())
        .collect()
}

fn digits(bytes: &[u8]) -> String {
    bytes.iter().map(|byte| format!("{byte:02x}")).collect()
}

fn share_line(text: &str) -> Result<String, Refusal> {
    let share = Share::parse(text)?;
    let (threshold, identifier) = (share.threshold(), share.identifier());
    let (share_index, bytes) = (share.share_index(), digits(&share.to_bytes()?));
    Ok(format!("ok {threshold} {identifier} {share_index} {bytes}"))
}

fn threshold_of(word: &str) -> Result<Threshold, Refusal> {
    // No digit is a threshold of two characters.
    let number = match word.as_bytes() {
        [digit @ b'0'..=b'9'] => digit - b'0',
        _ => 10,
    };
    Threshold::new(number)
}

fn split_line(
    threshold: &str,
    count: &str,
    identifier: &str,
    secret: &[u8],
    random: &[u8],
) -> Result<String, Refusal> {
    let (threshold, identifier) = (threshold_of(threshold)?, Identifier::parse(identifier)?);
    let count = count.parse().unwrap();
    let shares = split_with(secret, threshold, count, identifier, random)?;
    let texts: Vec<&str> = shares.iter().map(SecretText::as_str).collect();
    Ok(format!("ok {}", texts.join(" ")))
}

// What c32 replies to a line.
fn reply(words: &[&str]) -> Result<String, Refusal> {
    let ok = |text: SecretText| format!("ok {}", text.as_str());
    // The program proposes in lower case, this crate in the case of what was typed.
    let some = |text: Option<SecretText>| {
        text.map_or("none".to_owned(), |text| {
            format!("some {}", text.to_lowercase())
        })
    };
    match words {
        ["share", text] => share_line(text),
        ["encode", threshold, identifier, share_index, "-"] => {
            encode(&header(threshold, identifier, share_index)?, &[]).map(ok)
        }
        ["encode", threshold, identifier, share_index, hex] => {
            encode(&header(threshold, identifier, share_index)?, &bytes(hex)).map(ok)
        }
        ["split", threshold, count, identifier, hex, random] => {
            split_line(threshold, count, identifier, &bytes(hex), &bytes(random))
        }
        ["derive", share_index, texts @ ..] => {
            let share_index = index(share_index)?;
            derive(texts, share_index).map(ok)
        }
        ["recover", texts @ ..] => {
            let secret = derive(texts, Fe32::S);
            let wanted = secret.clone().and_then(|it| Share::parse(&it)?.to_bytes());
            assert_eq!(recover(texts), wanted);
            secret.map(ok)
        }
        ["propose", text] => propose(text).map(some),
        ["propose-long", text] => propose_long(text).map(some),
        _ => panic!("no line of c32: {words:?}"),
    }
}

#[test]
fn answers_lines_as_a_model_does() {
    let (mut numbers, mut count) = (HashSet::new(), 0);
    for row in LINES.lines() {
        let (line, wanted) = row.split_once('\t').unwrap();
        let words: Vec<&str> = line.split(' ').collect();
        let found = reply(&words).unwrap_or_else(|e| format!("err {}", e.number()));
        assert_eq!(found, wanted, "{line}");
        count += 1;
        numbers.extend(wanted.strip_prefix("err ").map(str::to_owned));
    }
    assert!(count > 150);
    for number in [
        21, 22, 23, 33, 56, 66, 74, 75, 76, 77, 78, 81, 82, 83, 84, 85, 86, 87,
    ] {
        assert!(numbers.contains(&number.to_string()), "{number}");
    }
}

#[test]
fn reads_strings() {
    for text in [SECRET, A, C, LONG] {
        let share = Share::parse(text).unwrap();
        assert_eq!(share.as_str(), text);
        assert_eq!(share.header().threshold(), share.threshold());
        assert_eq!(share.header().identifier(), share.identifier());
        assert_eq!(share.header().share_index(), share.share_index());
        let again = encode(&share.header(), &share.to_bytes().unwrap()).unwrap();
        assert_eq!(&again[..9], &text.to_lowercase()[..9]);
        assert!(share_line(&again) == share_line(text));
    }
    let share = Share::parse(A).unwrap();
    assert_eq!(share.payload(), "320ZYXWVUTSRQPNMLKJHGFEDCA");
    assert_eq!(share.threshold().to_char(), '2');
    let name = [Fe32::N, Fe32::A, Fe32::M, Fe32::E];
    assert_eq!(share.identifier(), Identifier::new(name));
    assert_eq!(share.identifier().elements(), name);
    assert_eq!(Share::parse(LONG).unwrap().payload().len(), 103);
    let shown = format!("{share:?}");
    assert!(shown.starts_with("Share { header: Header {") && !shown.contains("320Z"));
}

#[test]
fn refuses_strings() {
    for (text, number) in NOT_CODEX32 {
        assert_eq!(Share::parse(text).unwrap_err().number(), number, "{text}");
        let grammar = fault::<NoChecksum>(text).map(|fault| fault.refusal().number());
        let of_the_grammar = matches!(number, 11..=15 | 21..=23);
        assert_eq!(grammar, of_the_grammar.then_some(number), "{text}");
    }
    let long_part = format!("{}1{}", "m".repeat(84), "q".repeat(40));
    assert_eq!(Share::parse(&long_part).unwrap_err(), Refusal::HrpTooLong);
    for length in [0, 44, 91, 121, 122 + 3, 1 << 20] {
        let text = format!("ms1{}", "q".repeat(length));
        assert_eq!(Share::parse(&text).unwrap_err(), Refusal::BadLength);
        assert_eq!(propose(&text), Err(Refusal::BadLength));
        assert_eq!(propose_long(&text), Err(Refusal::BadLength));
    }
    assert_eq!(propose(LONG), Err(Refusal::BadLength));
    assert_eq!(propose_long(SECRET), Err(Refusal::BadLength));
}

#[test]
fn makes_headers() {
    for number in 0..=u8::MAX {
        let lawful = matches!(number, 0 | 2..=9);
        let threshold = Threshold::new(number);
        assert_eq!(threshold.is_ok(), lawful, "{number}");
        let found = threshold.map(Threshold::number);
        assert_eq!(found, lawful.then_some(number).ok_or(Refusal::BadThreshold));
    }
    for word in [
        "", "tes", "tests", "tesT", "bank", "te\u{e9}", "test\0", "1est",
    ] {
        assert_eq!(
            Identifier::parse(word),
            Err(Refusal::BadIdentifier),
            "{word}"
        );
    }
    let identifier = Identifier::parse("test").unwrap();
    assert_eq!(format!("{identifier:>6}"), "  test");
    for value in 0..32_u8 {
        let share_index = Fe32::try_from(value).unwrap();
        let unshared = Header::new(Threshold::new(0).unwrap(), identifier, share_index);
        let is_secret = share_index == Fe32::S;
        assert_eq!(unshared.is_ok(), is_secret);
        assert!(is_secret || unshared == Err(Refusal::BadShareIndex));
        let shared = Header::new(Threshold::new(9).unwrap(), identifier, share_index);
        assert_eq!(shared.map(|it| it.share_index()), Ok(share_index));
    }
    for character in ['b', '1', 'i', 'o', '\u{e9}', '\u{1f600}', ' '] {
        let refusal = Refusal::from(Fe32::from_char(character).unwrap_err());
        assert_eq!(refusal, Refusal::NoShareIndex);
    }
}

#[test]
fn encodes_so_many_bytes() {
    let header = header("2", "cash", "A").unwrap();
    for size in 0..100 {
        let bytes: Vec<u8> = (0..size).collect();
        let text = encode(&header, &bytes);
        if matches!(size, 16..=44 | 63..=64) {
            let text = text.unwrap();
            assert!(text.starts_with("ms12casha"));
            let share = Share::parse(&text).unwrap();
            assert_eq!(share.to_bytes().unwrap(), bytes);
            assert_eq!(share.header(), header);
        } else {
            assert_eq!(text, Err(Refusal::BadSize), "{size}");
        }
    }
}

#[test]
fn encodes_characters_of_a_payload() {
    for text in [SECRET, A, C, CASH[0], CASH[1], CASH[2], LONG] {
        let share = Share::parse(text).unwrap();
        for payload in [
            share.payload().to_lowercase(),
            share.payload().to_uppercase(),
        ] {
            let found = encode_payload(&share.header(), &payload).unwrap();
            assert_eq!(found, text.to_lowercase());
        }
    }
    let header = header("2", "name", "A").unwrap();
    for count in 0..150 {
        // A secret of this many bytes has as many characters, the last with bits that are left over.
        let is_lawful = matches!(count, 26..=71 | 101 | 103) && 5 * count % 8 <= 4;
        let payload = "l".repeat(count);
        let text = encode_payload(&header, &payload);
        assert_eq!(text.is_ok(), is_lawful, "{count}");
        assert!(is_lawful || text == Err(Refusal::BadSize));
        for text in text.iter() {
            let share = Share::parse(text).unwrap();
            assert_eq!((share.header(), share.payload()), (header, &*payload));
            assert_eq!(share.to_bytes().unwrap(), vec![0xff; 5 * count / 8]);
        }
    }
    let payload = Share::parse(A).unwrap().payload();
    for (characters, refusal) in [
        (payload.replace('Z', "b"), Refusal::InvalidCharacter),
        (payload.replace('Z', "1"), Refusal::InvalidCharacter),
        (payload.replace('Z', "?"), Refusal::InvalidCharacter),
        (payload.replace('K', "\u{212a}"), Refusal::InvalidCharacter),
        ("b".to_owned(), Refusal::InvalidCharacter),
        (payload.replace('Z', "z"), Refusal::MixedCase),
        ("aA".to_owned(), Refusal::MixedCase),
        (payload[1..].to_owned(), Refusal::BadSize),
        ("q".repeat(1 << 20), Refusal::BadSize),
        (String::new(), Refusal::BadSize),
    ] {
        assert_eq!(
            encode_payload(&header, &characters),
            Err(refusal),
            "{characters:.40}"
        );
    }
}

// The string at an index that three strings give at each order of them.
fn in_each_order(texts: [&str; 3], share_index: Fe32) -> String {
    let [a, b, c] = texts;
    let orders = [
        [a, b, c],
        [a, c, b],
        [b, a, c],
        [b, c, a],
        [c, a, b],
        [c, b, a],
    ];
    let mut found = orders.map(|order| derive(&order, share_index).unwrap().to_string());
    found.sort();
    assert_eq!(found[0], found[5]);
    let [first, ..] = found;
    first
}

#[test]
fn any_threshold_of_a_set_gives_the_others() {
    let all: Vec<String> = (0..32_u8)
        .map(|value| in_each_order(CASH, Fe32::try_from(value).unwrap()))
        .collect();
    let texts: Vec<&str> = all.iter().map(String::as_str).collect();
    assert!(CASH.iter().all(|text| texts.contains(text)));
    for i in 0..32 {
        let three = [texts[i], texts[(i + 5) % 32], texts[(i + 12) % 32]];
        assert_eq!(derive(&three, Fe32::S).unwrap(), CASH[0]);
        let fourth = (i + 3) % 32;
        let share_index = Share::parse(texts[fourth]).unwrap().share_index();
        assert_eq!(in_each_order(three, share_index), texts[fourth]);
    }
    // More than the threshold are tested, all of them at once too.
    assert_eq!(texts.len(), MAX_SHARES);
    assert_eq!(derive(&texts, Fe32::S).unwrap(), CASH[0]);
    assert_eq!(digits(&recover(&texts).unwrap()), CASH_BYTES);
}

#[test]
fn a_mended_share_is_used() {
    let damaged = A
        .to_lowercase()
        .replace("320z", "3?0q")
        .replace("870h", "8?0h");
    let mended = propose(&damaged).unwrap().unwrap();
    assert_eq!(mended, A.to_lowercase());
    let bytes = recover(&[&mended, C]).unwrap();
    assert_eq!(digits(&bytes), "d1808e096b35b209ca12132b264662a5");
    let damaged = LONG.replace("zxfguhpc", "????????");
    assert_eq!(propose_long(&damaged).unwrap().unwrap(), LONG);
    let damaged = damaged.to_uppercase();
    assert_eq!(
        propose_long(&damaged).unwrap().unwrap(),
        LONG.to_uppercase()
    );
    let damaged = A.replace("320Z", "3?0Q").replace("870H", "8?0H");
    assert_eq!(propose(&damaged).unwrap().unwrap(), A);
    let damaged = LONG.replace("zxfguhpch", "?????????");
    assert_eq!(propose_long(&damaged), Ok(None));
}

#[test]
fn refuses_sets() {
    let name = shares(&[A, C]).unwrap();
    let (secret, cash) = (shares(&[SECRET]).unwrap(), shares(&CASH).unwrap());
    // Another secret with the same identifier, of which one share stands beside one of the first.
    let header = header("2", "name", "d").unwrap();
    let other = encode(&header, &[7; 16]).unwrap();
    let other = Share::parse(&other).unwrap();
    for (given, share_index, refusal) in [
        (vec![], Fe32::S, Refusal::TooFewShares),
        (vec![name[0]], Fe32::A, Refusal::TooFewShares),
        (vec![cash[0], cash[2]], Fe32::S, Refusal::TooFewShares),
        (vec![name[0], cash[1]], Fe32::S, Refusal::OtherSet),
        (vec![name[0], name[0]], Fe32::S, Refusal::IndexTwice),
        (
            vec![name[0], name[1], name[0]],
            Fe32::S,
            Refusal::IndexTwice,
        ),
        (vec![secret[0]], Fe32::A, Refusal::BadShareIndex),
        (vec![secret[0], secret[0]], Fe32::A, Refusal::IndexTwice),
        (
            vec![name[0], name[1], other],
            Fe32::S,
            Refusal::Contradiction,
        ),
        // More than there are indices.
        (vec![name[0]; 33], Fe32::S, Refusal::IndexTwice),
        (
            [vec![name[0]; 33], secret.clone()].concat(),
            Fe32::S,
            Refusal::OtherSet,
        ),
    ] {
        assert_eq!(derive(&given, share_index), Err(refusal), "{given:?}");
        if share_index == Fe32::S {
            assert_eq!(recover(&given), Err(refusal), "{given:?}");
        }
    }
    assert_eq!(derive(&secret, Fe32::S).unwrap(), SECRET);
    assert_eq!(recover(&secret), secret[0].to_bytes());
    // Texts are refused first, in their order, more than there are indices too.
    for (texts, refusal) in [
        (vec![A, SECRET, "ms1"], Refusal::BadLength),
        (vec![A, "ms1", "ms1b"], Refusal::BadLength),
        (vec![A, "ms1b", "ms1"], Refusal::InvalidCharacter),
        ([vec![A; 33], vec!["ms1"]].concat(), Refusal::BadLength),
    ] {
        assert_eq!(derive(&texts, Fe32::D), Err(refusal), "{texts:?}");
        assert_eq!(recover(&texts), Err(refusal), "{texts:?}");
    }
    // A string whose payload holds no whole bytes is one of a set all the same.
    let odd = "ms14lvh96q5zxeuujvzg58w59yc7s38yyfhkh8q0nuzggke5jv9s";
    let odd = Share::parse(odd).unwrap();
    assert_eq!(odd.to_bytes(), Err(Refusal::BitsLeftOver));
    assert_eq!(recover(&[odd]), Err(Refusal::TooFewShares));
}

#[test]
fn the_header_has_each_refusal() {
    let named = |line: &str| {
        let words: Vec<&str> = line.split_whitespace().collect();
        let [_, name, value, ..] = words[..] else {
            return None;
        };
        let number = value.strip_suffix('u')?.parse().ok()?;
        Some((name.strip_prefix("CODEX32_")?.replace('_', ""), number))
    };
    let answers = HEADER.split_once("/* Return values. */").unwrap().1;
    let answers = answers.split("\n\n").next().unwrap();
    let mut found: Vec<(String, u32)> = answers
        .lines()
        .filter(|line| line.starts_with("#define"))
        .filter_map(named)
        .collect();
    assert_eq!(found.remove(0), ("OK".to_owned(), 0));
    let ours = Refusal::ALL.iter().map(|refusal| {
        let name = format!("{refusal:?}").to_uppercase();
        (name, refusal.number())
    });
    assert!(ours.eq(found));
    for number in 0..300 {
        let refusal = Refusal::from_number(number);
        assert_eq!(
            refusal,
            Refusal::ALL
                .iter()
                .copied()
                .find(|it| it.number() == number)
        );
    }
}
