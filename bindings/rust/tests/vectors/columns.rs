//! Columns: of each row they say what the call for one text says.

use bech32_proved::columns::{check, check_either, decode, encode, message, Column, Rows};
use bech32_proved::primitives::decode::CheckedHrpstring;
use bech32_proved::{hrp, segwit, Bech32, Bech32m, Checksum, Fe32, Hrp, NoChecksum, Refusal};
use std::thread;

// Numbers that look random: the same in each run.
struct Draw(u64);

impl Draw {
    fn below(&mut self, most: usize) -> usize {
        self.0 = self
            .0
            .wrapping_mul(6_364_136_223_846_793_005)
            .wrapping_add(1);
        (self.0 >> 33) as usize % most
    }

    fn bytes(&mut self, length: usize) -> Vec<u8> {
        (0..length).map(|_| self.below(256) as u8).collect()
    }

    // An address, a damaged one, bytes that are no text, or none.
    fn row(&mut self) -> Option<Vec<u8>> {
        let version = [0, 0, 1, 16][self.below(4)];
        let length = [20, 32][self.below(2)];
        let part = [hrp::BC, hrp::BC, hrp::TB][self.below(3)];
        let version = Fe32::try_from(version).unwrap();
        let program = self.bytes(length);
        let mut text = segwit::encode(part, version, &program)
            .unwrap()
            .into_bytes();
        let at = self.below(text.len());
        match self.below(10) {
            0 => return None,
            1 => text[at] = self.below(256) as u8,
            2 => text.make_ascii_uppercase(),
            3 => text.truncate(at),
            _ => {}
        }
        Some(text)
    }
}

fn number(found: Result<(), Refusal>) -> u8 {
    found.map_or_else(|refusal| u8::try_from(refusal.number()).unwrap(), |()| 0)
}

fn text(row: Option<&[u8]>) -> Result<&str, Refusal> {
    std::str::from_utf8(row.ok_or(Refusal::NullRow)?).map_err(|_| Refusal::NotUtf8)
}

fn checked<Ck: Checksum>(row: Option<&[u8]>) -> u8 {
    let accepted = text(row).and_then(|it| {
        CheckedHrpstring::new::<Ck>(it)
            .map(|_| ())
            .map_err(Refusal::from)
    });
    number(accepted)
}

type Address = (Hrp, Fe32, Vec<u8>);

fn decoded(row: Option<&[u8]>, part: Option<Hrp>) -> Result<Address, Refusal> {
    let found = segwit::decode(text(row)?).map_err(Refusal::from)?;
    match part {
        Some(part) if part != found.0 => Err(Refusal::OtherHrp),
        _ => Ok(found),
    }
}

fn assert_decoded(texts: Column<'_>, rows: &Rows, part: Option<Hrp>) {
    let found = decode(texts, part);
    assert_eq!(found.numbers.len(), rows.len());
    for (at, row) in rows.iter().enumerate() {
        let right = decoded(row, part);
        let got = (found.versions[at], usize::from(found.hrp_lengths[at]));
        let program = found.programs.get(at);
        match &right {
            Ok((hrp, version, bytes)) => {
                assert_eq!(got, (version.to_u8(), hrp.len()));
                assert_eq!(program, Some(bytes.as_slice()));
            }
            Err(_) => assert_eq!((got, program), ((0, 0), None)),
        }
        assert_eq!(found.numbers[at], number(right.map(|_| ())), "row {at}");
    }
    let nulls = found.numbers.iter().filter(|it| **it != 0).count();
    assert_eq!(found.programs.null_count(), nulls);
}

fn rows(count: usize) -> Rows {
    let mut draw = Draw(7);
    Rows::of_nullable((0..count).map(|_| draw.row()))
}

#[test]
fn a_column_says_what_each_text_says() {
    let all = rows(3000);
    let by = |each: fn(Option<&[u8]>) -> u8| all.iter().map(each).collect::<Vec<_>>();
    assert_eq!(check::<Bech32>(all.column()), by(checked::<Bech32>));
    assert_eq!(check::<Bech32m>(all.column()), by(checked::<Bech32m>));
    assert_eq!(check::<NoChecksum>(all.column()), by(checked::<NoChecksum>));
    let either = check_either(all.column());
    for (at, row) in all.iter().enumerate() {
        let is_right = checked::<Bech32>(row) == 0 || checked::<Bech32m>(row) == 0;
        assert_eq!(either[at] == 0, is_right, "row {at}");
    }
    for part in [None, Some(hrp::BC), Some(hrp::TB)] {
        assert_decoded(all.column(), &all, part);
    }
    // More rows than are worked out at once.
    let many = Rows::of(std::iter::repeat("BC1SW50QGDZ25J").take(70_000));
    let found = decode(many.column(), Some(hrp::BC));
    assert!(found.numbers.iter().all(|it| *it == 0));
    assert_eq!(found.programs.offsets()[70_000], 140_000);
    assert_eq!(
        found.programs.get(69_999),
        found.programs.get(0),
        "the last program"
    );
}

#[test]
fn every_layout_is_read() {
    let all = rows(500);
    let small: Vec<i32> = all.offsets().iter().map(|it| *it as i32).collect();
    let column = Column::new(all.data(), &small).with_validity(all.validity());
    assert_decoded(column, &all, Some(hrp::BC));
    let numbers = decode(column, Some(hrp::BC)).numbers;
    let part = decode(column.rows(100..300).rows(7..150), Some(hrp::BC));
    assert_eq!(part.numbers, numbers[107..250]);
    let by_threads: Vec<u8> = thread::scope(|scope| {
        let parts = [0..123, 123..400, 400..500];
        let each =
            parts.map(|rows| scope.spawn(move || decode(column.rows(rows), Some(hrp::BC)).numbers));
        each.into_iter().flat_map(|it| it.join().unwrap()).collect()
    });
    assert_eq!(by_threads, numbers);
    let fixed = Column::fixed(b"a12uel5la12uel5qa1lqfn3a??", 8);
    assert_eq!(fixed.len(), 3);
    assert_eq!(check::<Bech32>(fixed), [0, 33, 33]);
    assert_eq!(fixed.row(2), Ok(&b"a1lqfn3a"[..]));
    assert!(Column::fixed(b"abc", 0).is_empty() && Column::new(b"", &[]).is_empty());
    assert!(decode(Rows::of::<&str>([]).column(), None)
        .programs
        .is_empty());
}

#[test]
fn offsets_that_are_anything_end_nothing() {
    let bytes = b"a12uel5la12uel5l";
    let offsets = [0, 8, 7, 15, i32::MAX, 0, 8, -1, i32::MIN, 8, 16, 17, 16, 16];
    let column = Column::new(bytes, &offsets);
    let found = check::<Bech32>(column);
    for (at, number) in found.iter().enumerate() {
        let row = column.row(at);
        assert_eq!(*number == 4, row == Err(Refusal::BadNumber), "row {at}");
        assert_eq!(*number == 0, [0, 5, 9].contains(&at), "row {at}");
    }
    assert_eq!(
        message(4),
        "the offsets of the row do not lie in the column"
    );
    let large = [i64::MAX, 0, 8, i64::MIN, 8, 16];
    assert_eq!(
        check::<Bech32>(Column::large(bytes, &large)),
        [4, 0, 4, 4, 0]
    );
    // Bits for the first eight rows alone.
    let short = Column::fixed(bytes, 1).with_validity(&[0xff]);
    assert!(check::<Bech32>(short).iter().skip(8).all(|it| *it == 4));
    assert_eq!(column.row(100), Err(Refusal::BadNumber));
}

#[test]
fn programs_are_encoded() {
    let mut draw = Draw(3);
    let lengths = [0, 1, 2, 20, 20, 32, 40, 41, 5000];
    let mut program = || {
        let length = lengths[draw.below(9)];
        Some(draw.bytes(length)).filter(|it| !it.is_empty())
    };
    let programs: Vec<Option<Vec<u8>>> = (0..600).map(|_| program()).collect();
    let versions: Vec<u8> = programs.iter().map(|_| draw.below(18) as u8).collect();
    for part in [hrp::BC, Hrp::parse(&"x".repeat(83)).unwrap()] {
        let all = Rows::of_nullable(programs.iter().map(Option::as_ref));
        let made = encode(part, &versions, all.column());
        for (at, program) in programs.iter().enumerate() {
            let right = program.as_ref().ok_or(Refusal::NullRow).and_then(|it| {
                let version = Fe32::try_from(versions[at]).unwrap();
                segwit::encode(part, version, it).map_err(Refusal::from)
            });
            let found = made.texts.texts().nth(at).unwrap();
            assert_eq!(found, right.as_deref().ok());
            assert_eq!(made.numbers[at], number(right.map(|_| ())), "row {at}");
        }
    }
    let column = Column::fixed(&[7; 60], 20);
    let made = encode(hrp::BC, &[40, 255, 1], column);
    assert_eq!(made.numbers, [52, 52, 0]);
    assert_eq!(made.texts.null_count(), 2);
    let (offsets, bytes, validity) = made.texts.into_parts();
    assert_eq!((offsets[3], validity), (bytes.len() as i64, vec![4]));
}

#[test]
#[should_panic(expected = "a version for each program")]
fn as_many_versions_as_programs_are_wanted() {
    let _ = encode(hrp::BC, &[0], Rows::of([[0; 20]; 2]).column());
}

#[test]
#[should_panic(expected = "the column has 2 rows")]
fn rows_are_those_of_the_column() {
    let _ = Column::fixed(&[0; 4], 2).rows(1..3);
}
