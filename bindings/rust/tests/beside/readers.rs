//! What both crates say of a text by the same lines: the readers, the words of each error, the writers,
//! and a caller that parses and displays addresses.

macro_rules! lines_over {
    ($name:ident, $library:path) => {
        pub mod $name {
            use $library as bech32;

            #[allow(dead_code)]
            mod address {
                include!("../caller/address.rs");
            }

            use address::Address;
            use bech32::primitives::checksum::{Engine, HrpFe32Iter, PackedFe32};
            use bech32::primitives::decode::{
                CheckedHrpstring, SegwitHrpstring, UncheckedHrpstring,
            };
            use bech32::primitives::gf32::Fe32;
            use bech32::primitives::iter::Checksummed;
            use bech32::{segwit, Bech32, Bech32m, ByteIterExt, Checksum, Fe32IterExt, Hrp};
            use bech32::NoChecksum;
            use std::error::Error;
            use std::fmt::Write;

            // An error with its causes.
            fn words(error: &dyn Error) -> String {
                match error.source() {
                    None => error.to_string(),
                    Some(cause) => format!("{error}: {}", words(cause)),
                }
            }

            fn of_result<T>(result: Result<T, impl Error>, show: impl Fn(T) -> String) -> String {
                result.map_or_else(|e| words(&e), show)
            }

            fn by_checksum<Ck: Checksum>(text: &str) -> String {
                let mut said = of_result(CheckedHrpstring::new::<Ck>(text), |mut checked| {
                    let elements: Vec<u8> = checked.fe32_iter().map(Fe32::to_u8).collect();
                    let bytes: Vec<u8> = checked.byte_iter().collect();
                    let version = checked.remove_witness_version().map(Fe32::to_u8);
                    let rest: Vec<u8> = checked.byte_iter().collect();
                    let padding = of_result(checked.validate_segwit_padding(), |()| String::new());
                    format!("{elements:?} {bytes:?} {version:?} {rest:?} {padding}")
                });
                said.push_str(&of_result(UncheckedHrpstring::new(text), |mut unchecked| {
                    let valid = unchecked.has_valid_checksum::<Ck>();
                    let version = unchecked.remove_witness_version().map(Fe32::to_u8);
                    let rest = of_result(unchecked.validate_checksum::<Ck>(), |()| String::new());
                    let data_part = unchecked.data_part_ascii();
                    format!("{valid} {version:?} {rest} {data_part:?}")
                }));
                said
            }

            fn address(read: SegwitHrpstring) -> String {
                let (hrp, version) = (read.hrp().to_string(), read.witness_version().to_u8());
                let characters = read.data_part_ascii_no_witver_no_checksum();
                let bytes: Vec<u8> = read.byte_iter().collect();
                let mut written = String::new();
                let (part, element) = (read.hrp(), read.witness_version());
                segwit::encode_upper_to_fmt_unchecked(&mut written, part, element, &bytes).unwrap();
                let valid = read.has_valid_hrp();
                format!("{hrp} {version} {characters:?} {bytes:?} {written} {valid}")
            }

            /// What is said of a text.
            pub fn said(text: &str) -> String {
                let mut said = by_checksum::<Bech32>(text);
                said.push_str(&by_checksum::<Bech32m>(text));
                said.push_str(&by_checksum::<NoChecksum>(text));
                said.push_str(&of_result(bech32::decode(text), |(hrp, _)| hrp.to_string()));
                said.push_str(&of_result(segwit::decode(text), |(hrp, ..)| hrp.to_string()));
                said.push_str(&of_result(SegwitHrpstring::new(text), address));
                said.push_str(&of_result(text.parse::<Address>(), |address| {
                    format!("{address} {} {address:?}", address.to_qr_uri())
                }));
                let (network, other) = (
                    Address::network_of(text),
                    Address::has_checksum_of_other_version(text),
                );
                write!(said, "{network:?} {other} {:?}", Address::elements(text)).unwrap();
                said
            }

            // Bytes as elements, and back in two ways, with the number that is told before each.
            fn regrouped(bytes: &[u8]) -> String {
                let elements = bytes.iter().copied().bytes_to_fes();
                let mut said = format!("{}", elements.len());
                let elements: Vec<Fe32> = elements.collect();
                for count in [elements.len(), bytes.len().min(elements.len())] {
                    let part = || elements[..count].iter().copied();
                    let plain: Vec<u8> = part().fes_to_bytes().collect();
                    let padded: Vec<u8> = part().fes_to_bytes_zeropad().collect();
                    let counts = part().fes_to_bytes().len();
                    write!(said, " {counts} {plain:?} {padded:?}").unwrap();
                }
                said
            }

            // The text of elements, given one at a time, and what the engine holds behind them.
            fn streamed<Ck: Checksum>(part: Hrp, bytes: &[u8]) -> String {
                let elements = || bytes.iter().copied().bytes_to_fes();
                let version = Fe32::try_from(bytes.len() as u8 % 32).unwrap();
                let plain = elements().with_checksum::<Ck>(&part);
                let encoder = || {
                    let encoder = elements().with_checksum::<Ck>(&part);
                    encoder.with_witness_version(version)
                };
                let hints = [
                    plain.chars().size_hint(),
                    encoder().bytes().size_hint(),
                    encoder().fes().size_hint(),
                    HrpFe32Iter::new(&part).size_hint(),
                ];
                let characters: String = encoder().chars().collect();
                let same: Vec<u8> = encoder().bytes().collect();
                let fes: Vec<u8> = encoder().fes().map(Fe32::to_u8).collect();
                let alone: Vec<u8> = Checksummed::<_, Ck>::new(elements())
                    .map(Fe32::to_u8)
                    .collect();
                let under: String = Checksummed::<_, Ck>::new_hrp(part, elements())
                    .map(Fe32::to_char)
                    .collect();
                let mut engine = Engine::<Ck>::new();
                engine.input_hrp(part);
                elements().for_each(|element| engine.input_fe(element));
                engine.input_target_residue();
                let held = (0..Ck::CHECKSUM_LENGTH).map(|n| engine.residue().unpack(n));
                let held: Vec<u8> = held.collect();
                let is_target = *engine.residue() == Ck::TARGET_RESIDUE;
                let written = bech32::encode::<Ck>(part, bytes).unwrap();
                let length = bech32::encoded_length::<Ck>(part, bytes).unwrap();
                format!(
                    "{hints:?} {characters} {same:?} {fes:?} {alone:?} {under} {held:?} {is_target} \
                     {written} {length}"
                )
            }

            /// The sum and the difference of each two elements, in the forms that operators have.
            pub fn sums() -> Vec<[u8; 10]> {
                let elements = || (0..32).map(|value: u8| Fe32::try_from(value).unwrap());
                let pairs = elements().flat_map(|a| elements().map(move |b| (a, b)));
                let sums = pairs.map(|(a, b)| {
                    let (mut sum, mut difference) = ([a, a], [a, a]);
                    sum[0] += b;
                    sum[1] += &b;
                    difference[0] -= b;
                    difference[1] -= &b;
                    let plain = [a + b, a + &b, &a + b, &a + &b, a - b, &a - &b];
                    let mut all = plain.iter().chain(&sum).chain(&difference);
                    [(); 10].map(|()| all.next().unwrap().to_u8())
                });
                sums.collect()
            }

            /// What is said of a human-readable part, and of the text of bytes under it.
            pub fn said_of_part(hrp: &str, bytes: &[u8]) -> String {
                let said = regrouped(bytes);
                of_result(Hrp::parse(hrp), |part| {
                    let characters: String = part.char_iter().rev().collect();
                    let lower: String = part.lowercase_char_iter().collect();
                    let mut written = String::new();
                    let outcome =
                        bech32::encode_upper_to_fmt::<Bech32, String>(&mut written, part, bytes);
                    let outcome = of_result(outcome, |()| String::new());
                    let mut plain = vec![];
                    let outcome_2 = of_result(
                        bech32::encode_to_writer::<Bech32m, Vec<u8>>(&mut plain, part, bytes),
                        |()| String::new(),
                    );
                    let length = bech32::encoded_length::<Bech32>(part, bytes);
                    let length = of_result(length, |n| format!("{n} {}", part.len()));
                    let few = &bytes[..bytes.len().min(60)];
                    let by_each = [
                        streamed::<Bech32>(part, few),
                        streamed::<Bech32m>(part, few),
                        streamed::<NoChecksum>(part, bytes),
                    ];
                    format!(
                        "{said} {characters} {lower} {written} {outcome} {plain:?} {outcome_2} {length} \
                         {by_each:?}"
                    )
                })
            }
        }
    };
}

lines_over!(ours, bech32_proved);
lines_over!(theirs, ::bech32);
