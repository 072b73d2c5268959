//! The public vectors: those of BIP-173 and BIP-350, and those of the tests of the Rust crate bech32,
//! with the numbers of refusals where a text is refused.

/// Texts that Bech32 accepts and Bech32m refuses: those of BIP-173, then those of the Rust crate.
pub const BECH32: [&str; 12] = [
    "A12UEL5L",
    "a12uel5l",
    "an83characterlonghumanreadablepartthatcontainsthenumber1andtheexcludedcharactersbio1tt5tgs",
    "abcdef1qpzry9x8gf2tvdw0s3jn54khce6mua7lmqqqxw",
    "11qqqqqqqqqqqqqqqqqqqqqqqqqqqqqqqqqqqqqqqqqqqqqqqqqqqqqqqqqqqqqqqqqqqqqqqqqqqqqqqqqqc8247j",
    "split1checkupstagehandshakeupstreamerranterredcaperred2y9e3w",
    "?1ezyfcl",
    "bc1qar0srrr7xfkvy5l643lydnw9re59gtzzwf5mdq",
    "23451QAR0SRRR7XFKVY5L643LYDNW9RE59GTZZLKULZK",
    "abcd14g08d6qejxtdg4y5r3zarvary0c5xw7kxugcx9",
    "abc14w46h2at4w46h2at4w46h2at4w46h2atsghld7",
    "test1lu08d6qejxtdg4y5r3zarvary0c5xw7kw79nnx",
];

/// Texts that Bech32m accepts and Bech32 refuses: those of BIP-350, then those of the Rust crate.
pub const BECH32M: [&str; 10] = [
    "A1LQFN3A",
    "a1lqfn3a",
    "an83characterlonghumanreadablepartthatcontainsthetheexcludedcharactersbioandnumber11sg7hg6",
    "abcdef1l7aum6echk45nj3s0wdvt2fg8x9yrzpqzd3ryx",
    "11llllllllllllllllllllllllllllllllllllllllllllllllllllllllllllllllllllllllllllllllllludsr8",
    "split1checkupstagehandshakeupstreamerranterredcaperredlc445v",
    "?1v759aa",
    "abc14w46h2at4w46h2at4w46h2at4w46h2at958ngu",
    "test1lu08d6qejxtdg4y5r3zarvary0c5xw7kmz4lky",
    "bc1pdp43hj65vxw49rts6kcw35u6r6tgzguyr03vvveeewjqpn05efzq7un9w0",
];

/// Texts that Bech32 refuses (BIP-173). A byte above 127 of the BIP is the character of that code.
pub const NOT_BECH32: [(&str, u32); 12] = [
    ("\u{20}1nwldj5", 14),
    ("\u{7f}1axkwrx", 14),
    ("\u{80}1eym55h", 13),
    (
        "an84characterslonghumanreadablepartthatcontainsthenumber1andtheexcludedcharactersbio1569pvx",
        12,
    ),
    ("pzry9x0s0muk", 23),
    ("1pzry9x0s0muk", 11),
    ("x1b4n0q5v", 21),
    ("li1dgmt3", 32),
    ("de1lg7wt\u{ff}", 21),
    ("A1G7SGD8", 33),
    ("10a06t8", 11),
    ("1qzzfhee", 11),
];

/// Texts that Bech32m refuses (BIP-350); the last two are the Rust crate's.
pub const NOT_BECH32M: [(&str, u32); 16] = [
    ("\u{20}1xj0phk", 14),
    ("\u{7f}1g6xzxy", 14),
    ("\u{80}1vctc34", 13),
    (
        "an84characterslonghumanreadablepartthatcontainsthetheexcludedcharactersbioandnumber11d6pts4",
        12,
    ),
    ("qyrz8wqd2c9m", 23),
    ("1qyrz8wqd2c9m", 11),
    ("y1b0jsk6g", 21),
    ("lt1igcx5c0", 21),
    ("in1muywd", 32),
    ("mm1crxm3i", 21),
    ("au1s5cgom", 21),
    ("M1VUXWEZ", 33),
    ("16plkw9", 11),
    ("1p2gdwpf", 11),
    ("bc1p2", 32),
    ("abcd143hj65vxw49rts6kcw35u6r6tgzguyr03vvveeewjqpn05efzq444444", 33),
];

/// An address, its human-readable part, its witness version, and its program in hexadecimal.
pub type Address = (&'static str, &'static str, u8, &'static str);

/// The addresses of BIP-350, then those of the Rust crate.
pub const ADDRESSES: [Address; 12] = [
    (
        "BC1QW508D6QEJXTDG4Y5R3ZARVARY0C5XW7KV8F3T4",
        "BC",
        0,
        "751e76e8199196d454941c45d1b3a323f1433bd6",
    ),
    (
        "tb1qrp33g0q5c5txsp9arysrx4k6zdkfs4nce4xj0gdcccefvpysxf3q0sl5k7",
        "tb",
        0,
        "1863143c14c5166804bd19203356da136c985678cd4d27a1b8c6329604903262",
    ),
    (
        "bc1pw508d6qejxtdg4y5r3zarvary0c5xw7kw508d6qejxtdg4y5r3zarvary0c5xw7kt5nd6y",
        "bc",
        1,
        "751e76e8199196d454941c45d1b3a323f1433bd6751e76e8199196d454941c45d1b3a323f1433bd6",
    ),
    ("BC1SW50QGDZ25J", "BC", 16, "751e"),
    (
        "bc1zw508d6qejxtdg4y5r3zarvaryvaxxpcs",
        "bc",
        2,
        "751e76e8199196d454941c45d1b3a323",
    ),
    (
        "tb1qqqqqp399et2xygdj5xreqhjjvcmzhxw4aywxecjdzew6hylgvsesrxh6hy",
        "tb",
        0,
        "000000c4a5cad46221b2a187905e5266362b99d5e91c6ce24d165dab93e86433",
    ),
    (
        "tb1pqqqqp399et2xygdj5xreqhjjvcmzhxw4aywxecjdzew6hylgvsesf3hn0c",
        "tb",
        1,
        "000000c4a5cad46221b2a187905e5266362b99d5e91c6ce24d165dab93e86433",
    ),
    (
        "bc1p0xlxvlhemja6c4dqv22uapctqupfhlxm9h8z3k2e72q4k9hcz7vqzk5jj0",
        "bc",
        1,
        "79be667ef9dcbbac55a06295ce870b07029bfcdb2dce28d959f2815b16f81798",
    ),
    // BIP-350 refuses the next for its human-readable part, which the caller compares.
    (
        "tc1p0xlxvlhemja6c4dqv22uapctqupfhlxm9h8z3k2e72q4k9hcz7vq5zuyut",
        "tc",
        1,
        "79be667ef9dcbbac55a06295ce870b07029bfcdb2dce28d959f2815b16f81798",
    ),
    (
        "bc1p4w46h2at4w46h2at4w46h2at4w46h2at5kreae",
        "bc",
        1,
        "abababababababababababababababababababab",
    ),
    (
        "anhrpthatisnineteen1pqyqszqgpqyqszqgpqyqszqgpqyqszqgpqyqszqgpqyqszqgpqyqszqgpqyqszqghfyyfz",
        "anhrpthatisnineteen",
        1,
        "010101010101010101010101010101010101010101010101010101010101010101010101010101",
    ),
    (
        "bc1qw508d6qejxtdg4y5r3zarvary0c5xw7kv8f3t4",
        "bc",
        0,
        "751e76e8199196d454941c45d1b3a323f1433bd6",
    ),
];

/// Addresses of the Rust crate whose programs it does not state.
pub const MORE_ADDRESSES: [&str; 3] = [
    "bc1q2s3rjwvam9dt2ftt4sqxqjf3twav0gdx0k0q2etxflx38c3x8tnssdmnjq",
    "bc1py3m7vwnghyne9gnvcjw82j7gqt2rafgdmlmwmqnn3hvcmdm09rjqcgrtxs",
    "bc1pdp43hj65vxw49rts6kcw35u6r6tgzguyr03vvveeewjqpn05efzq7un9w0",
];

/// Texts that are no addresses: of BIP-350, then of BIP-173, then of the Rust crate.
pub const NOT_ADDRESSES: [(&str, u32); 27] = [
    (
        "bc1p0xlxvlhemja6c4dqv22uapctqupfhlxm9h8z3k2e72q4k9hcz7vqh2y7hd",
        33,
    ),
    (
        "tb1z0xlxvlhemja6c4dqv22uapctqupfhlxm9h8z3k2e72q4k9hcz7vqglt7rf",
        33,
    ),
    (
        "BC1S0XLXVLHEMJA6C4DQV22UAPCTQUPFHLXM9H8Z3K2E72Q4K9HCZ7VQ54WELL",
        33,
    ),
    ("bc1qw508d6qejxtdg4y5r3zarvary0c5xw7kemeawh", 33),
    (
        "tb1q0xlxvlhemja6c4dqv22uapctqupfhlxm9h8z3k2e72q4k9hcz7vq24jc47",
        33,
    ),
    (
        "bc1p38j9r5y49hruaue7wxjce0updqjuyyx0kh56v8s25huc6995vvpql3jow4",
        21,
    ),
    (
        "BC130XLXVLHEMJA6C4DQV22UAPCTQUPFHLXM9H8Z3K2E72Q4K9HCZ7VQ7ZWS8R",
        43,
    ),
    ("bc1pw5dgrnzv", 46),
    (
        "bc1p0xlxvlhemja6c4dqv22uapctqupfhlxm9h8z3k2e72q4k9hcz7v8n0nx0muaewav253zgeav",
        47,
    ),
    ("BC1QR508D6QEJXTDG4Y5R3ZARVARYV98GJ9P", 48),
    (
        "tb1p0xlxvlhemja6c4dqv22uapctqupfhlxm9h8z3k2e72q4k9hcz7vq47Zagq",
        22,
    ),
    (
        "bc1p0xlxvlhemja6c4dqv22uapctqupfhlxm9h8z3k2e72q4k9hcz7v07qwwzcrf",
        44,
    ),
    (
        "tb1p0xlxvlhemja6c4dqv22uapctqupfhlxm9h8z3k2e72q4k9hcz7vpggkg4j",
        45,
    ),
    ("bc1gmk9yu", 33),
    ("bc1qw508d6qejxtdg4y5r3zarvary0c5xw7kv8f3t5", 33),
    ("BC13W508D6QEJXTDG4Y5R3ZARVARY0C5XW7KN40WF2", 43),
    // BIP-173 had the four that follow with other faults; their checksum is that of version 0 alone.
    ("bc1rw5uspcuh", 33),
    (
        "bc10w508d6qejxtdg4y5r3zarvary0c5xw7kw508d6qejxtdg4y5r3zarvary0c5xw7kw5rljs90",
        33,
    ),
    ("bc1zw508d6qejxtdg4y5r3zarvaryvqyzf3du", 33),
    (
        "bc1pw508d6qejxtdg4y5r3zarvary0c5xw7kw508d6qejxtdg4y5r3zarvary0c5xw7k7grplx",
        33,
    ),
    (
        "tb1qrp33g0q5c5txsp9arysrx4k6zdkfs4nce4xj0gdcccefvpysxf3q0sL5k7",
        22,
    ),
    (
        "tb1qrp33g0q5c5txsp9arysrx4k6zdkfs4nce4xj0gdcccefvpysxf3pjxtptv",
        45,
    ),
    (
        "anhrpthatistwentycha1pqyqszqgpqyqszqgpqyqszqgpqyqszqgpqyqszqgpqyqszqgpqyqszqgpqyqszqgqfrwjz",
        41,
    ),
    (
        "abcd143hj65vxw49rts6kcw35u6r6tgzguyr03vvveeewjqpn05efzq444444",
        43,
    ),
    ("abcd14g08d6qejxtdg4y5r3zarvary0c5xw7kxugcx9", 43),
    ("bc1", 42),
    ("bc1qqqqq", 32),
];

/// Human-readable parts (the Rust crate), and the number of the refusal where it is none.
pub const PARTS: [(&str, u32); 13] = [
    ("a", 0),
    ("A", 0),
    ("abcdefg", 0),
    ("ABCDEFG", 0),
    ("abc123def", 0),
    ("ABC123DEF", 0),
    ("!\"#$%&'()*+,-./", 0),
    ("1234567890", 0),
    ("has-capitals-aAbB", 15),
    ("has-value-out-of-range-\u{2208}\u{2208}\u{2208}", 13),
    (
        "toolongtoolongtoolongtoolongtoolongtoolongtoolongtoolongtoolongtoolongtoolongtoolongtoolongtoolong",
        12,
    ),
    ("has spaces in it", 14),
    ("", 11),
];

/// A mistyped text, its erasures, the correction (a location with the value to add, each), and the
/// mended text; no mended text stands for no correction (the Rust crate, by Bech32).
#[cfg(feature = "correct")]
pub type Mistyped = (
    &'static str,
    &'static [usize],
    &'static [(usize, u8)],
    Option<&'static str>,
);

#[cfg(feature = "correct")]
const MENDED: Option<&str> = Some("bc1qar0srrr7xfkvy5l643lydnw9re59gtzzwf5mdq");

/// The corrections of the Rust crate's tests.
#[cfg(feature = "correct")]
pub const CORRECTIONS: [Mistyped; 9] = [
    (
        "bc1qar0srrr7xfkvy5l643lydnw9re59gtzzwf5mdx",
        &[],
        &[(0, 6)],
        MENDED,
    ),
    (
        "bc1qar0srrr7xfkvy5l643lydnw9re59gtzzwf5mdx",
        &[0],
        &[(0, 6)],
        MENDED,
    ),
    (
        "bc1qar0srrr7xfkvy5l643lydnw9re59gtzfwf5mdq",
        &[],
        &[(6, 11)],
        MENDED,
    ),
    (
        "bc1qar0srrr7xfkvy5l643lydnw9re59gtzfwf5mdq",
        &[6],
        &[(6, 11)],
        MENDED,
    ),
    (
        "bc1qar0srrr7xfkvy5l64qlydnw9re59gtzzwf5mdq",
        &[],
        &[(20, 17)],
        MENDED,
    ),
    ("bc1qar0srrr7xfkvy5l64qlydnw9re59gtzzwf5mdx", &[], &[], None),
    (
        "bc1qar0srrr7xfkvy5l64qlydnw9re59gtzzwf5mdx",
        &[0],
        &[(0, 6), (20, 17)],
        MENDED,
    ),
    (
        "bc1qar0srrr7xfkvy5l64qlydnw9re59gtzzwf5mdx",
        &[0, 20],
        &[(0, 6), (20, 17)],
        MENDED,
    ),
    (
        "bc1q9r0srrr7xfkvy5l64qlydnw9re59gtzzwf5mdx",
        &[37, 0, 20],
        &[(37, 24), (0, 6), (20, 17)],
        MENDED,
    ),
];
