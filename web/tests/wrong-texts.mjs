// What people put in that is no right text, and the sentence that the page has for each: a name, the text, what is said,
// and the mended text where there is one.
const V0 = 'bc1qw508d6qejxtdg4y5r3zarvary0c5xw7kv8f3t4';
const TESTNET = 'tb1qw508d6qejxtdg4y5r3zarvary0c5xw7kxpjzsx';
const TAPROOT = 'bc1p0xlxvlhemja6c4dqv22uapctqupfhlxm9h8z3k2e72q4k9hcz7vqzk5jj0';
const STRING = 'ms10testsxxxxxxxxxxxxxxxxxxxxxxxxxx4nzvca9cmczlw';
// From Core Lightning's own tests: its bytes are those of a secret of BIP-93.
const LIGHTNING = 'cl10leetsllhdmn9m42vcsamx24zrxgs3qrl7ahwvhw4fnzrhve25gvezzyqqjdsjnzedu43ns';
const INVOICE = 'lnbc2500u1qqj55mu5h80qx2zdw2tmecgx9dg8tx4lusyju5mcnhpwwrp32ea6p302pu69jl4rerk3yd6usxnvhuq48f0cf2ww7vvr6c584nglvx6'
  + 'qvk92l48erepk3rdj6l7zz3ntjz6a4leyf9hf8wxaqgn5cuvkh0sq22j06n3j23';

const SILENT = 'sp1qqgste7k9hx0qftg6qmwlkqtwuy6cycyavzmzj85c6qdfhjdpdjtdgqjuexzk6murw56suy3e0rd2cgqvycxttddwsvgxe2usfpxumr70xc9pkqwv';
const NPUB = 'npub10elfcs4fr0l0r8af98jlmgdh9c8tcxjvz9qkw038js35mp4dma8qzvjptg', NSEC = 'nsec1vl029mgpspedva04g90vltkh6fvh240zqtv9k0t9af8935ke9laqsnlfe5';
const AGE = 'AGE-SECRET-KEY-1GFPYYSJZGFPYYSJZGFPYYSJZGFPYYSJZGFPYYSJZGFPYYSJZGFPQ4EGAEX';
const COSMOS = 'cosmos1vx8knpllrj7n963p9ttd80w47kpacrhuts497x', AVAX = 'avax1tqj4pf3t93p8r02dt26xmczery3uaxqaq0tpzq';
const LIQUID = 'lq1qqf8er278e6nyvuwtgf39e6ewvdcnjupn9a86rzpx655y5lhkt0walu3djf9cklkxd3ryld97hu8h3xepw7sh2rlu7q45dcew5';

const DESCRIPTOR = 'wpkh(02f9308a019258c31049344f85f89d5229b531c845836f99b08601f113bce036f9)#8zl0zxma';
const TESTNET_TAPROOT = 'tb1pqqqqp399et2xygdj5xreqhjjvcmzhxw4aywxecjdzew6hylgvsesf3hn0c';

const DATA = V0.slice(3);
const put = (text, ...changes) =>
  changes.reduce((it, [place, character]) => it.slice(0, place) + character + it.slice(place + 1), text);
const unread = (text) => new RegExp(`Character 11, “${text}”, is treated as unreadable\\. Letters and digits can stand there, but not 1, b, i or o\\.`);

// An address with a character missing, one doubled, or two neighbours swapped at a place, and what is said of it. Of a run of
// the same the last place is told.
const editsAt = (name, text, place, where) => {
  const { [place]: it, [place + 1]: next } = text, front = text.slice(0, place), behind = text.slice(place + 1);
  const end = place + /^(.)\1*/.exec(text.slice(place))[0].length - 1;
  const swapped = next === undefined || next === it ? [] : [['two swapped', front + next + it + behind.slice(1),
    `Two neighbours are swapped: characters ${place + 1} and ${place + 2} should be ${it}${next}, not ${next}${it}\\.`]];
  return [
    ['one missing', front + behind, `One character is missing: ${it}, as character ${end + 1}\\.`],
    ['one doubled', front + it + it + behind, `One character is too many: character ${end + 2}, ${it}\\.`], ...swapped,
  ].flatMap(([kind, typed, said]) => [typed, typed.toUpperCase()].map((one) =>
    [`${kind} ${where} of ${name}${one === typed ? '' : ' in upper case'}`, one, new RegExp(said, 'i'), one === typed ? text : text.toUpperCase()]));
};

const ADDRESSES = { 'an address': V0, 'one of the test network': TESTNET, 'a Taproot address': TAPROOT, 'one of the test network (Taproot)': TESTNET_TAPROOT };

// Of each address at the beginning, in the middle and at the end.
const EDITED = Object.entries(ADDRESSES).flatMap(([name, text]) => [
  ...editsAt(name, text, 3, 'at the beginning'), ...editsAt(name, text, 4, 'behind the beginning'), ...editsAt(name, text, 30, 'in the middle'),
  ...editsAt(name, text, text.length - 2, 'before the end'), ...editsAt(name, text, text.length - 1, 'at the end'),
]);

export const WRONG = [
  // Wrong characters.
  ['one wrong character', put(V0, [27, 't']), /Character 28 should be r, not t\.[^]*As typed, the checksum is wrong for both Bech32m and Bech32\./, V0],
  ['two wrong characters', put(V0, [11, 'q'], [20, 'q']), /Character 12 should be e, not q; character 21 should be r, not q\./, V0],
  ['a character that is not sure', put(V0, [27, '?']), /The unreadable character 28 is r\./, V0],
  ['three that are not sure', put(V0, [10, '?'], [20, '?'], [30, '?']), /The unreadable characters are restored: 11 is q, 21 is r and 31 is c\./, V0],
  ['one wrong beside two that are not sure', put(V0, [10, '?'], [20, '?'], [40, 'q']), /Character 41 should be t, not q\. The unreadable characters are restored: 11 is q and 21 is r\./, V0],
  // Beside this many that are not sure, one wrong character or two would be found too often by chance.
  ['one wrong beside three that are not sure', put(V0, [10, '?'], [20, '?'], [30, '?'], [40, 'q']), /^This address is wrong; do not use it\.[^]*No correction was found\.[^]*Three characters are unreadable\.[^]*Whatever the unreadable characters are, this is not a valid address\./, null],
  ['two wrong beside two that are not sure', put(V0, [10, '?'], [20, '?'], [30, 'q'], [40, 'q']), /No correction was found\.[^]*Whatever the unreadable characters are, no further change of one character makes it a valid address\./, null],
  ['two wrong beside one that is not sure', put(V0, [10, '?'], [30, 'q'], [40, 'q']), /No correction was found\.[^]*Whatever the unreadable character is, no further change of one character makes it a valid address\./, null],
  // One of each checksum: by either, no two are so near.
  ['two addresses that are near', 'bc1ppvc9275lcn5suv6c0k3v0mq3xedcpfw2au2rjh5r46xly9euvxrqf8e9l8', /Two addresses are close to this\. At most one of them is the one you want\./,
    'bc1ppvc9275lcn5s2v6c0k3v0yq3xedcpfw2au2rjh5r46xly9euvxrqf8e9l8'],
  ['three wrong characters', put(V0, [11, 'q'], [20, 'q'], [30, 'q']), /^This address is wrong; do not use it\.[^]*No correction was found\.[^]*No change of one or two characters makes it a valid address\.[^]*Write \? for each character that you are not sure of\. Then more can be restored\./, null],
  ['four that cannot be read', `${V0.slice(0, 30)}????${V0.slice(34)}`, /No correction was found\.[^]*Four characters are unreadable\.[^]*At most three unreadable characters can be restored\./, null],
  ['letters of both cases', `B${V0.slice(1)}`, /Upper-case and lower-case letters are mixed\. In lower case the text is valid\.[^]*In lower case it is a valid Bitcoin address\./, V0],

  // A character missing, one too many, and two that were swapped.
  ...EDITED,
  ...[['an address', V0], ['one of the test network', TESTNET], ['a Taproot address', TAPROOT], ['an address in upper case', V0.toUpperCase()]].flatMap(([name, text]) => [
    [`a 1 doubled of ${name}`, `${text.slice(0, 3)}1${text.slice(3)}`, /One character is too many: character 4, 1\./, text],
    [`the 1 swapped with the next one of ${name}`, `${text.slice(0, 2)}${text[3]}1${text.slice(4)}`, /Two neighbours are swapped: characters 3 and 4 should be 1[qpQ], not [qpQ]1\./, text],
    [`a sign too many of ${name}`, `${text.slice(0, 20)}-${text.slice(20)}`, /One character is too many: character 21, “-”\./, text],
  ]),
  ['one missing of an address, by its length', V0.slice(0, 20) + V0.slice(21), /One character is missing: r, as character 21\.[^]*41 characters\. An address of version 0 has 42 or 62\./, V0],
  ['one too many, which is no double', `${V0.slice(0, 20)}8${V0.slice(20)}`, /One character is too many: character 21, 8\.[^]*43 characters\. An address of version 0 has 42 or 62\./, V0],
  ['one missing between spaces', (V0.slice(0, 20) + V0.slice(21)).replace(/(....)/g, '$1 '), /One character is missing: r, as character 21\.[^]*The spaces in it were left out\./, V0],
  ['one missing in letters of both cases', `B${V0.slice(1, 20)}${V0.slice(21)}`, /One character is missing: r, as character 21\.[^]*Upper-case and lower-case letters are mixed/, V0],
  ['one missing of an invoice', INVOICE.slice(0, 40) + INVOICE.slice(41), /One character is missing: 4, as character 41\.[^]*It is a Lightning invoice/, INVOICE],
  ['a missing q before the last p', 'bc1qpvqqwpc8qurswpc8qurswpc8qurswpc86ndzp', /One character is missing: q, as character 41\.[^]*Bech32 accepts a text that ends in “p” with any number of “q” before that “p”\. Check the end of this one twice\.[^]*As typed, it has a right Bech32 checksum, but it is not a valid address/, 'bc1qpvqqwpc8qurswpc8qurswpc8qurswpc86ndzqp'],
  ['two missing', V0.slice(0, 20) + V0.slice(22), /40 characters so far\. [^]*If this is all of it, two characters are missing\./, null],

  // Characters that look like others.
  ...['o', 'O', 'i', 'I', 'b', 'B', '1'].map((it) => [`an ${it} in the data`, put(V0, [10, it]), unread(it), V0]),
  ['an l among upper-case letters', put(V0.toUpperCase(), [20, 'l']), /Character 21, “l”, is treated as unreadable\. An “l” among upper-case letters may be another character\./, V0.toUpperCase()],
  ['three that look like others', put(V0, [3, 'o'], [7, 'I'], [10, 'b']), /Three characters are treated as unreadable: character 4, “o”; character 8, “I”; character 11, “b”\./, V0],

  // The beginning.
  ['bcl', `bcl${DATA}`, /The beginning should be bc1, not bcl\./, V0],
  ['bcI', `bcI${DATA}`, /The beginning should be bc1, not bcI\./, V0],
  ['bc0', `bc0${DATA}`, /The beginning should be bc1, not bc0\./, V0],
  ['bv1', `bv1${DATA}`, /The beginning should be bc1, not bv1\./, V0],
  ['a missing bc1', DATA, /The beginning bc1 is missing\./, V0],
  ['a missing b', V0.slice(1), /The beginning should be bc1, not c1\./, V0],
  ['a missing 1', `bc${DATA}`, /The beginning should be bc1, not bc\./, V0],
  ['a swapped beginning', `cb1${DATA}`, /The beginning should be bc1, not cb1\./, V0],
  ['BCL in upper case', `BCL${DATA.toUpperCase()}`, /The beginning should be BC1, not BCL\./, V0.toUpperCase()],
  ['bcl and one wrong character', `bcl${put(DATA, [20, 'q'])}`, /The beginning should be bc1, not bcl\. Character 24 should be a, not q\./, V0],
  ['bcl and an o', `bcl${put(DATA, [20, 'o'])}`, /The beginning should be bc1, not bcl\. Character 24 should be a, not o\.[^]*Character 24, “o”, is treated as unreadable/, V0],
  ['a missing bc1 and one wrong character', put(DATA, [20, 'q']), /The beginning bc1 is missing\. Character 24 should be a, not q/, V0],
  ['tbl', `tbl${TESTNET.slice(3)}`, /The beginning should be tb1, not tbl\./, TESTNET],
  ['rns1', `rns1${STRING.slice(3)}`, /The beginning should be ms1, not rns1\.[^]*whoever sees this string has the secret/, STRING],
  ['msl', `msl${STRING.slice(3)}`, /The beginning should be ms1, not msl\./, STRING],
  ['bv1 that nothing mends', `bv1${put(DATA, [8, 'q'], [17, 'q'], [27, 'q'])}`, /^This page does not know texts that begin with “bv1”, so it cannot judge this one\.[^]*Neither Bech32m nor Bech32 accepts it\.[^]*It begins with “bv1”\. Bitcoin addresses begin with “bc1”, “tb1” or “bcrt1”\./, null],

  // Lengths.
  ['two characters less', V0.slice(0, -2), /40 characters so far\. An address of version 0 has 42 or 62\.[^]*If this is all of it, two characters are missing\./, null],
  ['the front of an address', V0.slice(0, 20), /20 characters so far\. An address of version 0 has 42 or 62\./, null],
  ['two characters more', `${V0.slice(0, 20)}rr${V0.slice(20, 30)}q${V0.slice(30)}`.slice(0, 44), /^This address is wrong; do not use it\.[^]*44 characters\. An address of version 0 has 42 or 62\.[^]*Two characters may be too many\.[^]*Nor does leaving one out, adding one, or swapping two\./, null],
  ['a shorter Taproot address', TAPROOT.slice(0, -2), /60 characters so far\. A Taproot address \(version 1\) has 62\.[^]*two characters are missing/, null],
  ['a Taproot address with two that are not sure, not all of it', put(TAPROOT, [10, '?'], [20, '?']).slice(0, 50), /50 characters so far\. A Taproot address \(version 1\) has 62\.[^]*Two characters are unreadable\.[^]*Whatever the unreadable characters are, this is not a valid address\./, null],
  ['bc', 'bc', /An address or a codex32 string begins like this\./, null],

  // What is no Bech32 text.
  ['an address that begins with 1', '1BvBMSEYstWetqTFn5Au4m4GFg7xJaNVN2', /This looks like an older kind of Bitcoin address, which begins with 1\.[^]*It has a checksum of its own\. This page does not read it/, null],
  ['an address that begins with 3', '3J98t1WpEZ73CNmQviecrnyiWrnqRhWNLy', /This looks like an older kind of Bitcoin address, which begins with 3\./, null],
  ['0x', '0xde0B295669a9FD93d5F28D9Ec85E40f4cb697BAe', /This begins with “0x”, like an Ethereum address or another number in base 16\./, null],
  ['xpub', 'xpub661MyMwAqRbcFtXgS5sYJABqqG9YLmC4Q1Rdap9gSE8NqtwybGhePY2gZ29ESFjqJoCu1Rupje8YtGqsefD265TMg7usUDFdp6W1EGMcet8', /This is an extended public key \(xpub\), not an address\./, null],
  ['xprv', 'xprv9s21ZrQH143K3QTDL4LXw2F7HEK3wJUD2nW2nRk4stbPy6cq3jPPqjiChkVvvNKmPGJxWUtg6LnF5kejMRNNU3TGtRBeJgk33yuGBxrMPHi', /This is an extended private key \(xprv\)\. Do not type it into any page\.[^]*Clear the field now/, null],
  ['a private key', 'L1aW4aubDFB7yfras2S1mN3bqg9nwySY8nkoLmJebSLD5BWv3ENZ', /This looks like a private key\. Do not type it into any page\.[^]*Clear the field now/, null],
  ['seed words', 'abandon ability able about above absent absorb abstract absurd abuse access accident', /These look like seed words\. Do not type them into any page\.[^]*Clear the field now[^]*by their looks alone/, null],
  ['numbered seed words', '1. abandon\n2. ability\n3. able\n4. about', /These look like seed words\./, null],
  ['an invoice', put(INVOICE, [40, 'q']), /Character 41 should be 4, not q\.[^]*the Bech32 checksum is right\.[^]*It is a Lightning invoice\.[^]*but not its amount or its signature[^]*As typed, the Bech32 checksum is wrong/, INVOICE],
  ['an invoice that nothing mends', put(INVOICE, [40, 'q'], [60, 'q'], [80, 'q'], [100, 'q']), /^This text is wrong; do not use it\.[^]*No correction was found\.[^]*As typed, the Bech32 checksum is wrong[^]*It begins like a Lightning invoice/, null],
  ['a link with an amount', `bitcoin:${put(V0, [27, 't'])}?amount=0.5&label=For lunch`, /Character 28 should be r, not t[^]*The “bitcoin:” before it was left out\. The link also has other parts, such as an amount or a label\. They are not read here\./, V0],
  ['an amount without a scheme', `${put(V0, [27, 't'])}?amount=0.5`, /Character 28 should be r, not t[^]*What follows the “\?” was left out, since it is not part of the address/, V0],
  ['quotes around it', `“${put(V0, [27, 't'])}”`, /Character 28 should be r, not t[^]*The quotes or punctuation around it were left out\./, V0],
  ['spaces within it', put(V0, [27, 't']).replace(/(....)/g, '$1 '), /Character 28 should be r, not t[^]*The spaces in it were left out\./, V0],
  ['two addresses', `${V0}\n${TESTNET}`, /Two addresses stand here, and this page reads one at a time\./, null],
  ['two addresses without a space', V0 + TAPROOT, /Two addresses stand here/, null],
  ['two addresses in groups', `${V0} ${TAPROOT}`.replace(/(\S{4})/g, '$1 '), /Two addresses stand here/, null],
  ['one address twice', `${V0}, ${V0}`, /The same text stands here more than once\./, null],
  ['an address and a codex32 string', `${V0} ${STRING}`, /Two texts stand here, and this page reads one at a time\./, null],

  // What the page cannot test, with a mistake or none, and near to it.
  ['an offer with a character that cannot be there', 'lno1pqps7sjqpgtyzm3qb4uxzmtsd3jjqer9wd3hy6tsw35k7msj', /begins like a Lightning offer \(BOLT12\), which has no checksum\.[^]*Character 21, “b”, cannot be part of it\./, null],
  ['an offer with a wrong beginning', 'ln01pqps7sjqpgtyzm3qv4uxzmtsd3jjqer9wd3hy6tsw35k7msj', /does not know texts that begin with “ln01”, so it cannot judge this one/, null],
  ['an offer with an l for its 1', 'lnolpqps7sjqpgtyzm3qv4uxzmtsd3jjqer9wd3hy6tsw35k7msj', /^This does not look like a Bech32 text, so this page cannot judge it\./, null],
  ['a Liquid address with a wrong character', put(LIQUID, [20, 'q']), /Character 21 should be g, not q[^]*As typed, the Blech32 checksum is wrong\./, LIQUID],
  ['a Liquid address with three', put(LIQUID, [10, 'q'], [50, '3'], [90, 'y']), /Character 11 should be 7, not q; character 51 should be h, not 3; character 91 should be l, not y\./, LIQUID],
  ['a Liquid address with four', put(LIQUID, [10, 'q'], [50, '3'], [70, 'q'], [90, 'y']), /^This address is wrong; do not use it\.[^]*No correction was found\.[^]*More than three characters are wrong/, null],
  ['a Liquid address with unreadable characters', put(LIQUID, [5, '?'], [17, '?'], [29, '?'], [41, '?'], [53, '?'], [65, '?']), /Six unreadable characters are restored\./, LIQUID],
  ['a Liquid address of another version', put(LIQUID, [3, 'p']), /begins like a confidential Liquid address of another version than 0/, null],
  ['a Liquid address with a wrong beginning', `lg1${LIQUID.slice(3)}`, /does not know texts that begin with “lg1”/, null],
  ['a descriptor with a wrong character', 'wpkh(02f9308a019258c31049344f85f89d5229b531c845836f99b08601f113bce036f8)#8zl0zxma', /Character 71 should be 9, not 8[^]*As typed, its checksum is wrong\./, DESCRIPTOR],
  ['a descriptor with two', put(DESCRIPTOR, [10, 'x'], [75, 'q']), /^This descriptor is wrong; do not use it\.[^]*No correction was found\.[^]*As typed, its checksum is wrong\.[^]*No change of one character makes it right\./, null],
  ['a descriptor with a character missing', DESCRIPTOR.slice(0, 20) + DESCRIPTOR.slice(21), /One character is missing: [0-9a-f], as character 2[0-9]\./, DESCRIPTOR],
  ['a descriptor with a letter in the other case', put(DESCRIPTOR, [0, 'W']), /Character 1 should be w, not W\./, DESCRIPTOR],
  ['a descriptor without a checksum', DESCRIPTOR.slice(0, -9), /This looks like a descriptor[^]*It does not end in “#” and a checksum[^]*its checksum is “#8zl0zxma”/, null],
  ['a descriptor with many wrong characters', put(DESCRIPTOR, [10, 'x'], [20, 'x'], [30, 'x'], [40, 'x']), /No correction was found\.[^]*As typed, its checksum is wrong\./, null],
  ['CashAddr with a wrong character', 'bitcoincash:qpm2qsznhks23z7629mms6s4cwef74vcwvy22gdx6q', /begins like a Bitcoin Cash address \(“bitcoincash:”\)\.[^]*can neither test nor correct this/, null],
  ['a code that is not known', 'bitcoincsh:qpm2qsznhks23z7629mms6s4cwef74vcwvy22gdx6a', /begins with “bitcoincsh:”, which this page does not know/, null],
  ['a text of an unknown part', 'abcd1qqqqqqqqqqqqqqqqqqqqqq', /^This page does not know texts that begin with “abcd1”, so it cannot judge this one\.[^]*It may have another checksum, or none, or it may be mistyped\./, null],

  ...[['words with a question mark', 'Hello, is this thing on?'], ['a word', 'abc'], ['data without a separator', 'qpzry'], ['a text with brackets', 'print(x)#12345678']].map(([name, typed]) =>
    [name, typed, /^This does not look like a Bech32 text, so this page cannot judge it\.\s*$/, null]),

  // Core Lightning's secrets.
  ['a secret of Core Lightning', put(LIGHTNING, [10, 'q'], [30, '?'], [72, '?']), /Character 11 should be l, not q\. The unreadable characters are restored: 31 is g and 73 is n\.[^]*whoever sees this string has the secret[^]*With these changes it is a valid codex32 string\.[^]*Its beginning “cl” is that of Core Lightning/, LIGHTNING],
  ['a secret of Core Lightning in upper case', put(LIGHTNING, [64, 'q'], [73, 'q']).toUpperCase(), /Character 65 should be J, not Q; character 74 should be S, not Q\./, LIGHTNING.toUpperCase()],
  ['the front of one', LIGHTNING.slice(0, 72), /^This begins like a Core Lightning secret: 72 characters so far, of 74\.[^]*whoever sees this string has the secret[^]*If this is all of it, two characters are missing\./, null],
  ['one that is too long', `${LIGHTNING}q`, /^This string is wrong; do not use it\.[^]*whoever sees this string has the secret[^]*It has 75 characters, and a Core Lightning secret has 74\.[^]*One character may be too many\./, null],
  ['one that nothing mends', put(LIGHTNING, ...[10, 20, 30, 40, 50].map((at) => [at, 'q'])), /^This string is wrong; do not use it\.[^]*No correction was found\.[^]*As typed, the codex32 checksum is wrong\./, null],

  // Known kinds with one wrong character.
  ['a silent payment address', put(SILENT, [60, 'q']), /Character 61 should be [a-z0-9], not q\.[^]*With this change the Bech32m checksum is right\.[^]*It is a silent payment address\.[^]*As typed, the Bech32m checksum is wrong\./, SILENT],
  ['a nostr public key', put(NPUB, [40, 'q']), /With this change the Bech32 checksum is right\.[^]*It is a nostr public key\./, NPUB],
  ['a nostr public key in upper case', put(NPUB, [40, 'q']).toUpperCase(), /It is a nostr public key\./, NPUB.toUpperCase()],
  ['a 1 in a nostr public key', put(NPUB, [40, '1']), /Character 41, “1”, is treated as unreadable/, NPUB],
  ['a nostr private key', put(NSEC, [40, 'q']), /Clear the field now[^]*It is a nostr private key\./, NSEC],
  ['an age private key', put(AGE, [40, 'Q']), /Clear the field now[^]*It is an age private key\./, AGE],
  ['a Cosmos address', put(COSMOS, [20, 'q']), /It is a Cosmos address\./, COSMOS],
  ['an Avalanche address', `X-${put(AVAX, [20, 'q'])}`, /It is an Avalanche address\.[^]*The “X-” before it names a chain of Avalanche/, AVAX],
  ['a link with a silent payment address', `BITCOIN:?SP=${put(SILENT, [60, 'q']).toUpperCase()}`, /It is a silent payment address\.[^]*The “BITCOIN:” before it was left out\. It was taken from the part “sp=” of the link\./, SILENT.toUpperCase()],
];
