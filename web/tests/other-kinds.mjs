// Right texts of kinds that are not Bech32, made here by the published form of each: base 58 with the checksums of Bitcoin, of the
// XRP Ledger, of Monero and of Substrate, base 32 of Stellar, Nano and TON, numbers in base 16, PSBTs, mail. No answer of the
// page went into them.
import { createHash } from 'node:crypto';

const BITCOIN = '123456789ABCDEFGHJKLMNPQRSTUVWXYZabcdefghijkmnopqrstuvwxyz';
const RIPPLE = 'rpshnaf39wBUDNEGHJKLM4PQRST7VWXYZ2bcdeCg65jkm8oFqi1tuvAxyz';

const sha256 = (bytes) => createHash('sha256').update(Uint8Array.from(bytes)).digest();
const numberOf = (bytes) => BigInt(`0x${Buffer.from(bytes).toString('hex') || '0'}`);

/** Bytes in base 58: zero bytes at the front are the first character of the alphabet. */
export const base58 = (bytes, alphabet = BITCOIN) => {
  let text = '';
  for (let number = numberOf(bytes); number > 0n; number /= 58n) text = alphabet[Number(number % 58n)] + text;
  const first = bytes.findIndex((it) => it !== 0);
  return alphabet[0].repeat(first < 0 ? bytes.length : first) + text;
};

/** The same with the first four bytes of a double SHA-256 behind them, as Bitcoin has it. */
export const base58check = (bytes, alphabet = BITCOIN) => base58([...bytes, ...sha256(sha256(bytes)).subarray(0, 4)], alphabet);
export const ripple = (bytes) => base58check(bytes, RIPPLE);

// ---- Monero: Keccak-256, and base 58 in blocks of eight bytes

const MASK = (1n << 64n) - 1n;
const rotated = (word, by) => (by === 0n ? word : (word << by | word >> 64n - by) & MASK);

const ROUNDS = (() => {
  const constants = [];
  let state = 1;
  const bit = () => {
    const out = state & 1;
    state = state & 0x80 ? state << 1 ^ 0x171 : state << 1;
    return out;
  };
  for (let round = 0; round < 24; round++) {
    let constant = 0n;
    for (let j = 0; j < 7; j++) if (bit()) constant |= 1n << BigInt(2 ** j - 1);
    constants.push(constant);
  }
  return constants;
})();

const keccakRound = (lanes, constant) => {
  const columns = [0, 1, 2, 3, 4].map((x) => lanes[x] ^ lanes[x + 5] ^ lanes[x + 10] ^ lanes[x + 15] ^ lanes[x + 20]);
  const mixed = lanes.map((lane, i) => lane ^ columns[(i + 4) % 5] ^ rotated(columns[(i + 1) % 5], 1n)), moved = Array(25);
  let x = 1, y = 0, current = mixed[1];
  moved[0] = mixed[0];
  for (let t = 0; t < 24; t++) {
    [x, y] = [y, (2 * x + 3 * y) % 5];
    const next = mixed[x + 5 * y];
    moved[x + 5 * y] = rotated(current, BigInt((t + 1) * (t + 2) / 2 % 64));
    current = next;
  }
  const at = (i, by) => moved[5 * Math.floor(i / 5) + (i + by) % 5];
  return moved.map((lane, i) => (lane ^ (~at(i, 1) & MASK & at(i, 2))) ^ (i === 0 ? constant : 0n));
};

/** Keccak-256 as it was before it became SHA-3, of less than 136 bytes. */
export const keccak256 = (bytes) => {
  const block = Buffer.alloc(136), lanes = Array(25).fill(0n);
  block.set(bytes);
  block[bytes.length] ^= 1;
  block[135] ^= 128;
  for (let i = 0; i < 17; i++) lanes[i] = block.readBigUInt64LE(8 * i);
  const mixed = ROUNDS.reduce(keccakRound, lanes), out = Buffer.alloc(32);
  for (let i = 0; i < 4; i++) out.writeBigUInt64LE(mixed[i], 8 * i);
  return out;
};

const BLOCK_SIZES = [0, 2, 3, 5, 6, 7, 9, 10, 11];

/** A Monero address of its network byte and what follows. */
export const monero = (bytes) => {
  const all = [...bytes, ...keccak256(Uint8Array.from(bytes)).subarray(0, 4)], blocks = [];
  for (let at = 0; at < all.length; at += 8) blocks.push(all.slice(at, at + 8));
  const inBase = (block) => {
    let text = '';
    for (let number = numberOf(block); number > 0n; number /= 58n) text = BITCOIN[Number(number % 58n)] + text;
    return text.padStart(BLOCK_SIZES[block.length], '1');
  };
  return blocks.map(inBase).join('');
};

// ---- Substrate, Stellar and TON

/** An address of Polkadot and of networks like it (SS58), of a network below 64. */
export const substrate = (network, key) => {
  const hash = createHash('blake2b512').update(Buffer.concat([Buffer.from('SS58PRE'), Buffer.from([network, ...key])])).digest();
  return base58([network, ...key, ...hash.subarray(0, 2)]);
};

const crc16 = (bytes) => bytes.reduce((sum, byte) => {
  let next = sum ^ byte << 8;
  for (let bit = 0; bit < 8; bit++) next = next & 0x8000 ? next << 1 ^ 0x1021 : next << 1;
  return next & 0xffff;
}, 0);

const bitsOf = (bytes) => Array.from(bytes, (byte) => byte.toString(2).padStart(8, '0')).join('');
const inBits = (bits, alphabet, size) => bits.match(new RegExp(`.{1,${size}}`, 'g')).map((it) => alphabet[parseInt(it.padEnd(size, '0'), 2)]).join('');

/** A text of Stellar: a version byte, 6 << 3 for an account and 18 << 3 for its secret, and a key. */
export const stellar = (version, key) => {
  const bytes = [version, ...key], sum = crc16(bytes);
  return inBits(bitsOf([...bytes, sum & 255, sum >> 8]), 'ABCDEFGHIJKLMNOPQRSTUVWXYZ234567', 5);
};

/** A friendly address of TON. */
export const ton = (tag, workchain, hash) => {
  const bytes = [tag, workchain, ...hash], sum = crc16(bytes);
  return Buffer.from([...bytes, sum >> 8, sum & 255]).toString('base64url');
};

// ---- Nano: BLAKE2b with five bytes

const IV = [0x6a09e667f3bcc908n, 0xbb67ae8584caa73bn, 0x3c6ef372fe94f82bn, 0xa54ff53a5f1d36f1n, 0x510e527fade682d1n, 0x9b05688c2b3e6c1fn, 0x1f83d9abfb41bd6bn, 0x5be0cd19137e2179n];
const SIGMA = ['0123456789abcdef', 'ea489fd61c02b753', 'b8c052fdae367194', '7931dcbe265a40f8', '9057fe2c8d4b163a', '2c6a0b834d75fe19', 'c51fed4a0763928b', 'db7ec13950f4862a', '6fe9b308c2d714a5', 'a2847615fb9e3cd0']
  .map((row) => Array.from(row, (digit) => parseInt(digit, 16)));
const QUARTERS = [[0, 4, 8, 12], [1, 5, 9, 13], [2, 6, 10, 14], [3, 7, 11, 15], [0, 5, 10, 15], [1, 6, 11, 12], [2, 7, 8, 13], [3, 4, 9, 14]];

const blake2Round = (words, row) => (state) => {
  QUARTERS.forEach(([a, b, c, d], i) => {
    const mix = (word, by1, by2) => {
      state[a] = state[a] + state[b] + word & MASK;
      state[d] = rotated(state[d] ^ state[a], 64n - by1);
      state[c] = state[c] + state[d] & MASK;
      state[b] = rotated(state[b] ^ state[c], 64n - by2);
    };
    mix(words[row[2 * i]], 32n, 24n);
    mix(words[row[2 * i + 1]], 16n, 63n);
  });
  return state;
};

/** BLAKE2b of at most 128 bytes, with a digest of `size` bytes. */
export const blake2b = (bytes, size) => {
  const block = Buffer.alloc(128), out = Buffer.alloc(64);
  block.set(bytes);
  const words = Array.from({ length: 16 }, (_, i) => block.readBigUInt64LE(8 * i));
  const first = IV.map((word, i) => (i === 0 ? word ^ 0x01010000n ^ BigInt(size) : word));
  const start = [...first, ...IV.map((word, i) => (i === 4 ? word ^ BigInt(bytes.length) : i === 6 ? ~word & MASK : word))];
  const state = Array.from({ length: 12 }, (_, i) => SIGMA[i % 10]).reduce((it, row) => blake2Round(words, row)(it), start);
  first.forEach((word, i) => out.writeBigUInt64LE(word ^ state[i] ^ state[i + 8], 8 * i));
  return out.subarray(0, size);
};

/** A Nano address of a key. */
export const nano = (key, start = 'nano_') => {
  const alphabet = '13456789abcdefghijkmnopqrstuwxyz', sum = blake2b(key, 5).reverse();
  return start + inBits(`0000${bitsOf(key)}`, alphabet, 5) + inBits(bitsOf(sum), alphabet, 5);
};

// ---- secrets of coins

/** The mini key of a Casascius coin: 22, 26 or 30 characters of which a hash with a question mark begins with a zero byte. */
export const miniKey = (below, size) => {
  for (;;) {
    const text = `S${Array.from({ length: size - 1 }, () => BITCOIN[below(58)]).join('')}`;
    if (sha256(Buffer.from(`${text}?`))[0] === 0) return text;
  }
};

// ---- kinds

const random = (below, length) => Array.from({ length }, () => below(256));
const hex = (below, length) => Buffer.from(random(below, length)).toString('hex');
const from = (below, list) => list[below(list.length)];
const text = (below, characters, length) => Array.from({ length }, () => characters[below(characters.length)]).join('');
const LOWER = 'abcdefghijklmnopqrstuvwxyz', DIGITS = '0123456789', WORDS = 'lightning wallet hello satoshi coffee market river stone blue thanks this is a note for you on pay'.split(' ');

// What base-58 texts with the double SHA-256 begin with, as the chains' parameters have it, and how many bytes follow.
const checked = (start, size = 20, make = base58check) => (below) => make([...start, ...random(below, size)]);
const crc32 = (bytes) => ~bytes.reduce((sum, byte) => {
  let next = sum ^ byte;
  for (let bit = 0; bit < 8; bit++) next = next & 1 ? next >>> 1 ^ 0xedb88320 : next >>> 1;
  return next;
}, -1) >>> 0;
const byron = (below) => {
  const payload = [0x83, 0x58, 28, ...random(below, 28), 0xa0, 0], sum = Buffer.alloc(4);
  sum.writeUInt32BE(crc32(payload));
  return base58([0x82, 0xd8, 0x18, 0x58, payload.length, ...payload, 0x1a, ...sum]);
};
const ergo = (below) => {
  const bytes = [1, 2 + below(2), ...random(below, 32)];
  return base58([...bytes, ...blake2b(bytes, 32).subarray(0, 4)]);
};
const psbt = (least, most) => (below) => Buffer.from([0x70, 0x73, 0x62, 0x74, 0xff, 1, 0, ...random(below, least + below(most - least))]);
const mail = (start) => (below) => `${start(below)}${text(below, LOWER + DIGITS, 3 + below(9))}@${text(below, LOWER, 4 + below(8))}.${from(below, ['com', 'org', 'net', 'example', 'co.uk'])}`;
const nothing = () => '';

// The beginnings of texts that the page knows, before texts that are of other kinds.
const BEGINNINGS = ['bc1', 'tb1', 'ms1', 'cl1', 'u1', 'sp1', 'zs1', 'ex1', 'one1', 'age1', 'lq1', 'note1', 'ltc1', 'npub1'];
const begun = (below) => from(below, BEGINNINGS);

const looks = (what) => new RegExp(`^This looks like ${what}`), ANY = /./;
const OTHER = 'other', WARNING = 'warning', LEGACY = (coin) => looks(`an older kind of ${coin} address`);

/** Kinds of right texts that the page knows by their form, or not at all. */
export const OTHER_KINDS = [
  ['Dogecoin addresses', checked([30]), OTHER, looks('a Dogecoin address')], ['Dogecoin script addresses', checked([22]), OTHER, looks('a Dogecoin address')],
  ['Litecoin addresses with L', checked([48]), OTHER, LEGACY('Litecoin')], ['Litecoin addresses with M', checked([50]), OTHER, LEGACY('Litecoin')],
  ['Dash addresses', checked([76]), OTHER, looks('a Dash address')], ['Dash script addresses', checked([16]), OTHER, looks('a Dash address')],
  ['older testnet addresses', checked([111]), OTHER, LEGACY('Bitcoin testnet')], ['older testnet script addresses', checked([196]), OTHER, LEGACY('Bitcoin testnet')],
  ['transparent Zcash addresses', checked([0x1c, 0xb8]), OTHER, looks('a transparent Zcash address')], ['transparent Zcash script addresses', checked([0x1c, 0xbd]), OTHER, looks('a transparent Zcash address')],
  ['XRP addresses', checked([0], 20, ripple), OTHER, looks('an XRP Ledger address')], ['XRP X-addresses', (below) => ripple([5, 0x44, ...random(below, 20), 0, ...Array(8).fill(0)]), OTHER, looks('an XRP Ledger X-address')],
  ['XRP secrets', checked([33], 16, ripple), WARNING, looks('the secret of an XRP Ledger account')], ['XRP secrets of Ed25519', checked([1, 0xe1, 0x4b], 16, ripple), WARNING, looks('the secret of an XRP Ledger account')],
  ['Tron addresses', checked([65]), OTHER, looks('a Tron address')], ['Tezos addresses', checked([6, 161, 159]), OTHER, looks('a Tezos address')], ['Tezos contracts', checked([2, 90, 121]), OTHER, looks('a Tezos address')],
  ['Solana addresses', (below) => base58(random(below, 32)), OTHER, looks('a Solana address, or another text in base 58')], ['Solana signatures', (below) => base58(random(below, 64)), OTHER, looks('a signature or a private key of Solana')],
  ['Monero addresses', (below) => monero([18, ...random(below, 64)]), OTHER, looks('a Monero address')], ['Monero subaddresses', (below) => monero([42, ...random(below, 64)]), OTHER, looks('a Monero address')],
  ['integrated Monero addresses', (below) => monero([19, ...random(below, 72)]), OTHER, looks('a Monero address')],
  ['Stellar addresses', (below) => stellar(48, random(below, 32)), OTHER, looks('a Stellar address')], ['muxed Stellar addresses', (below) => stellar(96, random(below, 40)), OTHER, looks('a Stellar address')],
  ['Stellar secrets', (below) => stellar(144, random(below, 32)), WARNING, looks('the secret of a Stellar account')],
  ['Nano addresses', (below) => nano(random(below, 32)), OTHER, looks('a Nano address')], ['Nano addresses with xrb', (below) => nano(random(below, 32), 'xrb_'), OTHER, looks('a Nano address')],
  ['Polkadot addresses', (below) => substrate(0, random(below, 32)), OTHER, looks('a Polkadot address')], ['Kusama addresses', (below) => substrate(2, random(below, 32)), OTHER, looks('a Polkadot address')],
  ['Substrate addresses', (below) => substrate(42, random(below, 32)), OTHER, looks('a Polkadot address')], ['TON addresses', (below) => ton(from(below, [0x11, 0x51]), 0, random(below, 32)), OTHER, looks('a TON address')],
  ['Cardano addresses of the Byron era', byron, OTHER, looks('a Cardano address of the Byron era')], ['Ergo addresses', ergo, OTHER, looks('a text in base 58')],
  ['IPFS identifiers', (below) => base58([0x12, 0x20, ...random(below, 32)]), OTHER, looks('a')], ['IPFS identifiers in base 32', (below) => `b${text(below, `${LOWER}234567`, 58)}`, OTHER, ANY],
  ['private keys of Dogecoin', checked([158], 33, (it) => base58check([...it.slice(0, -1), 1])), WARNING, looks('a private key')], ['private keys of Litecoin', checked([176], 32), WARNING, looks('a private key')],
  ['private keys of Dash', checked([204], 32), WARNING, looks('a private key')], ['uncompressed private keys', checked([128], 32), WARNING, looks('a private key')], ['private keys of the test network', checked([239], 32), WARNING, looks('a private key')],
  ['mini keys of Casascius coins', (below) => miniKey(below, from(below, [22, 26, 30])), WARNING, looks('the private key of a Casascius coin')],

  ['numbers of transactions', (below) => hex(below, 32), OTHER, looks('a transaction id')], ['outputs of transactions', (below) => `${hex(below, 32)}:${below(20)}`, OTHER, looks('a transaction id')],
  ['numbers of transactions in upper case', (below) => hex(below, 32).toUpperCase(), OTHER, looks('a transaction id')], ['numbers of transactions that begin like an address', (below) => `bc1${hex(below, 32).slice(3)}`, OTHER, looks('a transaction id')],
  ['public keys', (below) => `0${2 + below(2)}${hex(below, 32)}`, OTHER, looks('a public key')], ['uncompressed public keys', (below) => `04${hex(below, 64)}`, OTHER, looks('a public key')],
  ['Lightning nodes', (below) => `0${2 + below(2)}${hex(below, 32)}@${below(256)}.${below(256)}.1.1:9735`, OTHER, looks('a public key')],
  ['PSBTs', (below) => psbt(80, 900)(below).toString('base64'), OTHER, looks('a partially signed transaction')], ['PSBTs in base 16', (below) => psbt(80, 900)(below).toString('hex'), OTHER, looks('a partially signed transaction')],
  ['long PSBTs', (below) => psbt(6200, 9000)(below).toString('base64'), OTHER, /^This has [0-9,]+ characters, which is more than this page reads/],
  ['transactions', (below) => `0${1 + below(2)}000000${hex(below, 80 + below(300))}`, OTHER, looks('a number in base 16')], ['hashes of 20 bytes', (below) => hex(below, 20), OTHER, looks('a number in base 16')],
  ['signatures of messages', (below) => Buffer.from([31 + below(8), ...random(below, 64)]).toString('base64'), OTHER, ANY], ['UUIDs', (below) => hex(below, 16).replace(/(.{8})(.{4})(.{4})(.{4})(.{12})/, '$1-$2-$3-$4-$5'), OTHER, looks('an identifier')],
  ['UUIDs that begin like an address', (below) => `bc1${hex(below, 16).slice(3)}`.replace(/(.{8})(.{4})(.{4})(.{4})(.{12})/, '$1-$2-$3-$4-$5'), OTHER, looks('an identifier')],
  ['e-mail addresses', mail(nothing), OTHER, looks('an e-mail address')], ['e-mail addresses that begin like other texts', mail(begun), OTHER, looks('an e-mail address')],
  ['texts in base 58 that begin like other texts', (below) => begun(below) + text(below, BITCOIN, 40), OTHER, /^This (?:looks like a|does not look like a Bech32 text)/],
  ['names of web sites', (below) => `${text(below, LOWER, 4 + below(9))}.${from(below, ['org', 'com', 'eth', 'near'])}`, OTHER, looks('the name of a web site')], ['links to web sites', (below) => `https://${text(below, LOWER, 8)}.org/${text(below, LOWER + DIGITS, 12)}`, OTHER, ANY],
  ['numbers', (below) => text(below, DIGITS, 2 + below(30)), OTHER, ANY], ['numbers of telephones', (below) => `+${1 + below(98)} ${text(below, DIGITS, 3)} ${text(below, DIGITS, 7)}`, OTHER, ANY],
  ['numbers of bank accounts', (below) => `DE${text(below, DIGITS, 20)}`.replace(/(....)/g, '$1 '), OTHER, ANY], ['questions', (below) => `${Array.from({ length: 2 + below(2) }, () => from(below, WORDS)).join(' ')}, is this on?`, OTHER, /^This does not look like a Bech32 text, so this page cannot judge it\.$/],
  ['words', (below) => Array.from({ length: 1 + below(3) }, () => from(below, WORDS)).join(' '), OTHER, ANY],
];
