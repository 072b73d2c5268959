// The human-readable parts that the page knows: what a text with each of them is. Of no other part does the page offer a
// correction.
import { asciiLower } from '../src/reasons.js';

const BECH32 = 'bech32', BECH32M = 'bech32m';

// The characters behind the separator of this many bytes: the data and the checksum.
const ofBytes = (...sizes) => sizes.map((size) => Math.ceil((8 * size) / 5) + 6);

const segwit = (network, title = network) => ({ network, title, what: `a segwit address of ${network}`, checksum: null, sizes: null });
const row = (what, checksum, sizes = null) => ({ what, checksum, sizes });
const secret = (what, checksum, sizes = null) => ({ ...row(what, checksum, sizes), isSecret: true });

// What a text with a part is. `checksum` is there where its texts have that one alone, and `sizes` where they have one of so
// many characters behind the separator; `isExact` where no others are valid. Of a `network` are segwit addresses, and a headline
// has its `title`.
const ROWS = [
  ['bc', segwit('Bitcoin')], ['tb', segwit('the Bitcoin test networks', 'Bitcoin testnet')], ['bcrt', segwit('a local Bitcoin test network', 'Bitcoin regtest')],
  ['ltc', segwit('Litecoin')], ['tltc rltc', segwit('a Litecoin test network', 'Litecoin testnet')], ['vtc', segwit('Vertcoin')],
  ['dgb', segwit('DigiByte')], ['grs', segwit('Groestlcoin')], ['btg', segwit('Bitcoin Gold')], ['sys', segwit('Syscoin')],
  ['mona', segwit('Monacoin')], ['ex', segwit('Liquid, and not confidential', 'Liquid')],
  ['tex ert', segwit('a Liquid test network, and not confidential', 'Liquid testnet')],

  ['sp', row('a silent payment address', BECH32M, [113])],
  ['tsp sprt', row('a silent payment address of a test network', BECH32M, [113])],
  ['lnurl', row('a link for Lightning payments (LNURL)', BECH32)],
  ['tapbc', row('a Taproot Assets address', BECH32M)],
  ['taptb taprt', row('a Taproot Assets address of a test network', BECH32M)],
  ['fed1', row('an invitation to a Fedimint federation', BECH32M)],

  ['npub', { ...row('a nostr public key', BECH32, ofBytes(32)), isExact: true }],
  ['note', { ...row('the number of a nostr note', BECH32, ofBytes(32)), isExact: true }],
  ['nprofile', row('a nostr profile', BECH32)], ['nevent', row('a link to a nostr event', BECH32)],
  ['naddr', row('a link to a nostr page', BECH32)], ['nrelay', row('a nostr relay', BECH32)],
  ['nsec', { ...secret('a nostr private key', BECH32, ofBytes(32)), isExact: true }],
  ['ncryptsec', secret('a nostr private key behind a password', BECH32, ofBytes(91))],

  ['age', { ...row('an age recipient', BECH32, ofBytes(32)), isExact: true }],
  ['age1yubikey age1se age1tpm age1tag age1tagpq age1pq', row('an age recipient', null)],
  ['age-secret-key-', { ...secret('an age private key', BECH32, ofBytes(32)), isExact: true, isUpper: true }],
  ['age-secret-key-pq-', { ...secret('an age private key', null), isUpper: true }],

  ['addr', row('a Cardano address', BECH32)], ['addr_test', row('a Cardano address of a test network', BECH32)],
  ['stake stake_test', row('a Cardano address for staking', BECH32, ofBytes(29))],
  ['pool', row('the number of a Cardano stake pool', BECH32, ofBytes(28))],

  ['zs', row('a shielded Zcash address (Sapling)', BECH32, ofBytes(43))],
  ['ztestsapling', row('a shielded Zcash address of the test network', BECH32, ofBytes(43))],
  ['u', row('a unified Zcash address', BECH32M)], ['utest', row('a unified Zcash address of the test network', BECH32M)],
  ['uview uviewtest uivk uivktest', row('a Zcash viewing key', BECH32M)],
  ['zxviews zxviewtestsapling zivks', row('a Zcash viewing key', BECH32)],
  ['secret-extended-key-main secret-extended-key-test', secret('a Zcash private key', BECH32, ofBytes(169))],

  ['xch txch', row('a Chia address', BECH32M, ofBytes(32))], ['avax', row('an Avalanche address', BECH32, ofBytes(20))],
  ['fuji', row('an Avalanche address of the test network', BECH32, ofBytes(20))],
  ['erd', row('a MultiversX address', BECH32, ofBytes(32))], ['zil', row('a Zilliqa address', BECH32, ofBytes(20))],
  ['one', row('a Harmony address', BECH32, ofBytes(20))], ['aleo', row('an Aleo address', BECH32M, ofBytes(32))],
  ['iota smr', row('an IOTA address', BECH32, ofBytes(33))], ['ckb ckt', row('a Nervos address', null)],
  ['account_rdx', row('a Radix address', BECH32M, ofBytes(30))], ['penumbra', row('a Penumbra address', BECH32M)],
  ['ark tark', row('an Ark address', BECH32M)], ['suiprivkey', secret('a Sui private key', BECH32, ofBytes(33))],
];

const PARTS = new Map(ROWS.flatMap(([parts, it]) => parts.split(' ').map((part) => [part, it])));

// Parts by their form. The first group of a Cosmos part is its network.
const COSMOS = {
  cosmos: 'Cosmos', osmo: 'Osmosis', juno: 'Juno', terra: 'Terra', secret: 'Secret Network', inj: 'Injective', kava: 'Kava',
  stars: 'Stargaze', evmos: 'Evmos', celestia: 'Celestia', dydx: 'dYdX', sei: 'Sei', noble: 'Noble', neutron: 'Neutron',
  stride: 'Stride', regen: 'Regen', persistence: 'Persistence', band: 'Band', cro: 'Cronos', akash: 'Akash', axelar: 'Axelar',
  kujira: 'Kujira', agoric: 'Agoric', umee: 'UX', thor: 'THORChain', maya: 'Maya', bnb: 'BNB Beacon Chain', bbn: 'Babylon',
  xion: 'XION', init: 'Initia', archway: 'Archway', nolus: 'Nolus', quick: 'Quicksilver', fetch: 'Fetch.ai', sent: 'Sentinel',
  somm: 'Sommelier', mantra: 'MANTRA', elys: 'Elys', dym: 'Dymension', saga: 'Saga', andr: 'Andromeda', comdex: 'Comdex',
};
const COSMOS_PART = new RegExp(`^(${Object.keys(COSMOS).join('|')})(valoper|valcons)?$`);
const INVOICE_PART = /^ln(?:bcrt|bc|tbs|tb)(?:\d+[munp]?)?$/;
const CARDANO_SECRET = /_x?sk$/, AGE_PLUGIN = /^age-plugin-.*-$/;

const ofForm = (part) => {
  const [, cosmos] = COSMOS_PART.exec(part) ?? [];
  if (cosmos) return row(`${/^[AEIO]/i.test(COSMOS[cosmos]) ? 'an' : 'a'} ${COSMOS[cosmos]} address`, BECH32, ofBytes(20, 32));
  if (INVOICE_PART.test(part)) return { ...row('a Lightning invoice', BECH32), isInvoice: true };
  if (AGE_PLUGIN.test(part)) return { ...secret('an age identity of a plug-in', BECH32), isUpper: true };
  return CARDANO_SECRET.test(part) ? secret('a Cardano private key', BECH32) : null;
};

// No known part has more characters.
const LONGEST = 32;

/** What is known of the texts with a human-readable part, which is in lower case; null where nothing is. */
export const knownPart = (part) => PARTS.get(part) ?? ofForm(part);

/**
 * Where the separator of a text stands, -1 where there is none, and what is `known` of its part: behind the longest part that
 * is known, else behind the last `1`. A `1` behind a known part is no separator, but a mistyped character.
 */
export const partOf = (text) => {
  const lower = asciiLower(text);
  for (let end = lower.lastIndexOf('1'); end > 0; end = lower.lastIndexOf('1', end - 1)) {
    const part = lower.slice(0, end), known = part.length > LONGEST ? null : knownPart(part);
    if (known) return { part, separator: end, known };
  }
  const separator = lower.lastIndexOf('1');
  return { part: lower.slice(0, Math.max(separator, 0)), separator, known: null };
};
