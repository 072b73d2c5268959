// No right text of any kind is answered by a correction, nor is one with a mistake of a kind that the page cannot test.
import test from 'node:test';
import assert from 'node:assert/strict';
import { answer } from '../page/answer.js';
import { library } from '../src/library.js';
import { compiled } from '../out/package/modules.js';
import { accepts, acceptsCodex32, numbersFrom, stringOf } from './reference.mjs';
import { base58, base58check, blake2b, keccak256, miniKey, monero, nano, ripple, stellar, substrate, ton } from './other-kinds.mjs';
import { COUNT, KINDS_OF_TEXTS, blechText, cashText, textsOf, withDescriptorSum } from './right-texts.mjs';

const it = library(...compiled().modules);
const offersOf = (found) => [found, ...(found.parts ?? [])].flatMap(({ offers = [], tone }) => (tone === 'mended' || offers.length ? [tone] : []));

test('the encoders make texts that others have published', () => {
  assert.equal(withDescriptorSum('raw(deadbeef)'), 'raw(deadbeef)#89f8spxm');
  const hash = Buffer.from('76a04053bda0a88bda5177b86a15c3b29f559873', 'hex');
  assert.equal(cashText('bitcoincash', [0, ...hash]), 'bitcoincash:qpm2qsznhks23z7629mms6s4cwef74vcwvy22gdx6a');
  const liquid = 'lq1qqf8er278e6nyvuwtgf39e6ewvdcnjupn9a86rzpx655y5lhkt0walu3djf9cklkxd3ryld97hu8h3xepw7sh2rlu7q45dcew5';
  assert.equal(blechText('blech32', 'lq', liquid.slice(3, -12)), liquid);
  for (const [kind, checksum] of [['segwit addresses', 'bech32'], ['Taproot addresses', 'bech32m'], ['nostr public keys', 'bech32']]) {
    assert.ok(textsOf(KINDS_OF_TEXTS.findIndex(([name]) => name === kind), 5).every((text) => accepts(checksum, text)), kind);
  }
  assert.ok(textsOf(KINDS_OF_TEXTS.findIndex(([name]) => name === 'codex32 shares'), 5).every(acceptsCodex32));
});

test('the encoders of other kinds make texts and digests that others have published', () => {
  const bytes = (digits) => [...Buffer.from(digits, 'hex')], zeros = (count) => Array(count).fill(0);
  assert.equal(keccak256(zeros(0)).toString('hex'), 'c5d2460186f7233c927e7db2dcc703c0e500b653ca82273b7bfad8045d85a470');
  assert.equal(blake2b([...Buffer.from('abc')], 64).toString('hex').slice(0, 32), 'ba80a53f981c4d0d6a2797b69f12f6e9');
  // Each a text that its network knows: the accounts of nobody, contracts, the example accounts of the documents.
  for (const [made, published] of [
    [ripple(zeros(21)), 'rrrrrrrrrrrrrrrrrrrrrhoLvTp'], [ripple([...zeros(20), 1]), 'rrrrrrrrrrrrrrrrrrrrBZbvji'],
    [base58check(bytes('41a614f803b6fd780986a42c78ec9c7f77e6ded13c')), 'TR7NHqjeKQxGTCi8q8ZY4pL8otSzgjLj6t'],
    [base58(zeros(32)), '11111111111111111111111111111111'], [stellar(48, zeros(32)), 'GAAAAAAAAAAAAAAAAAAAAAAAAAAAAAAAAAAAAAAAAAAAAAAAAAAAAWHF'],
    [nano(zeros(32)), 'nano_1111111111111111111111111111111111111111111111111111hifc8npp'],
    [substrate(42, bytes('d43593c715fdd31c61141abd04a99fd6822c8558854ccde39a5684e7a56da27d')), '5GrwvaEF5zXb26Fz9rcQpDWS57CtERHpNehXCPcNoHGKutQY'],
    [substrate(0, bytes('d43593c715fdd31c61141abd04a99fd6822c8558854ccde39a5684e7a56da27d')), '15oF4uVJwmo4TdGW7VfQxNLavjCXviqxT9S1MgbjMNHr6Sp5'],
    [ton(0x11, 0, bytes('b113a994b5024a16719f69139328eb759596c38a25f59028b146fecdc3621dfe')), 'EQCxE6mUtQJKFnGfaROTKOt1lZbDiiX1kCixRv7Nw2Id_sDs'],
    [monero(bytes('1242f18fc61586554095b0799b5c4b6f00cdeb26a93b20540d366932c6001617b75db35109fbba7d5f275fef4b9c49e0cc1c84b219ec6ff652fda54f89f7f63c88')),
      '44AFFq5kSiGBoZ4NMDwYtN18obc8AemS33DBLWs3H7otXft3XjrpDtQGv7SqSsaBYBb98uNbr2VBBEt7f2wfn3RVGQBEP3A'],
    [stringOf('0leetsllhdmn9m42vcsamx24zrxgs3qrl7ahwvhw4fnzrhve25gvezzyqq', 'ms'), 'ms10leetsllhdmn9m42vcsamx24zrxgs3qrl7ahwvhw4fnzrhve25gvezzyqqtum9pgv99ycma'],
    [stringOf('0leetsllhdmn9m42vcsamx24zrxgs3qrl7ahwvhw4fnzrhve25gvezzyqq', 'cl'), 'cl10leetsllhdmn9m42vcsamx24zrxgs3qrl7ahwvhw4fnzrhve25gvezzyqqjdsjnzedu43ns'],
  ]) assert.equal(made, published);
  assert.match(miniKey(numbersFrom(3), 30), /^S[1-9A-HJ-NP-Za-km-z]{29}$/);
});

for (const [at, [name, , tone, verdict]] of KINDS_OF_TEXTS.entries()) {
  test(`${name}: none of ${COUNT} is answered by a correction`, () => {
    for (const text of textsOf(at)) {
      const found = answer(it, text);
      assert.deepEqual([offersOf(found), found.tone], [[], tone], text);
      assert.match(found.verdict, verdict, text);
      if (tone === 'warning') assert.ok(found.warnings.length > 0 && found.text === undefined, text);
    }
  });
}

test('no right text of any kind is called wrong', () => {
  assert.ok(COUNT >= 20 && KINDS_OF_TEXTS.every(([, , tone]) => ['right', 'other', 'warning'].includes(tone)));
});

test('nothing is offered for a mistake in a text that the page cannot test', () => {
  const below = numbersFrom(41), characters = 'qpzry9x8gf2tvdw0s3jn54khce6mua7lbio1';
  const other = { other: true, warning: true, wrong: true };
  KINDS_OF_TEXTS.forEach(([name, , tone], at) => {
    if (!other[tone] || /^(?:nostr|age) private keys|^descriptors with a private key|^links with several parts/.test(name)) return;
    for (const text of textsOf(at, 10)) {
      const place = below(text.length), front = text.slice(0, place), behind = text.slice(place + 1);
      for (const typed of [front + behind, front + characters[below(36)] + behind, front + text[place] + text[place] + behind]) {
        const found = answer(it, typed);
        assert.deepEqual(found ? offersOf(found) : [], [], `${name}: ${typed}`);
      }
    }
  });
});
