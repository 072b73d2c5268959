// The memory of the modules: what calls leave there, what a call that stops leaves, and which functions are offered.
import test from 'node:test';
import assert from 'node:assert/strict';
import { columnFunctions } from '../out/package/columns.js';
import { Instance, Stopped, runner } from '../out/package/instance.js';
import { library, Refused } from '../out/package/library.js';
import { compiled } from '../out/package/modules.js';

const { modules } = compiled();
const STRING = 'ms10testsxxxxxxxxxxxxxxxxxxxxxxxxxx4nzvca9cmczlw';
const ADDRESS = 'bc1qw508d6qejxtdg4y5r3zarvary0c5xw7kv8f3t4';

// Runs a body with every instance that it starts recorded, and its functions changed.
const withInstances = (body, changed = (exports) => exports) => {
  const { Instance: before } = WebAssembly, started = [];
  WebAssembly.Instance = function (...given) {
    const exports = changed({ ...new before(...given).exports });
    started.push(exports);
    return { exports };
  };
  try {
    return body(started);
  } finally {
    WebAssembly.Instance = before;
  }
};

const memoryOf = ({ memory }) => Buffer.from(memory.buffer);

// The memory of each module as it is at first.
const FRESH = modules.map((module) => memoryOf(new WebAssembly.Instance(module, {}).exports));

// Whether a memory is one of these, but for zeros by which it was made larger.
const isFresh = (memory, fresh) => memory.subarray(0, fresh.length).equals(fresh) && memory.subarray(fresh.length).equals(Buffer.alloc(memory.length - fresh.length));

test('a codex32 string is wiped from the memory after each call', () => withInstances((started) => {
  const { codex32 } = library(...modules);
  const fresh = FRESH[1];
  const inMemory = () => memoryOf(started[1]);
  assert.ok(isFresh(inMemory(), fresh));
  const texts = [STRING, STRING.toUpperCase(), `${STRING.slice(0, -1)}q`, `${STRING.slice(0, -3)}???`, `${STRING.slice(0, 20)}qqqqqqqq${STRING.slice(28)}`,
    `${STRING.slice(0, -1)}b`, STRING.slice(1), STRING.slice(0, -1), `ms1q${STRING.slice(4)}`, 'é'.repeat(3000), '?'.repeat(93)];
  for (const text of texts) {
    for (const call of [codex32.parse, codex32.propose]) {
      try {
        call(text);
      } catch (error) {
        assert.ok(error instanceof Refused);
      }
      assert.ok(isFresh(inMemory(), fresh), `${call.name} of ${text}`);
      // The other module is asked where a fault stands.
      assert.ok(isFresh(memoryOf(started[0]), FRESH[0]), `${call.name} of ${text}, the other module`);
    }
  }
  assert.throws(() => codex32.parse(7), TypeError);
  assert.equal(started.length, 2);
}));

const SHARES = ['ms12namea320zyxwvutsrqpnmlkjhgfedcaxrpp870hkkqrm', 'ms12namecacdefghjklmnpqrstuvwxyz023ftr2gdzmpy6pn'];
const LONG = 'ms100c8vsm32zxfguhpchtlupzry9x8gf2tvdw0s3jn54khce6mua7lqpzygsfjd6an074rxvcemlh8wu3tk925acdefghjklmnpqrstuvwxy06fhpv80undvarhrak';

test('so are shares, long strings, sets and what is made of bytes', () => withInstances((started) => {
  const { codex32 } = library(...modules), bytes = new Uint8Array(64).fill(0xab);
  const other = codex32.encode(2, 'name', 'd', bytes.subarray(0, 16));
  const long = LONG.replace('upzry', '?pzrq');
  const calls = [
    () => codex32.share(SHARES[0]), () => codex32.share(LONG), () => codex32.share(`${LONG.slice(0, -1)}q`), () => codex32.share(LONG.slice(0, 100)),
    () => codex32.encode(2, 'test', 'a', bytes), () => codex32.encode(1, 'test', 'a', bytes), () => codex32.encode(2, 'test', 'a', bytes.subarray(1, 9)),
    () => codex32.encodePayload(2, 'test', 'a', 'l'.repeat(103)), () => codex32.encodePayload(2, 'test', 'a', 'l'.repeat(27)), () => codex32.encodePayload(2, 'test', 'a', `${'l'.repeat(26)}b`),
    () => codex32.encodePayload(2, 'test', 'a', 'é'.repeat(3000)),
    () => codex32.derive(SHARES, 'd'), () => codex32.recover(SHARES), () => codex32.recover([SHARES[0]]), () => codex32.recover([...SHARES, SHARES[0]]),
    () => codex32.recover([...SHARES, other]), () => codex32.recover([SHARES[0], LONG]), () => codex32.recover([SHARES[0], `${SHARES[1].slice(0, -1)}b`]),
    () => codex32.recover([SHARES[0], 'é'.repeat(3000)]), () => codex32.proposeLong(long), () => codex32.proposeLong(`${LONG.slice(0, 20)}${'q'.repeat(20)}${LONG.slice(40)}`),
    () => codex32.proposeLong('?'.repeat(127)),
    () => codex32.split(bytes, 9, 31), () => codex32.split(bytes.subarray(0, 16), 2, 2, null, { into: Uint8Array }), () => codex32.split(bytes, 9, 8), () => codex32.split(bytes.subarray(0, 15), 2, 2),
    () => codex32.split(bytes, 2, 2, 'test', { random: new Uint8Array(103).fill(0x55, 1) }), () => codex32.split(bytes, 2, 2, 'test', { random: new Uint8Array(102).fill(0x55) }),
    () => codex32.split(bytes, 2, 2, 'test', { random: new Uint8Array(103).fill(0x55) }),
    ...[SHARES[0], LONG, `${LONG.slice(0, -1)}q`, `${LONG.slice(0, -1)}b`].map((text) => () => codex32.share(new TextEncoder().encode(text))),
    () => codex32.recover(SHARES.map((text) => new TextEncoder().encode(text))), () => codex32.derive(SHARES, 'd', { into: Uint8Array }),
    () => codex32.encodePayload(2, 'test', 'a', new Uint8Array(26).fill(0x62)),
  ];
  let refused = 0;
  for (const call of calls) {
    try {
      call();
    } catch (error) {
      assert.ok(error instanceof Refused, String(error));
      refused++;
    }
    assert.ok(isFresh(memoryOf(started[1]), FRESH[1]) && isFresh(memoryOf(started[0]), FRESH[0]), String(call));
  }
  assert.ok(refused > 5 && refused < calls.length - 5 && started.length === 2, String(refused));
}));

test('a secret is wiped where there are no random bytes', () => withInstances((started) => {
  const { codex32 } = library(...modules), { getRandomValues } = crypto, secret = new Uint8Array(16).fill(0xab);
  let left = 0;
  crypto.getRandomValues = (array) => {
    if (left-- <= 0) throw new Error('no random bytes');
    return getRandomValues.call(crypto, array);
  };
  try {
    // Those of the characters are drawn first, and those of the identifier then.
    for (const [drawn, identifier] of [[0, 'test'], [0, null], [1, null]]) {
      left = drawn;
      assert.throws(() => codex32.split(secret, 2, 2, identifier), /no random bytes/);
      assert.ok(isFresh(memoryOf(started[1]), FRESH[1]));
    }
    // What is refused draws nothing.
    left = 0;
    for (const [length, threshold, count, identifier] of [[16, 1, 2, null], [16, 0, 2, null], [15, 2, 2, null], [16, 2, 1, null], [16, 2, 32, 'test']]) {
      assert.throws(() => codex32.split(secret.subarray(0, length), threshold, count, identifier), Refused);
    }
    left = 2;
    assert.equal(codex32.split(secret, 2, 2).length, 2);
  } finally {
    delete crypto.getRandomValues;
  }
  assert.equal(crypto.getRandomValues, getRandomValues);
}));

test('wipe leaves the memory of the other module as it was at first', () => withInstances((started) => {
  const it = library(...modules);
  const fresh = FRESH[0];
  it.correct('bech32', `${ADDRESS.slice(0, -1)}q`);
  assert.ok(!isFresh(memoryOf(started[0]), fresh));
  it.wipe();
  assert.ok(isFresh(memoryOf(started[0]), fresh));
  assert.equal(it.segwit.decode(ADDRESS).version, 0);
}));

test('after a call that stops there is a new instance, and the memory of the old one is wiped', () => withInstances((started) => {
  const it = new Instance(modules[0], { text: 64, length: 8, other: 8 });
  const check = (at) => it.call('bech32_check', 1, at, it.putText('text', 'a12uel5l').length, it.pointer('length'), it.pointer('other'));
  assert.equal(check(it.pointer('text')), 0);
  assert.throws(() => check(0xfffffff0n), Stopped);
  assert.equal(started.length, 2);
  assert.ok(memoryOf(started[0]).every((byte) => byte === 0));
  assert.equal(check(it.pointer('text')), 0);
}));

test('a codex32 string is wiped where the call stops', () => {
  let stops = 1;
  withInstances((started) => {
    const { codex32 } = library(...modules);
    assert.throws(() => codex32.propose(STRING), Stopped);
    assert.equal(started.length, 3);
    assert.ok(memoryOf(started[1]).every((byte) => byte === 0));
    assert.ok(isFresh(memoryOf(started[2]), FRESH[1]));
    assert.equal(codex32.propose(`${STRING.slice(0, -1)}?`).text, STRING);
  }, (exports) => {
    const { codex32_propose: propose } = exports;
    if (propose) {
      exports.codex32_propose = (...given) => {
        const number = propose(...given);
        if (stops-- > 0) throw new WebAssembly.RuntimeError('unreachable');
        return number;
      };
    }
    return exports;
  });
});

test('a call for a column that stops is the last of its instance', () => {
  let stops = 1;
  withInstances((started) => {
    const { decodeMany } = columnFunctions(modules[0]), found = () => [...decodeMany([ADDRESS, `t${ADDRESS}`], 'bc').numbers];
    // It has one from the first call on.
    assert.equal(started.length, 0);
    assert.throws(found, Stopped);
    assert.deepEqual([found(), found()], [[0, 33], [0, 33]]);
    assert.equal(started.length, 2);
  }, (exports) => ({
    ...exports,
    bech32_segwit_decode_many: (...given) => {
      if (stops-- > 0) throw new WebAssembly.RuntimeError('unreachable');
      return exports.bech32_segwit_decode_many(...given);
    },
  }));
});

test('arguments stand in regions of their own', () => {
  const it = new Instance(modules[0], { a: 5, b: 1, c: 4096 });
  assert.ok(it.at.a % 16 === 0 && it.at.b >= it.at.a + 5 && it.at.c >= it.at.b + 1);
  assert.throws(() => new Instance(modules[0], { a: 2 ** 40 }), RangeError);
});

test('suggestions have one instance and descriptors another, of which nothing is left after each call', () => withInstances((started) => {
  const { segwit, descriptor } = library(...modules);
  const wrong = `${ADDRESS.slice(0, -1)}q`, found = segwit.suggest(wrong, 'bc'), none = segwit.suggest(wrong, 'tb');
  assert.deepEqual([found.map(({ text }) => text), none], [[ADDRESS], []]);
  const text = 'raw(deadbeef)', sum = descriptor.checksum(text), mended = descriptor.mend(`raw(deedbeef)#${sum}`);
  assert.ok(mended.some((it) => it.text === `${text}#${sum}`));
  for (let round = 0; round < 3; round++) {
    assert.deepEqual(segwit.suggest(wrong, 'bc'), found);
    assert.throws(() => segwit.suggest('bc1Q?q', 'bc'), Refused);
    assert.equal(descriptor.check(`${text}#${sum}`), text);
    assert.throws(() => descriptor.check('raw'), Refused);
    assert.deepEqual(descriptor.mend(`raw(deedbeef)#${sum}`), mended);
    assert.deepEqual(segwit.suggest(wrong, 'tb'), none);
    assert.equal(started.length, 4);
    assert.ok(started.slice(2).every((one) => isFresh(memoryOf(one), FRESH[0])));
  }
}));

test('an instance whose memory has grown large is wiped and not kept', () => withInstances((started) => {
  const run = runner(modules[0]), before = run({ text: 64 }, (it) => it.bytes.length);
  const put = (size) => run({ text: size }, (it) => [Number(it.putBytes('text', new Uint8Array(size).fill(7))), it.bytes.length]);
  assert.deepEqual(put(64), [64, before]);
  assert.equal(put(1 << 22)[0], 1 << 22);
  assert.equal(started.length, 1);
  assert.equal(put(1 << 23)[0], 1 << 23);
  assert.ok(isFresh(memoryOf(started[0]), FRESH[0]));
  assert.deepEqual(put(64), [64, before]);
  assert.throws(() => run({ text: 2 ** 40 }, () => 0), RangeError);
  assert.deepEqual(put(64), [64, before]);
  assert.ok(started.every((one) => isFresh(memoryOf(one), FRESH[0])));
}));

test('a call that stops is the last of its instance, and the next one has another', () => withInstances((started) => {
  const run = runner(modules[0]);
  const call = (at) => run({ text: 64, length: 8, other: 8 }, (it) => {
    const { length } = it.putText('text', 'a12uel5l');
    return it.call('bech32_check', 1, at ?? it.pointer('text'), length, it.pointer('length'), it.pointer('other'));
  });
  assert.equal(call(), 0);
  assert.throws(() => call(0xfffffff0n), Stopped);
  assert.ok(memoryOf(started[0]).every((byte) => byte === 0));
  assert.deepEqual([call(), call(), started.length], [0, 0, 2]);
  assert.ok(isFresh(memoryOf(started[1]), FRESH[0]));
}));

// A library of which the calls that list answer so, with what they were given.
const answering = (answers, body) => {
  const asked = [];
  withInstances((started) => body(library(...modules), asked, started), (exports) => {
    for (const name of ['bech32_nearest', 'bech32_near_edits']) {
      const call = exports[name];
      if (!call) continue;
      exports[name] = (...given) => {
        const view = new DataView(exports.memory.buffer), size = view.getBigUint64(Number(given.at(name === 'bech32_nearest' ? 6 : 3)) + 8, true);
        asked.push({ memory: Number(size), room: Number(given.at(-2)), edits: Number(given[5]) });
        const { number, count } = answers(asked.length) ?? {};
        if (number === undefined) return call(...given);
        if (count !== undefined) view.setBigUint64(Number(given.at(-1)), BigInt(count), true);
        return number;
      };
    }
    return exports;
  });
};

const DAMAGED = `${ADDRESS.slice(0, 20)}qq${ADDRESS.slice(22)}`, MISSING = ADDRESS.slice(0, 20) + ADDRESS.slice(21);

test('where there is too little memory, the call is made again with more', () => {
  answering((turn) => (turn % 3 ? { number: 91 } : null), (it, asked, started) => {
    assert.deepEqual(it.nearest('bech32', DAMAGED).map(({ text }) => text), [ADDRESS]);
    assert.deepEqual(it.nearEdits('bech32', MISSING).map(({ text }) => text), [ADDRESS]);
    const [first] = asked, sizes = [first.memory, 8 * first.memory, 2 ** 24];
    assert.deepEqual(asked.map((one) => one.memory), [...sizes, ...sizes]);
    assert.ok(started.slice(2).every((one) => isFresh(memoryOf(one), FRESH[0])));
  });
});

test('where there is too little room, it is made once more, with the room that all take', () => {
  answering((turn) => (turn % 2 ? { number: 92, count: 1000 } : null), (it, asked, started) => {
    assert.deepEqual(it.nearest('bech32', DAMAGED).map(({ text }) => text), [ADDRESS]);
    assert.deepEqual(it.nearEdits('bech32', MISSING).map(({ text }) => text), [ADDRESS]);
    assert.deepEqual(asked.map(({ room }) => room), [16384, 1000 * 42, 16384, 1000 * 42]);
    assert.deepEqual([asked[2].edits, asked[3].edits], [8, 1000]);
    assert.ok(started.slice(2).every((one) => isFresh(memoryOf(one), FRESH[0])));
  });
});

test('near texts that are too many for any memory are refused, and not cut', () => {
  for (const answer of [{ number: 91 }, { number: 92, count: 2 ** 40 }]) {
    answering(() => answer, (it, asked, started) => {
      assert.throws(() => it.nearest('bech32', ADDRESS), RangeError);
      assert.throws(() => it.nearEdits('bech32', ADDRESS), RangeError);
      assert.equal(asked.length, answer.number === 91 ? 6 : 2);
      assert.ok(asked.every(({ memory }) => memory <= 2 ** 24));
      assert.ok(started.slice(2).every((one) => isFresh(memoryOf(one), FRESH[0])));
    });
  }
});
