// The way to the registry and to the records: what is sent, kept, asked again, and read page by page.
import assert from 'node:assert/strict';
import {test} from 'node:test';
import {answering, hurry, json} from './shared.mjs';
import {asked, everyItem, followed, pathOf} from '../web/records.js';
import {bodyOf, newKey, read, send, statements, submit, submitAmongMany, unanswered} from '../web/registry.js';

hurry();
const REQUEST = {key: 'w-1', command: 'transfer', path: '/v1/requests', body: '{"command":"transfer"}', told: 'Transfer'};
const accepted = (reply) => json({outcome: 'accepted', reply}, 200, {'GOO-Entry': '12'});

test('a body is the command, its key and its fields; a notice stands in it as it was written', () => {
  assert.equal(bodyOf('transfer', 'k', {giver: 1}), '{"command":"transfer","key":"k","giver":1}');
  assert.equal(bodyOf('import', 'k', {}, '{"a": 1.0}'), '{"command":"import","key":"k","notice":{"a": 1.0}}');
  assert.match(newKey(), /^w-[0-9a-f-]{36}$/);
});

test('a request is kept before it is sent, and until its answer has come', async () => {
  localStorage.clear();
  const kept = [], sent = answering(() => { kept.push(unanswered('VOLT').length, Object.keys(localStorage).length); return accepted({count: 1}); });
  const outcome = await submit('SUN', REQUEST);
  assert.deepEqual([outcome.good, outcome.title, outcome.sentence, outcome.entry], [true, 'Accepted', '1 certificate moved.', 12]);
  assert.deepEqual([kept, Object.keys(localStorage)], [[0, 1], []]);
  assert.deepEqual(sent.map(({path, method, body}) => [path, method, body]), [['/v1/requests', 'POST', REQUEST.body]]);
});

test('without an answer it stays, and is sent again byte for byte', async () => {
  localStorage.clear();
  const sent = answering((path, words, turn) => turn === 1 ? null : json({outcome: 'repeated', reply: {count: 1}}));
  assert.equal((await submit('SUN', REQUEST)).kept, true);
  const [left] = unanswered('SUN');
  assert.equal(left.key, 'w-1');
  assert.equal((await send('SUN', left)).title, 'Done already');
  assert.deepEqual([sent[0].body, unanswered('SUN').length], [sent[1].body, 0]);
});

test('what is kept after each status', async () => {
  for (const [status, kept] of [[200, false], [400, false], [403, false], [404, false], [413, false], [409, true], [429, true], [500, true], [502, true], [503, true], [504, true]]) {
    localStorage.clear();
    answering(() => ({status, text: '<html>'}));
    await submit('SUN', REQUEST);
    assert.equal(unanswered('SUN').length === 1, status === 200 ? true : kept, String(status));
  }
  localStorage.clear();
});

test('a refusal is told with its certificate, and is not kept', async () => {
  answering(() => json({outcome: 'refused', code: 17, name: 'NotHeld', number: '07000000000012'}, 409));
  const outcome = await submit('SUN', REQUEST);
  assert.deepEqual([outcome.good, outcome.title, outcome.number, Object.keys(localStorage)], [false, 'Refused: NotHeld (17)', '07000000000012', []]);
});

test('one of many waits where the front door wants fewer, and is one request', async () => {
  const sent = answering((path, words, turn) => turn < 3 ? json({error: 'too often'}, 429) : accepted({count: 1}));
  assert.equal((await submitAmongMany('SUN', REQUEST)).good, true);
  assert.equal(new Set(sent.map(({body}) => body)).size, 1);
  assert.equal(sent.length, 3);
});

test('a whole day\'s bytes are waited for by nobody', async () => {
  const sent = answering(() => json({error: 'no more today'}, 429, {'Retry-After': '7200'}));
  assert.equal((await submitAmongMany('SUN', REQUEST)).title, 'Too much for one day');
  assert.equal(sent.length, 1);
  localStorage.clear();
});

test('statements are read up to the first account that is missing', async () => {
  const sent = answering((path) => path === '/v1/accounts/4/statement' ? {status: 404} : {text: `STATEMENT\naccount ${path.split('/')[3]}\nEND\n`}), seen = [];
  for await (const {facts} of statements()) seen.push(facts.account);
  assert.deepEqual([seen, sent.length], [['1', '2', '3'], 4]);
});

test('a read that fails is told in words', async () => {
  answering(() => null);
  assert.equal((await read('/v1/audit')).problem.sentence, 'The connection broke. Try again.');
  answering(() => ({status: 503}));
  assert.equal((await read('/v1/audit')).status, 503);
});

test('an address has the parameters that have a value', () => {
  assert.equal(pathOf('acts', {account: 1, q: 'a b&c', from: '', to: null, kind: undefined, offset: 0}), '/records/v1/acts?account=1&q=a+b%26c&offset=0');
  assert.equal(pathOf('status'), '/records/v1/status');
});

/** A list of so many items, by pages of at most 1,000 as the records give them. */
const listOf = (count, more) => (path) => {
  const given = new URL(path, 'https://x').searchParams, offset = Number(given.get('offset') ?? given.get('after') ?? 0), limit = Number(given.get('limit'));
  const end = Math.min(offset + limit, count);
  return json({items: Array.from({length: Math.max(0, end - offset)}, (_, i) => offset + i), next: end < count ? end : null, ...more});
};

test('every item of a list comes once and in order, whatever its length', async () => {
  for (const count of [0, 1, 999, 1000, 1001, 2000, 3001]) {
    const all = Array.from({length: count}, (_, i) => i);
    answering(listOf(count));
    assert.deepEqual(await everyItem('devices', {}), all, `${count}`);
    answering(listOf(count, {sum: {lots: count}}));
    assert.deepEqual(await everyItem('holdings', {by: 'lot'}), all, `${count} side by side`);
  }
});

test('questions are asked two at a time', async () => {
  let now = 0, most = 0;
  answering(async () => { most = Math.max(most, ++now); await new Promise((goOn) => setTimeout(goOn, 1)); now--; return json({}); });
  await Promise.all(Array.from({length: 9}, () => asked('status')));
  assert.equal(most, 2);
});

test('a question is asked again where there are too many, and what cannot be read is told', async () => {
  const sent = answering((path, words, turn) => turn < 3 ? json({error: 'too often'}, 429) : json({items: []}));
  assert.deepEqual(await asked('acts', {}), {items: []});
  assert.equal(sent.length, 3);
  answering(() => json({error: 'from: no day'}, 400));
  await assert.rejects(() => asked('acts', {from: 'x'}), (fault) => fault.problem.sentence === 'From: no day.');
});

test('an entry is waited for until the records tell of it', async () => {
  const sent = answering((path, words, turn) => json({stands: {entry: 8 + turn}}));
  await followed(11);
  assert.equal(sent.length, 3);
});
