// What is chosen, made ranges and sent as a bundle; and doubts before what cannot be taken back.
import assert from 'node:assert/strict';
import {test} from 'node:test';
import {answering, chance, hurry, json} from './shared.mjs';
import {bundleOf, carry, joined, openBundles} from '../web/bundles.js';
import {chosen} from '../web/chosen.js';
import {aboutPeriod, aboutUse} from '../web/doubts.js';
import {monthsAfter, session, today} from '../web/session.js';
import {h} from '../web/dom.js';

hurry();
const text = (n) => `07${String(n).padStart(12, '0')}`;
const run = (first, last) => ({first: text(first), last: text(last), count: last - first + 1});

test('ranges that follow each other are one, of 100 lots at most, and no number is lost', () => {
  const below = chance(11);
  assert.deepEqual(joined([run(1, 5), run(6, 9), run(11, 12)]), [{...run(1, 9), lots: 2}, {...run(11, 12), lots: 1}]);
  for (let turn = 0; turn < 200; turn++) {
    let at = 1;
    const runs = Array.from({length: below(400)}, () => { at += below(20) ? 0 : 1 + below(3); const first = at; at += 1 + below(4); return run(first, at - 1); });
    const ranges = joined(runs), numbers = (of) => of.flatMap(({first, last}) => Array.from({length: Number(last) - Number(first) + 1}, (_, i) => Number(first) + i));
    assert.deepEqual(numbers(ranges), numbers(runs));
    assert.ok(ranges.every((of) => of.lots <= 100 && of.count === Number(of.last) - Number(of.first) + 1));
    for (const [i, of] of ranges.entries()) if (i && of.first === text(Number(ranges[i - 1].last) - 70000000000000 + 1)) assert.equal(ranges[i - 1].lots, 100);
  }
});

const begin = () => { localStorage.clear(); session.caller = 'SUN'; };
const accepted = {outcome: 'accepted', reply: {count: 1, cancellation: 1}};
const lines = (...of) => ({text: of.map((one) => `${JSON.stringify(one)}\n`).join(''), fields: {'GOO-Entry': '7'}});
const sentLines = ({body}) => body.trimEnd().split('\n').map((line) => JSON.parse(line));

test('a bundle goes as one, whole, each range under a key of its own', async () => {
  begin();
  const ranges = Array.from({length: 250}, (_, i) => run(2 * i + 1, 2 * i + 1)), sent = answering(() => lines(...ranges.map(() => accepted)));
  const shown = h('div'), bundle = bundleOf('transfer', {giver: 1, taker: 2}, ranges, 'told');
  await carry(bundle, shown);
  assert.deepEqual(sent.map(({path}) => path), ['/v1/bundles?whole=yes']);
  const bodies = sentLines(sent[0]);
  assert.deepEqual(bodies.map((of) => of.first), ranges.map((of) => of.first));
  assert.equal(new Set(bodies.map((of) => of.key)).size, 250);
  assert.ok(bodies.every((of) => of.command === 'transfer' && of.giver === 1 && of.taker === 2 && of.key.length <= 40));
  assert.ok(shown.textContent.includes('250 certificates moved'));
  assert.deepEqual([Object.keys(localStorage), bundle.entry], [[], 7]);
});

test('a bundle without an answer is kept, and sent again as it was', async () => {
  begin();
  const bundle = bundleOf('cancel', {account: 1}, [run(1, 1), run(3, 3)], 'told');
  for (const status of [null, 502, 503, 504]) {
    const first = answering(() => status && {status, text: 'no JSON'});
    await carry(bundle, h('div'));
    const [left] = openBundles(), second = answering(() => lines({...accepted, outcome: 'repeated'}, accepted));
    assert.deepEqual(left.ranges.map((of) => of.key), bundle.ranges.map((of) => of.key));
    await carry(left, h('div'));
    assert.equal(second[0].body, first[0].body);
    assert.deepEqual([openBundles(), Object.keys(localStorage)], [[], []]);
  }
});

test('a bundle waits where fewer are wanted, or nothing can be tried', async () => {
  begin();
  const later = [json({error: 'too often'}, 429, {'Retry-After': '6'}), json({error: 'no room'}, 503, {'Retry-After': '10'})];
  const sent = answering((path, words, turn) => later[turn - 1] ?? lines(accepted)), shown = h('div');
  await carry(bundleOf('transfer', {}, [run(1, 1)], 'told'), shown);
  assert.equal(sent.length, 3);
  assert.equal(new Set(sent.map(({body}) => body)).size, 1);
  assert.ok(shown.textContent.includes('All 1 requests are accepted'));
});

test('a bundle that is refused whole names the range', async () => {
  begin();
  answering(() => json({outcome: 'refused', code: 17, name: 'NotHeld', number: text(3), line: 2, key: 'k'}, 409));
  const shown = h('div');
  await carry(bundleOf('transfer', {}, [run(1, 1), run(3, 3)], 'told'), shown);
  assert.ok(shown.textContent.includes('Nothing was done: Refused: NotHeld (17)') && shown.textContent.includes('2 of 2'), shown.textContent);
  assert.deepEqual(Object.keys(localStorage), []);
});

test('where each goes by itself a refusal does not hold up the others, and another caller has none of it', async () => {
  begin();
  const sent = answering(() => lines({outcome: 'refused', code: 17, number: text(1)}, accepted));
  const shown = h('div');
  await carry(bundleOf('transfer', {}, [run(1, 1), run(3, 3)], 'told', false), shown);
  assert.deepEqual(sent.map(({path}) => path), ['/v1/bundles']);
  assert.ok(shown.textContent.includes('1 of 2 requests were refused') && shown.textContent.includes('1 certificates moved'));
  answering(() => null);
  await carry(bundleOf('transfer', {}, [run(1, 1)], 'told'), shown);
  session.caller = 'VOLT';
  assert.deepEqual(openBundles(), []);
  localStorage.clear();
});

const lot = (device, count) => ({origin: 7, device, first_day: '2025-01-01', count});

test('a choice has its sum, of lots or of runs, and of one account', () => {
  chosen.begin('1');
  chosen.set(lot('a', 5), 'lot', true);
  chosen.set(lot('b', 7), 'lot', true);
  chosen.set(lot('a', 5), 'lot', true);
  assert.deepEqual([chosen.count, chosen.has(lot('b', 7), 'lot'), chosen.has(lot('b', 7), 'run')], [12, true, false]);
  chosen.set(lot('b', 7), 'lot', false);
  assert.equal(chosen.count, 5);
  chosen.set({...run(1, 3), ...{origin: 7, device: 'a', first_day: '2025-01-01'}}, 'run', true);
  assert.deepEqual([chosen.by, chosen.count], ['run', 3]);
  chosen.begin('1');
  assert.equal(chosen.count, 3);
  chosen.begin('2');
  assert.equal(chosen.count, 0);
});

test('months on, a day that is not there is the last of its month', () => {
  for (const [day, months, then] of [['2025-01-31', 1, '2025-02-28'], ['2024-01-31', 1, '2024-02-29'], ['2025-01-31', 12, '2026-01-31'], ['2025-08-31', 18, '2027-02-28'], ['2025-12-01', 1, '2026-01-01'], ['2024-02-29', 12, '2025-02-28']]) {
    assert.equal(monthsAfter(day, months), then);
  }
});

test('a use far from the production is doubted', () => {
  const produced = [{first_day: '2025-01-01', last_day: '2025-01-31'}, {first_day: '2025-03-01', last_day: '2025-03-31'}];
  const doubts = (use_first, use_last) => aboutUse({use_first, use_last}, produced).length;
  assert.deepEqual([doubts('2025-01-01', '2025-03-31'), doubts('2024-12-01', '2024-12-31'), doubts('2024-12-01', '2025-01-01'), doubts('2025-01-01', '2026-01-01'), doubts('2025-01-01', '2025-12-31')], [0, 1, 0, 1, 0]);
  assert.ok(doubts('2026-03-31', '2026-04-30') <= 1 && aboutUse({use_first: '2026-04-01', use_last: '2026-04-30'}, produced)[0].includes('more than a year'));
});

test('a period that is not over, or long over, is doubted', () => {
  const now = today();
  assert.deepEqual([aboutPeriod(now, now).length, aboutPeriod('2020-01-01', '2020-01-31').length, aboutPeriod('', monthsAfter(now, -12)).length, aboutPeriod('', monthsAfter(now, -2)).length], [1, 1, 0, 0]);
});
