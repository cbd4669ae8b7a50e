// The issuing body's pages that add up all that there is read the book of acts, and not the registry.
import assert from 'node:assert/strict';
import {test} from 'node:test';
import {answering, hurry, json, texts} from './shared.mjs';
import {audit, excess} from '../web/audit.js';
import {doubtsOf} from '../web/doubts.js';
import {h} from '../web/dom.js';
import {records} from '../web/records.js';
import {last} from '../web/registry.js';

hurry();
const STANDS = {code: 7, today: '2026-03-01', entry: 40, time: null};
const page = (items, next = null) => json({stands: STANDS, items, next});
const DEVICES = Array.from({length: 1500}, (_, i) => ({gsrn: String(500000000000000000 + i), account: 1, declared_wh: 5_400_000, corrected_wh: 1_000_000,
  issued: 5, withdrawn: 1, carry_wh: 400_000}));

/** A part of a list, as the records show it. */
function part(path, items) {
  const asked = new URLSearchParams(path.split('?')[1]), limit = Number(asked.get('limit') ?? 100), offset = Number(asked.get('after') ?? 0);
  const shown = items.slice(offset, offset + limit);
  return page(shown, shown.length === limit ? offset + limit : null);
}

const isOfRegistry = ({path}) => path.startsWith('/v1/');

test('the page on which the issuing body lands reads the book', async () => {
  records.isThere = true;
  const sent = answering((path) => part(path, DEVICES)), shown = h('div', {}, await audit());
  assert.deepEqual(sent.map(({path}) => path.split('?')[0]), ['/records/v1/devices', '/records/v1/devices']);
  const cells = texts(shown, 'td');
  assert.ok(cells.includes(DEVICES[1499].gsrn) && !cells.includes('does not hold'));
  assert.ok(shown.textContent.includes('7,500'));
});

test('what this page has sent is in the book before it is read', async () => {
  records.isThere = true;
  last.entry = 42;
  let entry = 40;
  const sent = answering((path) => path.includes('/status') ? json({stands: {...STANDS, entry: entry++}, caller: 'ISSUER'}) : part(path, DEVICES.slice(0, 1)));
  await audit();
  last.entry = 0;
  assert.deepEqual(sent.map(({path}) => path.split('?')[0]), [...Array(3).fill('/records/v1/status'), '/records/v1/devices']);
});

test('a device that does not balance is told, and a sum that no browser reads exactly is read from the registry', async () => {
  records.isThere = true;
  answering((path) => part(path, [{...DEVICES[0], carry_wh: 400_001}]));
  assert.ok(h('div', {}, await audit()).textContent.includes('does not hold'));
  const sent = answering((path) => isOfRegistry({path}) ? {text: '500000000000000000 9007199254740993 0 9007199254 0 740993\n'} : part(path, [{...DEVICES[0], declared_wh: 9007199254740993}]));
  assert.ok(h('div', {}, await audit()).textContent.includes('9,007,199,254,740,993'));
  assert.equal(sent.filter(isOfRegistry).length, 1);
});

test('a correction asks for one device', async () => {
  records.isThere = true;
  const sent = answering((path) => path.includes(DEVICES[0].gsrn) ? page([DEVICES[0]]) : page([]));
  for (const [less, many] of [[1n, 0n], [400_000n, 0n], [400_001n, 1n], [1_400_000n, 1n], [1_400_001n, 2n]]) assert.equal(await excess(DEVICES[0].gsrn, less), many);
  assert.equal(await excess('500000000000000999', 1n), undefined);
  assert.deepEqual([...new Set(sent.map(({path}) => path))], [`/records/v1/devices?device=${DEVICES[0].gsrn}`, '/records/v1/devices?device=500000000000000999']);
});

const lot = (account, count, trade_until, expires_on) => ({account, count, trade_until, expires_on, next: trade_until >= STANDS.today ? 'trade' : 'expiry'});
const LOTS = [lot(1, 10, '2025-09-30', '2026-03-31'), lot(1, 5, '2026-03-31', '2026-09-30'), lot(2, 7, '2026-03-30', '2026-09-30')];
const ACCOUNTS = [{number: 1, holder: 'SUN'}, {number: 2, holder: 'VOLT'}, {number: 3, holder: 'WIND'}];

/** The records on the first of March: lots with a deadline within so many days. */
function onTheFirst(path) {
  if (path.startsWith('/records/v1/status')) return json({stands: STANDS, caller: 'ISSUER'});
  if (path.startsWith('/records/v1/accounts')) return part(path, ACCOUNTS);
  const days = Number(new URLSearchParams(path.split('?')[1]).get('days')), limit = new Date(Date.parse(STANDS.today) + days * 86_400_000).toISOString().slice(0, 10);
  return part(path, LOTS.filter((of) => (STANDS.today <= of.trade_until && of.trade_until <= limit) || of.expires_on <= limit));
}

test('what a new date does is told by the deadlines up to the day before', async () => {
  records.isThere = true;
  const sent = answering(onTheFirst), told = async (day) => {
    const {facts, notes} = await doubtsOf('advance', [], {day}, () => {});
    return [...facts.map(([, value]) => value), ...notes];
  };
  assert.deepEqual(await told('2026-03-31'), ['0', '7 certificates', 'Account 2 of VOLT: 0 expire, trade closes for 7.']);
  assert.deepEqual(await told('2026-04-01'), ['10', '12 certificates', 'Account 1 of SUN: 10 expire, trade closes for 5.', 'Account 2 of VOLT: 0 expire, trade closes for 7.']);
  assert.deepEqual(await told('2026-10-01'), ['22', '0 certificates', 'Account 1 of SUN: 15 expire, trade closes for 0.', 'Account 2 of VOLT: 7 expire, trade closes for 0.']);
  assert.deepEqual(await told('2026-03-02'), ['0', '0 certificates']);
  assert.deepEqual(await told('2026-02-01'), ['0', '0 certificates']);
  assert.equal(sent.filter(isOfRegistry).length, 0);
  assert.ok(sent.length <= 5 * 3);
});
