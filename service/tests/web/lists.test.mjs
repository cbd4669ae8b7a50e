// Lists of the records: each value under its head, and the page that was asked for.
import assert from 'node:assert/strict';
import {test} from 'node:test';
import {answering, hurry, json, texts} from './shared.mjs';
import {h} from '../web/dom.js';
import {act} from '../web/history.js';
import {session} from '../web/session.js';
import {lists} from '../web/tables.js';

hurry();
const STANDS = {code: 7, today: '2025-04-05', entry: 9, time: null};
const soon = () => new Promise((goOn) => { setTimeout(goOn, 0); });

/** A list as it is drawn for these items: text by head of its first row, and what was asked. */
async function drawn(name, item, next = null) {
  const sent = answering(() => json({stands: STANDS, items: [item], next}));
  const page = h('div', {}, lists(name));
  for (let turns = 0; turns < 50 && !page.getElementsByTagName('td').length; turns++) await soon();
  return {page, sent, row: Object.fromEntries([...page.getElementsByTagName('td')].map((of) => [of.getAttribute('data-name'), of.textContent]))};
}

test('a cancellation is listed with its beneficiary and its own numbers', async () => {
  const {row} = await drawn('cancellations', {number: 3, day: '2025-04-05', act: 12, account: 5, count: 1200, first: '07000000000001', last: '07000000001200', beneficiary: 'Rathaus', holder: 'SUN', use_first: '2025-01-01', use_last: '2025-01-31'});
  assert.deepEqual(row, {Cancellation: '3', Day: '2025-04-05', Account: '5', Count: '1,200', Certificates: '07000000000001 to 07000000001200', Beneficiary: 'Rathaus', 'Period of use': '2025-01-01 to 2025-01-31'});
});

test('a declaration counts its certificates by their numbers', async () => {
  const of = {day: '2025-03-01', act: 4, device: '500000000000000012', site: 'North', first_day: '2025-01-01', last_day: '2025-01-31', gross_wh: 5_000_001, aux_wh: 1, corrected_wh: 0, first: '07000000000001', last: '07000000000005', key: 'c1'};
  const {row} = await drawn('declarations', of);
  assert.deepEqual([row.Count, row['Gross in Wh'], row['Auxiliaries in Wh'], row.Certificates, row.Key], ['5', '5,000,001', '1', '07000000000001 to 07000000000005', 'c1']);
  assert.equal((await drawn('declarations', {...of, first: null, last: null})).row.Count, '0');
});

test('a notice tells its way and what became of it', async () => {
  const of = {number: 1, day: '2025-03-01', act: 4, sent: true, peer: 8, account: 5, far_account: 2, count: 3, fate: 'refused there'};
  const {row} = await drawn('notices', of);
  assert.deepEqual([row.Way, row.Registry, row.Account, row['Account there'], row['What became of it']], ['sent', '8', '5', '2', 'refused there']);
  assert.equal((await drawn('notices', {...of, sent: false})).row.Way, 'received');
});

test('the next page is asked from where this one ends, and the page before from where it began', async () => {
  const {page, sent} = await drawn('withdrawals', {number: 1, day: '2025-03-01', act: 4, count: 3, first: null, reason: 'x'}, 'b');
  const press = async (name) => { [...page.getElementsByTagName('button')].find((of) => of.textContent === name).click(); for (let turns = 0; turns < 5; turns++) await soon(); };
  await press('Next page');
  await press('Next page');
  await press('Page before');
  assert.deepEqual(sent.map(({path}) => new URL(path, 'https://x').searchParams.get('after')), [null, 'b', 'b', 'b']);
  assert.ok(sent.every(({path}) => path.includes('limit=100')));
});

test('holders are listed for the issuing body alone', () => {
  answering(() => json({stands: STANDS, items: [], next: null}));
  const has = () => texts(h('div', {}, lists('devices')), 'a').includes('Holders');
  session.isIssuer = false;
  assert.equal(has(), false);
  session.isIssuer = true;
  assert.equal(has(), true);
  session.isIssuer = false;
});

test('an act names giver and taker, each on its side', async () => {
  answering(() => json({stands: STANDS, id: 7, kind: 'transfer', outcome: 'accepted', day: '2025-03-01', time: '2025-03-02T10:11:12.5Z', giver: {account: 1, holder: 'SUN', name: 'Sun'}, taker: {account: 2, holder: 'VOLT', name: 'Volt'},
    ranges: [{first: '07000000000001', last: '07000000000003', count: 3, from_account: 1, account: 2, place: 'held'}], count: 3, wh: null, role: 'full', user: 'anna', caller: 'SUN', key: 'k', entry: 12}));
  const made = h('div', {}, await act('7')), named = Object.fromEntries(texts(made, 'dt').map((name, i) => [name, texts(made, 'dd')[i]]));
  assert.deepEqual([named.From, named.To, named.Certificates, named['Entry of the log']], ['1 SUN Sun', '2 VOLT Volt', '3', '12']);
  assert.deepEqual(texts(made, 'td'), ['07000000000001 to 07000000000003', '3', '1', '2', 'held']);
});
