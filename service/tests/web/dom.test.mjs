// Elements and values as the page writes them.
import assert from 'node:assert/strict';
import {test} from 'node:test';
import {texts} from './shared.mjs';
import {facts, h, longTable, number, special, table, written} from '../web/dom.js';
import * as words from '../web/words.js';

test('a certificate\'s number is its fourteen digits', () => {
  for (const digits of ['07000000000001', '07123456789012', '99999999999999']) assert.equal(number(digits).textContent, digits);
});

test('letters that cannot be seen are shown by their codes', () => {
  assert.equal(written('Stadt\u202ewerke').textContent, 'StadtU+202Ewerke');
  assert.equal(written('a\u00a0b\u200bc').textContent, 'aU+00A0bU+200Bc');
  assert.equal(written('Bäckerei Müller €').textContent, 'Bäckerei Müller €');
  assert.deepEqual(special('a\u202eb\u202ec\u0301'), ['U+202E right-to-left override']);
});

test('a table has each value under its head', () => {
  const made = table('Caption', [['One'], ['Two', 'right'], ['Three']], [['a', 'b', 'c'], ['d', 'e', null]]);
  assert.deepEqual(texts(made, 'th'), ['One', 'Two', 'Three']);
  assert.deepEqual([...made.getElementsByTagName('td')].map((of) => [of.getAttribute('data-name'), of.textContent]),
    [['One', 'a'], ['Two', 'b'], ['Three', 'c'], ['One', 'd'], ['Two', 'e'], ['Three', '']]);
});

test('of a long table the head is shown, and it goes on when more is asked for', () => {
  const rows = (n) => Array.from({length: n}, (_, i) => [String(i)]);
  const made = (n) => h('div', {}, longTable('T', [['A']], rows(n)));
  const buttons = (of) => [...of.getElementsByTagName('button')].filter(({hidden}) => !hidden).map(({textContent}) => textContent);
  assert.deepEqual([texts(made(400), 'td').length, buttons(made(400))], [400, []]);
  assert.deepEqual([texts(made(401), 'td').length, buttons(made(401))], [400, ['Show the other 1']]);
  const long = made(1000), press = (name) => [...long.getElementsByTagName('button')].find((of) => of.textContent === name).click();
  assert.deepEqual(buttons(long), ['Show the next 400', 'Show the other 600']);
  press('Show the next 400');
  assert.deepEqual([texts(long, 'td'), buttons(long)], [rows(800).flat(), ['Show the other 200']]);
  press('Show the other 200');
  assert.deepEqual([texts(long, 'td'), buttons(long), texts(long, 'caption')], [rows(1000).flat(), [], ['T']]);
});

test('facts keep name and value together', () => {
  const made = facts([['Holder', 'SUN'], ['Beneficiary', 'Rathaus']]);
  assert.deepEqual([texts(made, 'dt'), texts(made, 'dd')], [['Holder', 'Beneficiary'], ['SUN', 'Rathaus']]);
});

const REFUSALS = `NotAllowed KeyReused UnknownHolder HolderExists UnknownAccount AccountClosed AccountNotEmpty DeviceExists UnknownDevice
BeforeCommissioning PeriodOrder PeriodSpan AuxExceedsGross OverCapacity NumbersExhausted UnknownNumber NotHeld TradeClosed SameAccount
DateBackwards UnknownPeer PeerExists WrongRegistry NoticeConflict NumberTaken LotDiffers Stale FuturePeriod UsePeriod TooManyParts
UnknownDeclaration OverCorrected WrongCount OtherDevice`.split(/\s/);

test('each refusal has its name and one sentence', () => {
  assert.deepEqual(Object.entries(words.REFUSALS).map(([code, [name]]) => [Number(code), name]), REFUSALS.map((name, i) => [i + 1, name]));
  for (const [code, [, sentence]] of Object.entries(words.REFUSALS)) assert.match(sentence, /^[^.]+\.$/, code);
  assert.equal(words.row('refused', '11').title, 'PeriodOrder (11)');
  assert.equal(words.refusal(17, '07000000000012').number, '07000000000012');
});

test('what was done is told with its numbers', () => {
  for (const [command, reply, told] of [
    ['transfer', {count: 1}, '1 certificate moved.'], ['transfer', {count: 1200}, '1,200 certificates moved.'],
    ['cancel', {count: 7, cancellation: 3}, '7 certificates cancelled: cancellation 3.'],
    ['declare', {count: 0, carry: 999999}, 'Nothing issued; 999,999 Wh are carried over.'],
    ['declare', {count: 2, carry: 1, first: '07000000000001', last: '07000000000002'}, '2 certificates issued, 07000000000001 to 07000000000002; 1 Wh are carried over.'],
    ['export', {count: 5, notice: 9}, '5 certificates exported: notice 9.'], ['advance', {expired: 4}, 'The date has moved; 4 certificates expired.'],
  ]) assert.equal(words.done(command, reply), told);
});

test('a wait of hours is no crowd that passes', () => {
  assert.equal(words.reason(429, 'too many bytes today', 7201).sentence.includes('in 3 hours'), true);
  assert.equal(words.reason(429, 'too often', 1).title, words.status(429).title);
  assert.ok(words.reason(403, 'the day is over', 0).sentence.includes('Nothing was done'));
});
