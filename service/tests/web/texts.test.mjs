// The registry's texts, by docs/FORMATS.md; CSV by RFC 4180.
import assert from 'node:assert/strict';
import {test} from 'node:test';
import {chance} from './shared.mjs';
import {asCsv, audit, csv, document, report} from '../web/texts.js';

const STATEMENT = `STATEMENT
registry 07
date 2025-04-05
account 1
holder SUN
status open
07000000000001 07000000001200         1200 500000000000000012 2025-01-01 2025-01-31 T010000 F01010100 held
07000000001201 07000000001201            1 500000000000000012 2025-03-01 2025-03-31 T010000 F01010100 cancelled:12
held 1200
cancelled 1
END
`;

test('a statement has its facts and each of its runs', () => {
  const {facts, lines} = document(STATEMENT);
  assert.deepEqual([facts.head, facts.registry, facts.date, facts.account, facts.holder, facts.held, facts.cancelled],
    ['STATEMENT', '07', '2025-04-05', '1', 'SUN', '1200', '1']);
  assert.deepEqual(lines, [
    {first: '07000000000001', last: '07000000001200', count: 1200, device: '500000000000000012', first_day: '2025-01-01',
      last_day: '2025-01-31', tech: 'T010000', source: 'F01010100', kind: 'held', act: undefined},
    {first: '07000000001201', last: '07000000001201', count: 1, device: '500000000000000012', first_day: '2025-03-01',
      last_day: '2025-03-31', tech: 'T010000', source: 'F01010100', kind: 'cancelled', act: '12'}]);
});

test('a name with spaces, or one that looks like a line, is a fact as it stands', () => {
  const name = '07000000000001 is no number';
  assert.equal(document(`CANCELLATION 1\nbeneficiary ${name}\nEND\n`).facts.beneficiary, name);
});

test('an audit balances where its Wh are its certificates and the carry', () => {
  const of = (text) => audit(text).map((row) => row.balanced);
  assert.deepEqual(of('500000000000000012 1201000000 0 1201 0 0\n'), [true]);
  assert.deepEqual(of('500000000000000012 1201999999 0 1201 0 999999\n'), [true]);
  assert.deepEqual(of('500000000000000012 1201000001 0 1201 0 0\n'), [false]);
  assert.deepEqual(of('500000000000000012 1202000000 0 1201 0 1000000\n'), [false]);     // a carry is below one certificate
  assert.deepEqual(of('500000000000000012 3000000 1000000 3 1 0\n'), [true]);
  const most = 2n ** 127n;
  assert.equal(audit(`500000000000000012 ${most} 0 0 0 0\n`)[0].declared, most);
});

test('records of a CSV', () => {
  for (const [text, records] of [
    ['', []], ['a,b\n', [['a', 'b']]], ['a,b', [['a', 'b']]], ['a,b\r\nc,d\r\n', [['a', 'b'], ['c', 'd']]],
    ['\ufeffa\n', [['a']]], ['a\n\n\nb\n', [['a'], ['b']]], ['a,\n', [['a', '']]], ['""\n', [['']]],
    ['"a,b","c""d","e\nf"\n', [['a,b', 'c"d', 'e\nf']]], ['a"b,c\n', [['a"b', 'c']]], ['"a"b\n', [['ab']]],
  ]) assert.deepEqual(csv(text), records, JSON.stringify(text));
});

test('what is saved as CSV is read back, whatever stands in it', () => {
  const below = chance(7), letters = ['a', 'Z', '0', ' ', ',', '"', '\n', '\r\n', 'ä', '€', '𝄞', ';', '=', '-'];
  for (let turn = 0; turn < 500; turn++) {
    const columns = ['one', 'two', 'three'].slice(0, 2 + below(2));
    const records = Array.from({length: below(6)}, () => Object.fromEntries(columns.map((name) =>
      [name, `x${Array.from({length: below(9)}, () => letters[below(letters.length)]).join('')}`])));
    assert.deepEqual(csv(asCsv(columns, records)), [columns, ...records.map((of) => columns.map((name) => of[name]))]);
  }
});

test('a spreadsheet takes no field for a formula', () => {
  for (const first of ['=', '+', '-', '@', '\t', '\uff1d']) assert.ok(asCsv(['a'], [{a: `${first}1`}]).split('\n')[1].replaceAll('"', '').startsWith(`'${first}`), first);
  assert.equal(asCsv(['a', 'b'], [{a: '1-2', b: null}]), 'a,b\n1-2,\n');
});

test('a report has row, word and code', () => {
  assert.deepEqual(report('1 accepted\n2 unreadable\n4 refused 11\n'), [
    {row: 1, word: 'accepted', code: undefined}, {row: 2, word: 'unreadable', code: undefined}, {row: 4, word: 'refused', code: '11'}]);
});
