// What a file of declarations is read as, before it is sent; and values as they are typed.
import assert from 'node:assert/strict';
import {test} from 'node:test';
import {chance} from './shared.mjs';
import {COMMANDS, KINDS, ungrouped} from '../web/commands.js';
import {HEADER, isDay, isGsrn, readDeclarations} from '../web/reading.js';

const DEVICE = '500000000000000012', OTHER = '500000000000000029';
const faultsOf = (...rows) => readDeclarations([HEADER, ...rows].join('\n')).faults.map(({row, field}) => `${row} ${field}`);

test('a GSRN has one last digit that fits', () => {
  const below = chance(3);
  assert.ok(isGsrn(DEVICE) && isGsrn(OTHER));
  for (let turn = 0; turn < 200; turn++) {
    const begin = Array.from({length: 17}, () => below(10)).join('');
    assert.equal([...'0123456789'].filter((digit) => isGsrn(begin + digit)).length, 1);
  }
  for (const text of ['', DEVICE.slice(1), `${DEVICE}0`, ` ${DEVICE}`, '５00000000000000012']) assert.ok(!isGsrn(text), text);
});

test('days are those of the calendar from 1900 to 2099', () => {
  const days = new Set();
  for (let at = Date.UTC(1900, 0, 1); at <= Date.UTC(2099, 11, 31); at += 86_400_000) days.add(new Date(at).toISOString().slice(0, 10));
  for (let year = 1899; year < 2101; year++) for (let month = 0; month < 14; month++) for (const day of [0, 1, 28, 29, 30, 31, 32]) {
    const text = `${year}-${String(month).padStart(2, '0')}-${String(day).padStart(2, '0')}`;
    assert.equal(isDay(text), days.has(text), text);
  }
});

test('each slip is told at its row and field', () => {
  for (const [row, told] of [
    [`a,${DEVICE},2025-01-01,2025-01-31,1,0`, []], [`a,"${DEVICE}",2025-01-01,2025-01-31,1000000000000000,0`, []],
    [`a,${DEVICE},2025-01-01,2025-01-31,1000000000000001,0`, ['1 gross_wh']], [`a,${DEVICE},2025-01-01,2025-01-31,1,2`, ['1 aux_wh']],
    [`a,${DEVICE},2025-01-31,2025-01-01,1,0`, ['1 last_day']], [`a,${DEVICE},2025-01-31,2025-02-01,1,0`, ['1 last_day']],
    [`a,${DEVICE},2025-02-29,2025-02-29,1,0`, ['1 first_day', '1 last_day']], [`,${DEVICE},2025-01-01,2025-01-31,1,0`, ['1 key']],
    [`${'k'.repeat(41)},${DEVICE},2025-01-01,2025-01-31,1,0`, ['1 key']], [`${'k'.repeat(40)},${DEVICE},2025-01-01,2025-01-31,1,0`, []],
    [`a,500000000000000013,2025-01-01,2025-01-31,1.5,-1`, ['1 device', '1 gross_wh', '1 aux_wh']],
    [`a;${DEVICE};2025-01-01;2025-01-31;1;0`, ['1 row']], [`a,${DEVICE},2025-01-01`, ['1 row']], [',,,,,', ['1 row']],
  ]) assert.deepEqual(faultsOf(row), told, row);
});

test('keys and periods are held against the rows before', () => {
  assert.deepEqual(faultsOf(`a,${DEVICE},2025-01-01,2025-01-31,1,0`, `a,${OTHER},2025-01-01,2025-01-31,1,0`), ['2 key']);
  assert.deepEqual(faultsOf(`a,${DEVICE},2025-01-01,2025-01-31,1,0`, `b,${DEVICE},2025-01-31,2025-01-31,1,0`), ['2 first_day']);
  assert.deepEqual(faultsOf(`a,${DEVICE},2025-01-01,2025-01-31,1,0`, `b,${DEVICE},2025-02-01,2025-02-28,1,0`), []);
  assert.deepEqual(faultsOf(`a,${DEVICE},2025-02-01,2025-02-28,1,0`, `b,${OTHER},2025-01-01,2025-01-31,1,0`), []);
});

test('a file has its header and 1 to 21,000 rows', () => {
  const rows = (n) => Array.from({length: n}, (_, i) => `k${i},${DEVICE},2025-01-01,2025-01-31,1,0`);
  assert.deepEqual(faultsOf(), ['0 file']);
  assert.deepEqual(faultsOf(...rows(21_001)), ['0 file']);
  assert.ok(!faultsOf(...rows(21_000)).includes('0 file'));
  for (const header of ['', 'key', HEADER.replaceAll(',', ';'), `${HEADER},more`]) assert.deepEqual(readDeclarations(`${header}\n`).faults.map(({field}) => field), ['header'], header);
});

test('numbers are read with or without the separators of their groups', () => {
  for (const [text, digits] of [['1234', '1234'], ['1,234', '1234'], ['1.234.567', '1234567'], ["1'000", '1000'], ['1 000', '1000'], ['12,5', '12,5'], ['1,23,456', '1,23,456']]) assert.equal(ungrouped(text), digits, text);
});

test('fields take what a command may have, and no more', () => {
  const takes = (kind, text) => KINDS[kind].wrong(text) === '';
  for (const [kind, good, bad] of [
    ['holder', ['SUN', 'A-1', '0123456789ABCDEF', 'sun'], ['', 'S_N', '0123456789ABCDEFG']],
    ['name', ['ä'.repeat(32), 'a'.repeat(64)], ['ä'.repeat(33), 'a'.repeat(65), 'a\u0007']],
    ['account', ['1', '999999999'], ['0', '1000000000', '-1', '1.5']], ['peer', ['1', '99'], ['0', '100']],
    ['watts', ['1', '100000000000'], ['0', '100000000001']], ['wh', ['0', '1000000000000000'], ['1000000000000001', '']],
    ['gsrn', [DEVICE, '5000 0000 0000 0000 12'], ['500000000000000013', '12']],
    ['number', ['07000000000001', '07 000 000 000 001'], ['00000000000001', '07000000000000', '7000000000001']],
    ['tech', ['T010000', 't010000'], ['T01000', 'F01010100']], ['country', ['DE'], ['DEU', '']],
  ]) {
    for (const text of good) assert.ok(takes(kind, text), `${kind} ${text}`);
    for (const text of bad) assert.ok(!takes(kind, text), `${kind} ${text}`);
  }
  assert.deepEqual(COMMANDS.cancel.fields.map(([name]) => name), ['account', 'first', 'last', 'beneficiary', 'use_first', 'use_last']);
});
