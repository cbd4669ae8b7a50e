// The audit, device by device: by the book of acts, which adds up as it goes. The registry adds up all that it has for each
// audit, so it is asked where there is no book, and for the text that is saved.

import {h, table, count, result, save, csvButton, printButton} from './dom.js';
import {bars} from './charts.js';
import {t} from './language.js';
import {asked, everyItem, followed, records} from './records.js';
import {audited} from './registry.js';
import * as texts from './texts.js';
import {problemOf} from './words.js';

const DEVICE = ['device', 'declared', 'corrected_wh', 'issued', 'corrected', 'carry'];

/** A device of the book as a line of the audit; null where a number is too large for JSON in a browser. */
function line({gsrn, declared_wh, corrected_wh, issued, withdrawn, carry_wh}) {
  const numbers = [declared_wh, corrected_wh, issued, withdrawn, carry_wh];
  return numbers.every(Number.isSafeInteger) ? texts.device(gsrn, ...numbers.map(BigInt)) : null;
}

/** The devices with their sums. */
async function devices() {
  if (records.isThere) await followed();
  const rows = records.isThere ? (await everyItem('devices')).map(line) : [null];
  return rows.includes(null) ? (await audited()).rows : rows;
}

/** Saves the registry's own text, which is read when it is wanted. */
function textButton() {
  return h('button', {type: 'button', onclick: async ({target: button}) => {
    button.disabled = true;
    try { save('audit.txt', (await audited()).text, 'text/plain'); } catch (fault) { button.replaceWith(result(problemOf(fault))); }
    button.disabled = false;
  }}, 'Save as text');
}

export async function audit() {
  const rows = await devices();
  const sum = (key) => rows.reduce((s, r) => s + r[key], 0n);
  const columns = [['Device', 'wide'], ['Declared Wh', 'right wide'], ['Less corrections Wh', 'right wide'], ['Issued', 'right'],
    ['Withdrawn by corrections', 'right wide'], ['Carry Wh', 'right'], ['Balance']];
  const cells = (r, name, ok) => [name, count(r.declared), count(r.corrected_wh), count(r.issued), count(r.corrected), count(r.carry),
    ok ? t`holds` : h('b', {class: 'word refused'}, t`does not hold`)];
  const total = Object.fromEntries(['declared', 'corrected_wh', 'issued', 'corrected', 'carry'].map((k) => [k, sum(k)]));
  return [h('h1', {}, 'Audit'),
    h('p', {class: 'lead'}, 'For each device, the declared net energy less corrections is 1,000,000 Wh for each certificate issued that no correction withdrew, plus a carry of less than that.'),
    rows.length === 0 ? h('p', {class: 'quiet'}, 'No device is registered.') : [
      h('ul', {class: 'sums'}, [[t`Devices`, rows.length], [t`Declared, MWh`, total.declared / 1000000n], [t`Issued`, total.issued], [t`Carry, Wh`, total.carry]]
        .map(([n, v]) => h('li', {}, h('b', {}, count(v)), n))),
      h('section', {class: 'chart'}, h('h3', {}, 'Certificates issued by device'),
        bars(t`Certificates issued by device`, rows.map((r) => ({name: r.device, parts: [['issued', Number(r.issued)]]})))),
      table('By device', columns, [...rows.map((r) => cells(r, r.device, r.balanced)),
        Object.assign(cells(total, t`All`, rows.every((r) => r.balanced)), {kind: 'total'})]),
      h('div', {class: 'buttons'}, textButton(), csvButton('audit', () => texts.asCsv(DEVICE, rows)), printButton())]];
}

/** The carry of a device; undefined where there is no such device. */
async function carryOf(device) {
  if (!records.isThere) return (await audited()).rows.find((r) => r.device === device)?.carry;
  await followed();
  const [found] = (await asked('devices', {device})).items;
  return found && BigInt(found.carry_wh);
}

/** How many certificates a correction leaves in excess: full MWh that the device's carry doesn't cover. */
export async function excess(device, less) {
  const carry = await carryOf(device);
  return carry === undefined ? undefined : less > carry ? (less - carry + 999999n) / 1000000n : 0n;
}
