// Many devices from a CSV: the whole file is read before anything is sent, and sent as a request a device.

import {h, longTable, count, result, written} from './dom.js';
import {carry, bundleOf} from './bundles.js';
import {COMMANDS, KINDS} from './commands.js';
import {aboutDevice, aboutName} from './doubts.js';
import {drop, sure} from './forms.js';
import {t} from './language.js';
import {csv} from './texts.js';

const FIELDS = COMMANDS.register_device.fields, NAMES = FIELDS.map(([name]) => name);
const plural = (n) => n === 1 ? t`1 device` : t`${count(n)} devices`;

const wrongRows = (n) => n === 1 ? t`1 row is at fault: nothing is sent` : t`${count(n)} rows are at fault: nothing is sent`;

/** Whether a row's text fits its field; '' where it does. */
function fieldFault(kind, text) {
  const {options, wrong, optional} = KINDS[kind];
  if (options) return options.includes(text) ? '' : t`One of ${options.join(', ')}.`;
  return text.trim() === '' && !optional ? t`This is needed.` : wrong(text);
}

/** The rows of a file as devices, and what is at fault, by row and field. */
export function readDevices(text) {
  const [header = [], ...rows] = csv(text), faults = [], devices = [], seen = new Map();
  const lacking = NAMES.filter((name) => !header.includes(name) && name !== 'carrier'), odd = header.filter((name) => !NAMES.includes(name));
  if (lacking.length || odd.length || !rows.length) return {devices, faults: [[0, '', rows.length ? t`The header needs just these names, with commas between: ${NAMES.join(',')}` : t`There is no row below the header.`]]};
  rows.forEach((cells, i) => {
    const given = Object.fromEntries(header.map((name, at) => [name, cells[at] ?? ''])), full = {carrier: 'electricity', ...given};
    if (cells.length !== header.length) { faults.push([i + 1, '', t`Expected ${header.length} fields, and it has ${cells.length}.`]); return; }
    const own = FIELDS.map(([name, kind]) => [i + 1, name, fieldFault(kind, full[name])]).filter(([, , fault]) => fault);
    const read = Object.fromEntries(FIELDS.filter(([name, kind]) => full[name] !== KINDS[kind].implied).map(([name, kind]) => [name, KINDS[kind].read(full[name])]));
    if (!own.length && seen.has(read.device)) own.push([i + 1, 'device', t`Row ${seen.get(read.device)} has the same device.`]);
    seen.set(read.device, i + 1);
    faults.push(...own);
    devices.push(read);
  });
  return {devices, faults};
}

/** Doubts about all of them, each with the rows that it is about. */
function doubtsOf(devices) {
  const found = new Map();
  devices.forEach((of, i) => { for (const doubt of [...aboutDevice(of), ...aboutName(t`Site`, of.site)]) found.set(doubt, [...found.get(doubt) ?? [], i + 1]); });
  return [...found].map(([doubt, rows]) => t`${doubt} Row ${rows.slice(0, 20).join(', ')}${rows.length > 20 ? ' ..' : ''}`);
}

/** The box that takes the file, and what comes of it. */
export function manyDevices() {
  const shown = h('div', {'aria-live': 'polite'});
  const take = async (file) => {
    const {devices, faults} = readDevices(await file.text());
    if (faults.length) {
      shown.replaceChildren(result({good: false, title: wrongRows(new Set(faults.map(([row]) => row)).size)}), ...longTable(file.name, [[t`Row`, 'right'], [t`Field`], [t`What is wrong`, 'wide']], faults.map((row) => Object.assign([count(row[0]), row[1], row[2]], {kind: 'fault'}))));
      return;
    }
    const send = h('button', {type: 'button', class: 'main', onclick: async () => {
      if (!await sure(t`Register devices`, t`Register`, {final: COMMANDS.register_device.final, facts: [[t`Devices`, count(devices.length)], [t`Accounts`, [...new Set(devices.map((of) => of.account))].join(', ')]], doubts: doubtsOf(devices)})) return;
      await carry(bundleOf('register_device', {}, devices.map((own) => ({own, count: 1})), t`Register devices: ${plural(devices.length)} of ${file.name}`), shown);
    }}, t`Register ${plural(devices.length)}`);
    shown.replaceChildren(...longTable(t`${file.name}: ${plural(devices.length)}`, FIELDS.map(([, kind, label]) => [t(label), kind === 'watts' ? 'right' : kind === 'name' || kind === 'gsrn' ? 'wide' : '']), devices.map((of) =>
      FIELDS.map(([name, kind]) => kind === 'name' ? written(of[name]) : kind === 'watts' ? count(of[name]) : String(of[name] ?? KINDS[kind].implied)))), h('div', {class: 'buttons'}, send));
  };
  return [h('h2', {}, t`Register many devices`), drop(t`Drop a CSV of devices here, or choose one`, t`Its first line is ${NAMES.join(',')}`, '.csv,text/csv', take), shown];
}
