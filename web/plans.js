// Tables of transfers and cancellations: the records look at a table and choose for each row, what is at fault stands first, and
// what is meant is sent as one bundle, all of it or nothing. The keys come from the table's content, so that the same table
// is carried out once. service/goo_service/records/plans.py decides what a table comes to.

import {h, busy, between, count, longTable, number, result, save, written} from './dom.js';
import {bundleOf, carry} from './bundles.js';
import {COMMANDS} from './commands.js';
import {aboutName, aboutUse} from './doubts.js';
import {drop, sure} from './forms.js';
import {language, t} from './language.js';
import {asList} from './paper.js';
import {askedOf, everyItem, followed, holderOf, pathOf, records} from './records.js';
import {session} from './session.js';
import * as texts from './texts.js';
import {problemOf, status} from './words.js';

const MOST_BYTES = 1048576;
/** Rows of one kind that a question names. */
const FEW = 5;
const XLSX = 'application/vnd.openxmlformats-officedocument.spreadsheetml.sheet';
/** Of each command: its title, the columns that a table has to have, and those that it may have. */
const TABLES = {
  transfer: {title: t`Many transfers by one table`, giver: 'giver', own: ['account', 'holder']},
  cancel: {title: t`Many cancellations by one table`, giver: 'account', own: ['beneficiary', 'use_first', 'use_last']},
};
const OTHERS = ['quantity', 'tech', 'source', 'country', 'month', 'device', 'ranges', 'reference'];
/** The columns' names: a table may have those of either language. */
const HEADS = {account: t`account`, holder: t`holder`, beneficiary: t`beneficiary`, use_first: t`used from`, use_last: t`used to`, quantity: t`quantity`, tech: t`technology`, source: t`energy source`, country: t`country`, month: t`month`, device: t`device`,
  ranges: t`ranges`, reference: t`reference`};
const EXAMPLES = {transfer: {account: 2, holder: 'VOLT', quantity: 100}, cancel: {beneficiary: t`Town Hall`, use_first: '2025-01-01', use_last: '2025-12-31', quantity: 100}};
const FIELDS = {account: t`Account`, holder: t`Holder`, beneficiary: t`Beneficiary`, use_first: t`Used from`, use_last: t`Used to`, quantity: t`Quantity`, ranges: t`Ranges of numbers`, tech: t`Technology`, source: t`Energy source`,
  country: t`Country`, device: t`Device`, month: t`Month`, reference: t`Reference`, row: t`Row`, header: t`First line`, file: t`File`};

/** What is wrong with a row or a file, by its kind. */
const FAULTS = {
  needed: () => t`It is empty, and is needed.`, number: () => t`Expected a whole number from 1 on.`, day: () => t`Expected a day as 2025-01-31.`, month: () => t`Expected a month as 2025-01.`,
  name: () => t`Expected at most 64 bytes without control characters: letters beyond A to Z count two or more.`, code: () => t`It is not a code of this kind.`, formula: () => t`It is a formula. Expected its value.`,
  both: () => t`Expected a quantity, or ranges of numbers.`, order: () => t`The period of use ends before it begins.`, ranges: () => t`Expected ranges as 07000000000001-07000000000010.`,
  differs: (of) => t`The ranges have ${count(of.there)} certificates, and the quantity says ${count(of.wanted)}.`, not_held: (of) => t`Of ${count(of.wanted)} certificates the account has ${count(of.there)} that can be used.`,
  twice: (of) => of.other === of.row ? t`Some certificates are named twice.` : t`Row ${count(of.other)} has some of these certificates too.`, unfit: (of) => t`${count(of.there)} certificates of the ranges are others.`,
  short: (of) => t`${count(of.there)} of ${count(of.wanted)} certificates that fit are left.`, none: (of) => t`Nothing that the account has fits ${of.value}.`,
  pair: (of) => t`The account is not one of ${of.value}.`, unseen: () => t`Not looked at, as too many pairs of account and holder are wrong: wait a minute.`, closed: () => t`The account is closed.`, same: () => t`It is the account that gives.`,
  longer: (of) => t`It has ${of.there} fields, and the first line has ${of.wanted}.`, empty: (of) => of.row ? t`The row is empty. Delete it.` : t`There is no row below the first line.`,
  rows: () => t`It has more than 1,000 rows, or more than 40 columns: split it.`, field: () => t`A field has more than 4,000 letters.`, encoding: () => t`It is not UTF-8 text. Save it as “CSV UTF-8”, or as XLSX.`, csv: () => t`It is no CSV that can be read.`,
  xlsx: () => t`The spreadsheet can’t be read. Save it anew, or as “CSV UTF-8”.`, xlsx_none: () => t`Spreadsheets are not read here. Save it as “CSV UTF-8”.`, xlsx_large: () => t`The spreadsheet is too large. Copy the rows into a new one.`,
  requests: (of) => t`It comes to ${count(of.there)} ranges of numbers, and ${count(of.wanted)} can be sent at once: split it.`,
  column: (of) => t`The column ${of.value} is not known.`, column_twice: (of) => t`The column ${of.value} stands there twice.`, column_lacks: (of) => t`The column ${HEADS[of.value] ?? of.value} is needed.`,
};
const reasonOf = (of) => FAULTS[of.kind]?.(of) ?? of.kind;
const rowsOf = (n) => n === 1 ? t`1 row` : t`${count(n)} rows`;
const certificatesOf = (n) => n === 1 ? t`1 certificate` : t`${count(n)} certificates`;

/** The part of a page where a table is chosen, for who has an account. */
export function manyBy(command) {
  if (!records.isThere || !session.isFull || session.isIssuer) return null;
  const {title, own} = TABLES[command], shown = h('div', {'aria-live': 'polite'}), box = h('select', {id: 'plan-account', name: 'plan-account'});
  everyItem('accounts').then((all) => box.append(...all.filter(({closed}) => !closed).map((of) => h('option', {value: of.number}, String(of.number)))), () => null);
  const take = async (file) => {
    shown.replaceChildren(h('p', {class: 'quiet'}, 'Looking.'));
    let made;
    try { made = await looked(command, Number(box.value), file, shown); } catch (fault) { made = [result(problemOf(fault))]; }
    shown.replaceChildren(...[made].flat(Infinity));
  };
  const columns = [...own, ...OTHERS], example = EXAMPLES[command];
  return h('section', {class: 'many'}, h('h2', {}, title), h('div', {class: 'field'}, h('label', {for: 'plan-account'}, t`From your account`), box),
    drop(t`Drop a table here, or choose one`, t`CSV or XLSX. Its first line names the columns: ${columns.map((name) => HEADS[name]).join(', ')}. Each row gets its quantity from what fits, the oldest deadline first. Nothing is sent before you have seen what is chosen.`, `.csv,text/csv,.xlsx,${XLSX}`, take),
    h('div', {class: 'buttons'}, h('button', {type: 'button', onclick: () => save(`${command}-example.csv`, texts.asCsv(columns.map((name) => HEADS[name]), [Object.fromEntries(columns.map((name) => [HEADS[name], example[name]]))]), 'text/csv')}, t`Save an example`)), shown);
}

/** What a table comes to: what is at fault, what was sent before, or the plan with the button that sends it. */
async function looked(command, account, file, shown) {
  if (file.size > MOST_BYTES) return [result({...status(413), sentence: t`A table has 1,048,576 bytes at most.`})];
  await followed();
  const plan = await askedOf('plan', await file.arrayBuffer(), {command, account}, /\.xlsx$/i.test(file.name) ? XLSX : 'text/csv');
  const made = plan.sent.length ? before(command, plan) : plan.faults.length ? atFault(command, file.name, plan) : [ready(command, file.name, plan, shown)];
  return h('div', {class: 'plan', 'data-table': plan.digest}, made);
}

/** The same table was carried out before. */
const before = (command, plan) => [result({kept: true, title: t`This table was sent already, on ${plan.sent[0].day}`, sentence: t`Nothing is sent twice. If it is meant once more, add a column “reference” that tells the two apart.`}), command === 'cancel' ? papers(plan.digest, plan.sent) : null];

/** The documents of a table, one a row, and all in one file. */
const papers = (digest, rows) => [longTable(t`Documents`, [[t`Row`, 'right'], [t`Beneficiary`, 'wide'], [t`Document`]], rows.map((of) => [count(of.row), of.beneficiary ? written(of.beneficiary) : '', h('a', {href: `#document/${asList(of.numbers)}`}, t`Cancellation ${asList(of.numbers)}`)])),
  h('div', {class: 'buttons'}, h('a', {class: 'button', href: pathOf('papers', {table: digest, lang: language}), download: `documents-${digest}.zip`}, t`Save all documents as ZIP`))];

const FAULTY = [[t`Row`, 'right'], [t`Whom`, 'wide'], [t`Quantity`, 'right'], [t`Chosen`, 'right'], [t`What is wrong`, 'answer']];

/** Faults first: nothing of such a table is sent. */
function atFault(command, name, {rows, faults, more}) {
  const whole = faults.filter(({row}) => row === 0), at = [...new Set(faults.map(({row}) => row))];
  if (whole.length) return [result({good: false, title: t`Nothing can be sent: ${name}`, sentence: whole.map((of) => of.field === 'file' ? reasonOf(of) : `${FIELDS[of.field]}: ${reasonOf(of)}`).join(' ')})];
  const by = new Map(rows.map((of) => [of.row, of]));
  return [result({good: false, title: t`Nothing can be sent: ${rowsOf(at.length)} of ${count(rows.length)} are at fault`, sentence: more ? t`${count(more)} more faults are not shown. Correct the file and choose it again.` : t`Correct the file and choose it again.`}),
    longTable(h('span', {}, written(name)), FAULTY, at.map((row) => Object.assign([count(row), whomOf(command, by.get(row) ?? {}), count(by.get(row)?.wanted ?? 0), count(by.get(row)?.count ?? 0),
      faults.filter((of) => of.row === row).map((of) => h('p', {}, h('b', {class: 'word refused'}, FIELDS[of.field] ?? of.field), ' ', reasonOf(of)))], {kind: 'fault'})))];
}

/** Whom a row is for. */
const whomOf = (command, of) => command === 'cancel' ? [of.beneficiary ? written(of.beneficiary) : '', of.reference ? [' ', h('span', {class: 'quiet'}, written(of.reference))] : '']
  : [String(of.account ?? ''), ' ', h('b', {}, of.holder ?? ''), ' ', of.name ? written(of.name) : '', of.reference ? [' ', h('span', {class: 'quiet'}, written(of.reference))] : ''];

const sum = (rows) => rows.reduce((n, of) => n + of.count, 0);
const PLANNED = [[t`Row`, 'right'], [t`Whom`, 'wide'], [t`Certificates`, 'right'], [t`What is chosen`, 'wide range'], [t`Produced`, 'wide']];

/** The plan, with the button that sends it. */
function ready(command, name, plan, shown) {
  const act = t(COMMANDS[command].act), {rows} = plan;
  const button = h('button', {type: 'button', class: 'main', onclick: () => busy(button, async () => {
    if (await isMeant(command, name, plan)) await send(command, name, plan, shown);
  })}, `${act}: ${count(sum(rows))}`);
  return [result({kept: true, title: t`${rowsOf(rows.length)}, ${certificatesOf(sum(rows))} chosen`, sentence: t`Nothing is sent yet.`}),
    h('div', {class: 'buttons'}, button),
    longTable(h('span', {}, written(name)), PLANNED, rows.map((of) => [count(of.row), whomOf(command, of), count(of.count), chosenOf(of), between(...of.produced)]))];
}

const chosenOf = ({ranges}) => [between(number(ranges[0].first), number(ranges[0].last)), ranges.length > 1 ? t` and ${count(ranges.length - 1)} more ranges` : ''];

/** The first few of many, and how many more there are. */
const firstOf = (all) => [...all.slice(0, FEW), ...(all.length > FEW ? [t`${count(all.length - FEW)} more rows are like these.`] : [])];

/** Asks before a table is sent: who gets how much, and what is odd about a row. */
async function isMeant(command, name, {rows, account, requests}) {
  const odd = command === 'transfer' ? [] : rows.flatMap((of) => [...aboutUse(of, [{first_day: of.produced[0], last_day: of.produced[1]}]), ...aboutName('Beneficiary', of.beneficiary)].map((said) => t`Row ${count(of.row)}: ${said}`));
  const takers = new Map();
  for (const of of command === 'transfer' ? rows : []) {
    const whom = `${of.account} ${of.holder}${of.name ? `, ${of.name}` : ''}`;
    takers.set(whom, (takers.get(whom) ?? 0) + of.count);
  }
  return sure(TABLES[command].title, t(COMMANDS[command].act), {final: true, doubts: firstOf(odd), notes: firstOf([...takers].map(([whom, n]) => t`${certificatesOf(n)} to account ${whom}`)),
    facts: [[t`File`, name], [t`From account`, String(account), 'account', await holderOf(account)], [t`Rows`, count(rows.length)], [t`Certificates`, count(sum(rows))], [t`Requests, all or none`, count(requests)]]});
}

/** Sends a plan as one bundle, and shows its documents once it is carried out. */
async function send(command, name, plan, shown) {
  const ownOf = (of) => command === 'transfer' ? {taker: of.account} : {beneficiary: of.beneficiary, use_first: of.use_first, use_last: of.use_last};
  const size = ({first, last}) => Number(last) - Number(first) + 1;
  const parts = plan.rows.flatMap((of) => of.ranges.map((span, i) => ({row: of.row, part: i + 1, count: size(span), own: {...ownOf(of), ...span}})));
  const bundle = bundleOf(command, {[TABLES[command].giver]: plan.account}, parts, t`${TABLES[command].title}: ${name}, ${rowsOf(plan.rows.length)}`);
  bundle.id = `t.${plan.digest}`;
  bundle.ranges.forEach((of, i) => { of.key = `${bundle.id}.${parts[i].row}.${parts[i].part}`; });
  const outcome = h('div', {'aria-live': 'polite'}), documents = h('div', {});
  shown.replaceChildren(h('div', {class: 'plan', 'data-table': plan.digest}, outcome, documents));
  await carry(bundle, outcome);
  outcome.dataset.answered = plan.digest;
  if (command !== 'cancel' || !bundle.ranges.every((of) => of.answer?.reply)) return;
  await followed();
  documents.replaceChildren(...[papers(plan.digest, plan.rows.map((of) => ({...of, numbers: bundle.ranges.filter((_, i) => parts[i].row === of.row).map(({answer}) => answer.reply.cancellation)})))].flat(Infinity));
}

