// Declarations: a file of them, read before anything is sent, and one by hand.

import {h, busy, csvButton, longTable, number, written, between, count, result} from './dom.js';
import {aboutEnergy, aboutPeriod} from './doubts.js';
import {drop, form, sure} from './forms.js';
import {language, t} from './language.js';
import {HEADER, readDeclarations} from './reading.js';
import {asked, followed, records} from './records.js';
import {newKey, submitAmongMany} from './registry.js';
import {session} from './session.js';
import * as texts from './texts.js';
import * as words from './words.js';

const MOST_BYTES = 1048576;
/** Devices whose earlier declarations are looked up for rows that are only repeated. */
const MOST_DEVICES = 100;
/** Rows of one kind that a question names. */
const FEW = 5;
const rowsOf = (n) => n === 1 ? t`1 row` : t`${count(n)} rows`;
const grouped = (digits) => /^\d{1,16}$/.test(digits ?? '') ? count(BigInt(digits)) : digits;
const COLUMNS = [[t`Row`, 'right'], [t`Key`], [t`Device`, 'wide'], [t`Period`, 'wide'], [t`Gross Wh`, 'right wide'], [t`Aux. Wh`, 'right wide'], [t`Answer`, 'answer']];
const ISSUED = [[t`Issued`, 'right'], [t`Certificates`, 'range']];
const FAILED = ['fault', 'refused', 'unreadable', 'held-back', 'unanswered'];
/** What is saved of a file that was sent: its rows with what came of each. */
const SAVED = ['row', 'key', 'device', 'first_day', 'last_day', 'gross_wh', 'aux_wh', 'outcome', 'reason', 'count', 'first', 'last'];

export function declare() {
  const shown = h('div', {'aria-live': 'polite'});
  const take = async (file) => shown.replaceChildren(...(await taken(file, shown)).flat(Infinity).filter(Boolean));
  return [h('h1', {}, t`Declare production`),
    drop(t`Drop a CSV here, or choose one`, t`Its first line: ${HEADER}. The whole file is read before anything is sent.`, '.csv,text/csv', take),
    shown, session.role === 'declares' ? null : form('declare')];
}

/** What a file comes to before it is sent: what is at fault in it, or the button that sends it. */
async function taken(file, shown) {
  if (file.size > MOST_BYTES) return [result(words.status(413), h('p', {}, t`Split the file; each part begins with the header line.`))];
  const {rows, faults} = readDeclarations(new TextDecoder('utf-8', {ignoreBOM: true}).decode(await file.arrayBuffer()));
  const whole = faults.find(({row}) => row === 0);
  if (whole) return [result({good: false, title: t`Nothing was sent: ${whole.field}`, sentence: whole.reason})];
  if (faults.length) return atFault(file.name, rows, faults);
  const energy = await aboutEnergy(tableOf(rows));
  const button = h('button', {type: 'button', class: 'main', onclick: () => busy(button, async () => {
    if (!await isMeant(file.name, rows, energy)) return;
    const {answers, outcome, rounds} = await sendInOrder(file.name, rows, (n) => { button.textContent = t`${count(n)} of ${count(rows.length)} answered`; });
    shown.replaceChildren(...sentFile(file.name, rows, answers, outcome, rounds));
    document.dispatchEvent(new CustomEvent('answered'));
  })}, t`Declare ${rowsOf(rows.length)}`);
  const asked = rows.map((_, i) => energy.rows.has(i + 1) && {word: 'kept', said: [h('b', {class: 'word kept'}, t`Is this meant?`), ' ', energy.rows.get(i + 1)]});
  return [asDoubted(energy), listOf(file.name, rows, asked), h('div', {class: 'buttons'}, button)];
}

const tableOf = (rows) => [HEADER, ...rows.map((fields) => fields.join())].join('\n') + '\n';

/** What is doubtful about a file that has no fault, above its rows. */
function asDoubted({file, rows}) {
  if (!file.length && !rows.size) return null;
  return result({kept: true, title: rows.size ? t`To be looked at before it is sent: ${rowsOf(rows.size)}` : t`To be looked at before it is sent`, sentence: file.join(' ')});
}

/** A file with rows at fault: nothing of it is sent. */
function atFault(name, rows, faults) {
  const at = new Map(rows.map((_, i) => [i, faults.filter(({row}) => row === i + 1)]).filter(([, found]) => found.length));
  return [result({good: false, title: at.size === 1 ? t`Nothing was sent: 1 row of ${count(rows.length)} is at fault` : t`Nothing was sent: ${count(at.size)} rows of ${count(rows.length)} are at fault`,
    sentence: t`Correct the file and choose it again. A later period of a device would shut out an earlier one for good, so nothing is sent while a row is at fault.`}),
  listOf(name, rows, rows.map((_, i) => at.has(i) && {word: 'fault', said: at.get(i).map(({field, reason}) => h('p', {}, h('b', {class: 'word refused'}, field), ' ', reason))}))];
}

/** A file that was sent: what came of it, row by row, with the certificates of each row once the records tell of them. */
function sentFile(name, rows, answers, outcome, rounds) {
  const list = h('div', {}, listOf(name, rows, answers)), told = h('p', {class: 'quiet', role: 'status'});
  if (records.isThere && answers.some((answer) => ['accepted', 'repeated'].includes(answer?.word))) {
    told.textContent = t`Looking up what was issued.`;
    issuedBy(rounds, rows, answers).then(() => {
      list.replaceChildren(...listOf(name, rows, answers, true));
      const all = answers.reduce((sum, answer) => sum + (answer?.issued?.count ?? 0), 0);
      told.textContent = t`${count(all)} certificates were issued for these rows.`;
    }, (fault) => told.replaceWith(result(words.problemOf(fault))));
  }
  return [...summary(answers, outcome), told, list, h('div', {class: 'buttons'}, csvButton(`issued-${name.replace(/\.csv$/i, '')}`, () => texts.asCsv(SAVED, rows.map((fields, i) => savedRow(fields, i, answers[i])))))];
}

const savedRow = ([key, device, first_day, last_day, gross_wh, aux_wh], i, answer) => ({row: i + 1, key, device, first_day, last_day, gross_wh, aux_wh, outcome: answer?.word ?? 'not sent', reason: answer?.reason ?? '',
  ...(answer?.issued ? {count: answer.issued.count, first: answer.issued.first, last: answer.issued.last} : {})});

/** The rows with what was said of them: those that failed first, as they have to be looked at. */
function listOf(name, rows, answers, isIssued = false) {
  const all = rows.map((fields, i) => ({fields, number: i + 1, answer: answers[i]}));
  const failed = all.filter(({answer}) => answer && [...FAILED, 'kept'].includes(answer.word));
  const rest = all.filter((row) => !failed.includes(row)), some = [...failed, ...rest];
  const caption = h('span', {}, written(name), `, ${rowsOf(rows.length)}`, failed.length && rest.length ? failed.every(({answer}) => answer.word === 'kept') ? t`; ${count(failed.length)} to be looked at come first` : t`; ${count(failed.length)} that failed come first` : '');
  return longTable(caption, isIssued ? [...COLUMNS, ...ISSUED] : COLUMNS, some.map(({fields: [key, device, first, last, gross, aux], number: at, answer}) => Object.assign(
    [count(at), key, device, first || last ? between(first ?? '', last ?? '') : '', grouped(gross), grouped(aux), answer ? answer.said : h('span', {class: 'quiet'}, t`not sent`), ...(isIssued ? issuedCells(answer?.issued) : [])],
    {kind: answer?.word})));
}

const issuedCells = (issued) => issued ? [count(issued.count), issued.count ? between(number(issued.first), number(issued.last)) : ''] : ['', ''];

/** Asks before a file is sent, with its sums and what is odd about its periods. */
function isMeant(name, rows, energy) {
  const days = rows.flatMap(([, , first, last]) => [first, last]).sort();
  const odd = rows.filter(([, , first, last]) => aboutPeriod(first, last).length);
  return sure(t`Declare production`, t`Declare ${rowsOf(rows.length)}`, {final: true,
    facts: [[t`File`, name], [t`Rows`, count(rows.length)], [t`Devices`, count(new Set(rows.map(([, device]) => device)).size)], [t`Periods`, between(days[0], days.at(-1))],
      [t`Net production`, sumOf(rows)], ...energy.facts],
    doubts: [...energy.file, ...firstOf([...energy.rows].map(([row, said]) => t`Row with the key ${rows[row - 1][0]}: ${said}`), energy.more),
      ...firstOf(odd.map(([key, , first, last]) => t`Row with the key ${key}: ${aboutPeriod(first, last)[0]}`))]});
}

/** The first few of many doubts, and how many more there are. */
const firstOf = (doubts, others = 0) => [...doubts.slice(0, FEW), ...(doubts.length > FEW ? [t`${count(doubts.length - FEW + others)} more rows are like these.`] : [])];

const sumOf = (rows) => `${(Number(rows.reduce((total, [, , , , gross, aux]) => total + BigInt(gross) - BigInt(aux), 0n)) / 1e6).toLocaleString(language, {maximumFractionDigits: 6})} MWh`;

/**
 * Sends the rows in rounds: of each device the next one, which waits for the answer to the one before. Where a row is not
 * accepted, the later ones of its device are held back: accepted, they would shut its period out for good.
 */
async function sendInOrder(name, rows, progress) {
  const answers = [], rounds = [], waiting = new Map();
  rows.forEach(([, device], i) => {
    if (!waiting.has(device)) waiting.set(device, []);
    waiting.get(device).push(i);
  });
  while (waiting.size) {
    const round = [...waiting.values()].map((queue) => queue.shift()).sort((a, b) => a - b);
    const outcome = await sendRound(name, rows, round);
    if (!outcome.report) {
      round.forEach((i) => { answers[i] = {word: 'unanswered', reason: 'no answer', said: t`no answer`}; });
      return {answers, rounds, outcome};
    }
    rounds.push({entry: outcome.entry, round});
    texts.report(outcome.report).forEach(({word, code}, at) => { answers[round[at]] = answerOf(word, code); });
    for (const i of round) {
      const queue = waiting.get(rows[i][1]);
      if (FAILED.includes(answers[i].word)) queue.splice(0).forEach((later) => { answers[later] = heldBack(i + 1); });
      if (!queue.length) waiting.delete(rows[i][1]);
    }
    progress(answers.filter(Boolean).length);
  }
  return {answers, rounds};
}

const sendRound = (name, rows, round) => submitAmongMany(session.caller, {key: newKey(), command: 'declarations', path: '/v1/declarations', rows: round.map((i) => i + 1),
  body: [HEADER, ...round.map((i) => rows[i].join())].join('\n') + '\n',
  told: t`Declarations: ${name}, ${rowsOf(round.length)} of ${count(rows.length)}. Once they are answered, choose the file again and send it whole.`});

/** Gives each row that is declared what was issued for it: count, first and last number. */
async function issuedBy(rounds, rows, answers) {
  await followed(Math.max(0, ...rounds.map(({entry}) => entry)));
  for (const {entry, round} of rounds.filter((of) => of.entry)) {
    for (let before; before !== null;) {
      const page = await asked('acts', {entry, limit: 1000, before});
      for (const act of page.items) {
        const answer = answers[round[act.line - 1]];
        if (answer && act.outcome === 'accepted') answer.issued = {count: act.count, first: act.ranges[0]?.first, last: act.ranges.at(-1)?.last};
      }
      before = page.next;
    }
  }
  const lacking = rows.map((fields, i) => ({fields, answer: answers[i]})).filter(({answer}) => answer?.word === 'repeated' && !answer.issued);
  for (const device of [...new Set(lacking.map(({fields}) => fields[1]))].slice(0, MOST_DEVICES)) {
    const {items} = await asked('declarations', {device, limit: 1000}), known = new Map(items.map((of) => [of.first_day, of]));
    for (const {fields, answer} of lacking.filter((of) => of.fields[1] === device)) {
      const of = known.get(fields[2]);
      if (of) answer.issued = {count: of.first ? Number(of.last) - Number(of.first) + 1 : 0, first: of.first, last: of.last};
    }
  }
}

const heldBack = (row) => ({word: 'held-back', reason: t`row ${row} of this device was refused`, said: [h('b', {class: 'word kept'}, t`held back`), t` Not sent, as row ${count(row)} of this device was refused.`]});

function answerOf(word, code) {
  const {title, sentence} = words.row(word, code);
  return {word, reason: title, said: [h('b', {class: `word ${word}`}, t(word)), ' ', title && `${title}. `, word === 'accepted' ? '' : t(sentence)]};
}

/** What became of a file, above the list of its rows. */
function summary(answers, outcome) {
  const n = (word) => answers.filter((answer) => answer?.word === word).length;
  const failed = FAILED.some((word) => n(word));
  const again = t`Correct the refused rows and send the whole file again: rows that are declared are only repeated. Rows held back were not sent, so the refused period can still be declared.`;
  return [outcome && result(outcome), result({good: !failed, kept: failed, title: t`${count(n('accepted'))} accepted, ${count(n('repeated'))} declared before, ${count(n('refused') + n('unreadable'))} refused, ${count(n('held-back'))} held back`,
    sentence: failed && !outcome ? again : ''})].filter(Boolean);
}
