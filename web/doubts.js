// What a person is asked about before a request is sent, as most requests can't be taken back: facts about what it will
// do, and doubts, a sentence each. The registry would accept what is doubted here.

import {count, special} from './dom.js';
import {known, language, t} from './language.js';
import {LISTS} from './paper.js';
import {HEADER} from './reading.js';
import {asked, askedOf, everyItem, followed, records} from './records.js';
import {statementOf, statements} from './registry.js';
import {session, today, monthsAfter} from './session.js';

const MONTHS_OF_TRADE = 12, MONTHS_TO_EXPIRY = 18;


/** Doubts about a name: what in it can't be seen, or changes where its letters stand. */
export function aboutName(label, text) {
  const found = special(text);
  return found.length ? [t`${known(label)} has characters that cannot be seen, or that change the order of its letters: ${found.join(', ')}.`] : [];
}

/** Doubts about the codes of a device that no list of lists.js has. */
const aboutCodes = (values) => Object.entries(LISTS).filter(([field, {codes}]) => !Object.hasOwn(codes, values[field]))
  .map(([field, {what}]) => t`No list of the issuing body has the ${known(what)} ${values[field]}.`);

/** Doubts about a device. */
export const aboutDevice = (values) => [
  ...(values.commissioned > today() ? [t`The device is commissioned in the future, on ${values.commissioned}: today is ${today()}.`] : []), ...aboutCodes(values)];

/** Doubts about a period of production by the server's clock. */
export function aboutPeriod(first, last) {
  if (last >= today()) return [t`The period to ${last} is not over: today is ${today()}.`];
  return today() > monthsAfter(last, MONTHS_OF_TRADE) ? [t`The period to ${last} ended more than a year ago.`] : [];
}

const percent = (factor) => `${(100 * factor).toLocaleString(language, {maximumSignificantDigits: 3})} %`;
/** What the records ask about the energy of a row or a file, in words. */
const ENERGY = {
  nothing: () => t`Nothing was produced.`,
  below: ({factor}) => t`It is ${percent(factor)} of the capacity, below a thousandth: is it in Wh?`,
  above: ({factor, usual}) => t`It is ${percent(factor)} of the capacity, and ${percent(usual)} is plausible at most.`,
  less: ({factor, usual}) => t`It is ${percent(factor)} of the capacity, less than a tenth of the ${percent(usual)} of the last periods.`,
  more: ({factor, usual}) => t`It is ${percent(factor)} of the capacity, more than three times the ${percent(usual)} of the last periods.`,
  mostly: ({rows}) => t`${count(rows)} rows are below a thousandth of the capacity of their devices: is the file in kWh or MWh, and not in Wh?`,
  thousandth: () => t`The file is near a thousandth of what its devices made in the period before: is it in kWh, and not in Wh?`,
  millionth: () => t`The file is near a millionth of what its devices made in the period before: is it in MWh, and not in Wh?`,
  thousandfold: () => t`The file is near a thousandfold of what its devices made in the period before: which of the two is in Wh?`,
  millionfold: () => t`The file is near a millionfold of what its devices made in the period before: which of the two is in Wh?`,
};

/**
 * What the records say of the energy of a table of declarations: facts, what is asked about the file, and what about each
 * row by its number. They have the rule. Where they can't be asked, that is what is asked about.
 */
export async function aboutEnergy(table) {
  let found;
  if (!records.isThere && session.role !== 'declares') return {facts: [], file: [], rows: new Map(), more: 0};     // whoever may only declare can't see whether they are there
  try { found = await askedOf('doubts', table); } catch (fault) {
    return {facts: [], more: 0, rows: new Map(), file: [t`Nobody has looked whether the energy is plausible: ${known(fault.problem?.title ?? fault.message)}.`]};
  }
  const said = (of) => ENERGY[of.kind]?.(of) ?? of.text, [file, rows] = [found.doubts.filter(({row}) => !row), found.doubts.filter(({row}) => row)];
  return {facts: found.load_factor === null ? [] : [[t`Mean load factor`, percent(found.load_factor)]],
    file: file.map(said), rows: new Map(rows.map((of) => [of.row, said(of)])), more: found.more};
}

/** Doubts about a period of use, by the periods in which its certificates were produced. */
export function aboutUse(use, produced) {
  const first = produced.map((p) => p.first_day).sort()[0], last = produced.map((p) => p.last_day).sort().at(-1);
  return [
    use.use_last < first && t`The period of use ends before the production began, on ${first}.`,
    use.use_first > monthsAfter(last, 12) && t`The period of use begins more than a year after the production ended, on ${last}.`,
    use.use_last >= monthsAfter(use.use_first, 12) && 'The period of use is longer than a year.',
    use.use_first > today() && t`The period of use lies in the future: today is ${today()}.`,
  ].filter(Boolean);
}

/** Facts and doubts about a cancellation. */
async function ofCancel(values) {
  const statement = await statementOf(values.account);
  const lines = statement?.lines.filter((l) => l.first <= values.last && values.first <= l.last) ?? [];
  if (!lines.length) return {facts: [], doubts: []};               // the registry will say what is wrong
  const periods = [...new Set(lines.map((l) => t`${l.first_day} to ${l.last_day}`))];
  return {
    facts: [['Produced', periods.length < 4 ? periods.join(', ') : t`${count(periods.length)} periods, ${periods[0]} and others`]],
    doubts: values.use_last < values.use_first ? [] : aboutUse(values, lines),
  };
}

/** Days ahead that the list of deadlines reaches. Whatever is held expires within them. */
const MOST_DAYS = 4000;
const daysBetween = (first, last) => Math.round((Date.parse(last) - Date.parse(first)) / 86_400_000);

/** What a new date does to the certificates of each account, by the book: its list of deadlines up to the day before. */
async function byDeadlines(day) {
  await followed();
  const {stands: {today: date}} = await asked('status'), days = Math.min(MOST_DAYS, daysBetween(date, day) - 1);
  if (days < 0) return [];
  const lots = await everyItem('deadlines', {days});
  const found = new Map((lots.length ? await everyItem('accounts') : []).map(({number, holder}) => [number, {account: number, holder, expire: 0, close: 0}]));
  for (const of of lots) {
    const isOver = of.expires_on !== null && day > of.expires_on, closes = of.next === 'trade' && day > of.trade_until;
    if (isOver || closes) found.get(of.account)[isOver ? 'expire' : 'close'] += of.count;
  }
  return [...found.values()];
}

/** The same by the registry alone: every account's statement. */
async function byStatements(day, progress) {
  const found = [];
  for await (const {facts: f, lines: runs} of statements()) {
    progress(t`Looking at account ${f.account}.`);
    const held = runs.filter((run) => run.kind === 'held'), sum = (some) => some.reduce((n, run) => n + run.count, 0);
    const isOver = (run) => day > monthsAfter(run.last_day, MONTHS_TO_EXPIRY), lastDay = (run) => monthsAfter(run.last_day, MONTHS_OF_TRADE);
    found.push({account: f.account, holder: f.holder, expire: sum(held.filter(isOver)), close: sum(held.filter((run) => !isOver(run) && day > lastDay(run) && f.date <= lastDay(run)))});
  }
  return found;
}

/** What a new date would do: what expires and what can't be traded any more, in all and account by account. */
async function ofAdvance({day}, progress) {
  const sums = {expire: 0, close: 0}, lines = [];
  for (const {account, holder, expire, close} of await (records.isThere ? byDeadlines(day) : byStatements(day, progress))) {
    sums.expire += expire;
    sums.close += close;
    if (expire || close) lines.push(t`Account ${account} of ${holder}: ${count(expire)} expire, trade closes for ${count(close)}.`);
  }
  return {
    facts: [['Certificates that expire', count(sums.expire)], ['Trade closes for', sums.close === 1 ? t`1 certificate` : t`${count(sums.close)} certificates`]], notes: lines,
    doubts: day > today() ? [t`This is after today, ${today()}, and the date never moves back.`] : [],
  };
}

/** What one declaration comes to. */
async function ofDeclare(v) {
  const {facts, file, rows} = await aboutEnergy(`${HEADER}\none,${v.device},${v.first_day},${v.last_day},${v.gross_wh},${v.aux_wh}\n`);
  return {facts, doubts: [...aboutPeriod(v.first_day, v.last_day), ...file, ...rows.values()]};
}

const OF = {
  cancel: ofCancel,
  advance: ofAdvance,
  declare: ofDeclare,
  register_device: async (v) => ({facts: [], doubts: aboutDevice(v)}),
};

/** Facts, notes and doubts about a command. `fields` are those of its form; `progress` is told what is being read. */
export async function doubtsOf(command, fields, values, progress) {
  const {facts = [], notes = [], doubts = []} = await OF[command]?.(values, progress) ?? {};
  const names = fields.filter((f) => f.kind === 'name' && !f.empty()).flatMap((f) => aboutName(f.label, f.value()));
  return {facts, notes, doubts: [...doubts, ...names]};
}
