// One command over many ranges of numbers: sent as one bundle, a request a line (docs/HTTP.md). Before it is sent the whole bundle
// is kept in localStorage, each range with its key, until its answer has come. So a bundle whose answer got lost is sent again as
// it was, and the registry answers `repeated` instead of doing it twice.

import {h, busy, longTable, facts, number, between, count, result, csvButton} from './dom.js';
import {chosen} from './chosen.js';
import {COMMANDS} from './commands.js';
import {aboutName, aboutUse} from './doubts.js';
import {field, named, sure} from './forms.js';
import {known, t} from './language.js';
import {asList} from './paper.js';
import {askable, factsOf, partnerOf, sendable} from './partner.js';
import {asked, everyItem, holderOf} from './records.js';
import {bodyOf, last, newKey, pause} from './registry.js';
import {session} from './session.js';
import {fieldsOf, known as inWay} from './way.js';
import * as texts from './texts.js';
import * as words from './words.js';

const MOST_LOTS = 100;                         // of one request: an export takes no more
export const MOST_LINES = 5000;                // of one bundle
const TRIES = 60;                              // where the front door wants fewer requests, or nothing can be tried for now
const prefix = () => `goo/bundle/${session.caller}/`;
const underway = new Set();
/** The commands that take a selection; the field of the account that it is taken from; its way on the toolbar. */
const GIVER = {transfer: 'giver', cancel: 'account', export: 'giver', withdraw: null};
const TITLES = {transfer: t`Transfer the selection`, cancel: t`Cancel the selection`, export: t`Export the selection`, withdraw: t`Withdraw the selection`};

/** The buttons of the toolbar. */
export const ways = () => (session.isIssuer ? ['withdraw'] : ['transfer', 'cancel', 'export']).map((command) =>
  h('button', {type: 'button', class: 'main', onclick: () => { location.hash = `selected/${command}`; }}, t(COMMANDS[command].act)));

// ------------------------------------------------------------------ what is chosen, as ranges

/** The runs that are chosen, the lowest first. */
async function chosenRuns() {
  const rows = [...chosen.rows.values()], lotOf = (of) => `${of.origin} ${of.device} ${of.first_day}`, lots = new Set(rows.map(lotOf));
  const runs = chosen.by === 'run' ? rows : (await everyItem('holdings', {account: chosen.account, by: 'run'})).filter((of) => lots.has(lotOf(of)));
  return runs.sort((a, b) => a.first.localeCompare(b.first));
}

/** Ranges of numbers that follow each other made one, up to so many lots. */
export function joined(runs) {
  const ranges = [];
  for (const run of runs) {
    const last = ranges.at(-1);
    if (last && Number(run.first) === Number(last.last) + 1 && last.lots < MOST_LOTS) Object.assign(last, {last: run.last, count: last.count + run.count, lots: last.lots + 1});
    else ranges.push({first: run.first, last: run.last, count: run.count, lots: 1});
  }
  return ranges;
}

const sum = (of) => of.reduce((n, one) => n + one.count, 0);

// ------------------------------------------------------------------ sending

const stored = (name) => {
  try { return JSON.parse(localStorage.getItem(name)); } catch { return null; }
};

/** The bundles of this caller that have no answer. */
export const openBundles = () => Object.keys(localStorage).filter((name) => name.startsWith(prefix())).map(stored)
  .filter((bundle) => Array.isArray(bundle?.ranges) && !underway.has(bundle.id));

const keep = (bundle) => localStorage.setItem(prefix() + bundle.id, JSON.stringify(bundle));
const forget = (bundle) => localStorage.removeItem(prefix() + bundle.id);

/** A bundle of requests: fields that all have, and those that each has of its own. `whole`: all are done, or none. */
export function bundleOf(command, fields, ranges, told, whole = true) {
  const id = newKey().slice(0, 22);
  return {id, at: new Date().toISOString(), command, fields, told, whole, ranges: ranges.map(({own, first, last: end, count: n}, i) => ({own: own ?? {first, last: end}, count: n, key: `${id}.${i + 1}`}))};
}

const bodyOfAll = ({command, fields, ranges}) => ranges.map(({own, key}) => `${bodyOf(command, key, {...fields, ...own})}\n`).join('');

/** Sends a bundle, and waits where it is to be sent again in a while. Resolves to what came of it; each range then has its answer, if there is one. */
async function sent(bundle) {
  underway.add(bundle.id);
  try {
    let outcome = await once(bundle);
    for (let tries = TRIES; outcome.again && tries > 0; tries--) {
      await pause(1000 * Math.max(1, outcome.wait));
      outcome = await once(bundle);
    }
    if (!outcome.kept) forget(bundle);
    return outcome;
  } finally { underway.delete(bundle.id); }
}

async function once(bundle) {
  let answer, text;
  try {
    answer = inWay(await fetch(`/v1/bundles${bundle.whole === false ? '' : '?whole=yes'}`, {method: 'POST', body: bodyOfAll(bundle), headers: fieldsOf('application/x-ndjson')}));
    text = await answer.text();
  } catch { return {...words.status(0), kept: true}; }
  bundle.entry = Number(answer.headers.get('GOO-Entry') ?? 0);
  last.entry = Math.max(last.entry, bundle.entry);
  return judge(bundle, answer.status, text, Number(answer.headers.get('Retry-After') ?? 0));
}

const parsed = (text) => {
  try { return JSON.parse(text); } catch { return null; }
};

const inWords = (of) => of?.outcome === 'refused' ? words.refusal(of.code, of.number) : words.fault(of?.fault);

function judge(bundle, status, text, wait) {
  const lines = status === 200 ? text.trimEnd().split('\n').map(parsed) : [];
  if (status === 200 && lines.length === bundle.ranges.length) {
    lines.forEach((of, i) => { bundle.ranges[i].answer = of?.reply ? {reply: of.reply} : inWords(of); });
    return {good: true};
  }
  const of = parsed(text);
  if (status === 202) return words.waits(of);
  if (of?.outcome) return {...inWords(of), refused: bundle.ranges[(of.line ?? 1) - 1]};
  const kept = ![400, 403, 404, 413].includes(status), again = [429, 503].includes(status) && typeof of?.error === 'string' && wait <= words.LONG_WAIT;
  return {...(typeof of?.error === 'string' ? words.reason(status, of.error, wait) : words.status(status)), kept, again, wait};
}

const done = (bundle) => bundle.ranges.filter((of) => of.answer?.reply), refused = (bundle) => bundle.ranges.filter((of) => of.answer && !of.answer.reply);
const numbersOf = (bundle, name) => done(bundle).map((of) => of.answer.reply[name]);

/** What one request is of: a range, or a device. */
const said = ({own}) => own.first ? between(number(own.first), number(own.last)) : own.device;

const DONE = {transfer: (n) => t`${count(n)} certificates moved.`, cancel: (n) => t`${count(n)} certificates cancelled.`, export: (n) => t`${count(n)} certificates exported.`, withdraw: (n) => t`${count(n)} certificates withdrawn.`,
  register_device: (n) => t`${count(n)} devices registered.`};

/** What came of a bundle. */
function outcomeOf(bundle, outcome) {
  if (outcome.refused) return refusedWhole(bundle, outcome);
  if (!outcome.good) return [result(outcome)];
  const good = done(bundle), bad = refused(bundle);
  const title = bad.length ? t`${count(bad.length)} of ${count(bundle.ranges.length)} requests were refused` : t`All ${count(bundle.ranges.length)} requests are accepted`;
  return [result({good: !bad.length, title, sentence: DONE[bundle.command]?.(sum(good)) ?? ''}, papers(bundle)),
    bad.length ? longTable(t`Refused`, [[t`Certificates`, 'range'], [t`Count`, 'right'], [t`Answer`, 'answer']], bad.map((of) =>
      Object.assign([said(of), count(of.count), [`${of.answer.title} `, of.answer.number ? number(of.answer.number) : '', ` ${of.answer.sentence}`]], {kind: 'refused'}))) : null,
    h('div', {class: 'buttons'}, csvButton(`${bundle.command}-${bundle.id}`, () => texts.asCsv([...Object.keys(bundle.ranges[0].own), 'count', 'key', 'outcome', 'document'], bundle.ranges.map((of) =>
      ({...of.own, ...of, outcome: of.answer.reply ? 'accepted' : of.answer.title, document: of.answer.reply?.cancellation ?? of.answer.reply?.notice ?? of.answer.reply?.withdrawal})))))];
}

/** Nothing was done, and which of the requests was why. */
const refusedWhole = (bundle, outcome) => [result({...outcome, good: false, title: t`Nothing was done: ${outcome.title}`, sentence: outcome.sentence}),
  facts([[bundle.command === 'register_device' ? t`Device` : t`Certificates`, said(outcome.refused)], [t`Request`, t`${count(bundle.ranges.indexOf(outcome.refused) + 1)} of ${count(bundle.ranges.length)}`]])];

/** The way to what the bundle made. */
function papers(bundle) {
  if (!done(bundle).length) return null;
  if (bundle.command === 'cancel') return h('p', {}, h('a', {href: `#document/${asList(numbersOf(bundle, 'cancellation'))}`}, t`One document for all of them, for printing`));
  if (bundle.command === 'export') return h('p', {}, t`Notices ${asList(numbersOf(bundle, 'notice'))}`);
  return bundle.command === 'withdraw' ? h('p', {}, t`Withdrawals ${asList(numbersOf(bundle, 'withdrawal'))}`) : null;
}

/** Keeps a bundle, sends it, and shows what came of it. Resolves to the outcome. */
export async function carry(bundle, shown) {
  try { keep(bundle); } catch {
    const outcome = {good: false, title: 'Not sent', sentence: 'This browser has no room to keep the request until its answer comes.'};
    shown.replaceChildren(result(outcome));
    return outcome;
  }
  const outcome = await carried(bundle, shown);
  redraw();
  return outcome;
}

/** Sends a bundle, and shows that it is under way and what came of it. */
async function carried(bundle, shown) {
  shown.replaceChildren(h('progress', {'aria-label': t`Under way`}), h('p', {class: 'quiet'}, t`${count(bundle.ranges.length)} requests are on their way as one. This may take a minute.`));
  const outcome = await sent(bundle);
  shown.replaceChildren(h('div', {role: 'status'}, outcomeOf(bundle, outcome)));
  return outcome;
}

/** Has the head of the page drawn anew, with what was said last. */
const redraw = (told) => document.dispatchEvent(new CustomEvent('answered', {detail: {said: told}}));

/** The bundles that have no answer, for the head of the page. */
export const bundlesLeft = () => openBundles().map((bundle) => {
  const shown = h('div', {'aria-live': 'polite'});
  const again = h('button', {type: 'button', class: 'main', onclick: async () => { for (const b of [again, leave]) b.disabled = true; await carried(bundle, shown); redraw(shown); }}, 'Send again');
  const leave = h('button', {type: 'button', onclick: async () => {
    if (!await sure(t`Leave it`, t`Leave it`, {facts: [[t`Requests without an answer`, count(bundle.ranges.length)]], doubts: [t`They may have been carried out: look at the history.`]})) return;
    forget(bundle);
    redraw();
  }}, t`Leave it`);
  return h('li', {class: 'bundle'}, h('p', {}, h('b', {}, bundle.told), h('span', {class: 'quiet'}, ` ${bundle.at.slice(0, 16).replace('T', ' ')} UTC`), h('br'), t`${count(bundle.ranges.length)} requests, sent as one.`), again, leave, shown);
});

// ------------------------------------------------------------------ the page

/** The common fields of a command, without those of its ranges and of the account that gives. */
const commonFields = (command) => COMMANDS[command].fields.filter(([name]) => ![GIVER[command], 'first', 'last'].includes(name));

/** The page that asks for the rest of a command and sends it for all that is chosen. */
export async function selected(command) {
  if (!Object.hasOwn(GIVER, command) || chosen.rows.size === 0) return [h('h1', {}, t`Selection`), h('p', {class: 'quiet'}, t`Nothing is chosen.`), h('p', {}, h('a', {href: `#holdings${chosen.account ? `/${chosen.account}` : ''}`}, t`Holdings`))];
  const runs = await chosenRuns(), {stands} = await asked('holdings', {account: chosen.account, limit: 1}), account = Number(chosen.account);
  const isClosed = (of) => ['transfer', 'export'].includes(command) && of.trade_until && of.trade_until < stands.today;
  const usable = runs.filter((of) => !isClosed(of)), ranges = joined(usable), left = sum(runs.filter(isClosed));
  const head = [h('h1', {}, TITLES[command]), facts([[t`From account`, [account, ' ', await holderOf(account)]], [t`Certificates`, count(sum(usable))], [t`Ranges of numbers`, count(ranges.length)]], {class: 'head'}),
    left ? result({kept: true, title: t`${count(left)} certificates are left out`, sentence: t`Their trade is closed: they can be cancelled, but no longer transferred or exported.`}) : null];
  const tooMany = ranges.length > MOST_LINES ? result({good: false, title: t`These are ${count(ranges.length)} ranges of numbers`, sentence: t`At most ${count(MOST_LINES)} go at once: choose fewer.`}) : null;
  return [...head, tooMany, ranges.length && !tooMany ? bundleForm(command, account, usable, ranges) : null, h('details', {}, h('summary', {}, t`What is chosen`), takenTable(usable)),
    h('p', {}, h('a', {href: `#holdings/${chosen.account}`}, t`Back to the holdings`))];
}

const takenTable = (runs) => longTable(t`${count(runs.length)} runs`, [[t`Certificates`, 'range'], [t`Count`, 'right'], [t`Device`, 'wide'], [t`Period`, 'wide']], runs.map((of) =>
  [between(number(of.first), number(of.last)), count(of.count), `${of.site} ${of.device}`, between(of.first_day, of.last_day)]));

function bundleForm(command, account, runs, ranges) {
  const whole = h('input', {type: 'checkbox', name: 'whole', checked: true}), all = askable(commonFields(command)).map((spec) => field(spec)), shown = h('div', {'aria-live': 'polite', tabindex: '-1'}), {title, act} = COMMANDS[command];
  const button = h('button', {type: 'submit', class: 'main'}, t(act), ' ', count(sum(ranges)));
  const onsubmit = async (event) => {
    event.preventDefault();
    const wrong = all.filter((f) => f.error());
    if (wrong.length) { wrong[0].box.focus(); return; }
    const values = Object.fromEntries(sendable(all).map((f) => [f.name, f.value()])), given = factsOf(all);
    const doubts = [...all.filter((f) => f.kind === 'name').flatMap((f) => aboutName(f.label, f.value())), ...(command === 'cancel' && values.use_last >= values.use_first ? aboutUse(values, runs) : [])];
    await busy(button, () => meant(values, given, doubts).catch((fault) => shown.replaceChildren(result(words.problemOf(fault)))));
  };
  const meant = async (values, given, doubts) => {
    const partner = await partnerOf(command, Object.fromEntries(all.map((f) => [f.name, f])));
    if (partner.stop) { partner.stop.box.focus(); return; }
    const asking = await named([...(GIVER[command] ? [[t`From account`, String(account), 'account']] : []), ...given, [t`Certificates`, count(sum(ranges))], [t`Requests, one a range`, count(ranges.length)], [t`If one is refused`, whole.checked ? t`nothing is done` : t`the others are done`]]);
    if (!await sure(t(title), t(act), {facts: asking, notes: partner.notes, doubts, final: true})) return;
    const bundle = bundleOf(command, {...(GIVER[command] ? {[GIVER[command]]: account} : {}), ...values}, ranges, `${t(title)}: ${[[t`Certificates`, count(sum(ranges))], ...given].map(([n, v]) => `${known(n)} ${v}`).join(', ')}`, whole.checked);
    chosen.clear();
    form.querySelectorAll('input, button').forEach((e) => { e.disabled = true; });
    shown.focus();
    await carry(bundle, shown);
  };
  const form = h('form', {class: `command bundle ${command}`, novalidate: true, onsubmit, 'aria-label': TITLES[command]}, h('div', {class: 'fields'}, all.map((f) => f.node)),
    h('p', {}, h('label', {class: 'whole'}, whole, t` All or nothing: if one range is refused, nothing is done`)), h('div', {class: 'buttons'}, button));
  return [form, shown];
}
