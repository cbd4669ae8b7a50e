// An account: its statement, the list of all accounts, and what is saved of them.

import {h, table, longTable, facts, number, between, count, place, result, save, csvButton, keeping} from './dom.js';
import {bars, PLACES} from './charts.js';
import {form, ask} from './forms.js';
import {accounts as ownAccounts, notice} from './holdings.js';
import {t} from './language.js';
import {everyItem, records} from './records.js';
import {Unread, read, readAmongMany, statements} from './registry.js';
import {session, memory} from './session.js';
import * as texts from './texts.js';
import {problemOf} from './words.js';

// The columns of what is saved as CSV: a run of a statement, an account, a run that is held with its lot.
const RUN = ['first', 'last', 'count', 'device', 'first_day', 'last_day', 'tech', 'source', 'place', 'act'];
const ACCOUNT = ['account', 'holder', 'status', ...PLACES];
const TITLES = {held: 'Held', cancelled: 'Cancelled', expired: 'Expired', withdrawn: 'Withdrawn', exported: 'Exported'};
const HOLDING = ['first', 'last', 'count', 'device', 'country', 'site', 'tech', 'source', 'capacity_w', 'commissioned', 'support', 'first_day', 'last_day', 'issued_on', 'carrier'];

export async function account(chosen, said) {
  if (records.isThere && !chosen) {
    return [h('h1', {}, session.isIssuer ? 'Accounts' : 'Your accounts'), await notice(), session.isIssuer ? statementAsk() : null, ownAccounts(said), session.isIssuer ? null : closing()];
  }
  const {accounts} = memory.get();
  const known = Object.keys(accounts);
  const start = chosen ?? (session.isIssuer ? undefined : known[0]);
  return [
    h('h1', {}, 'Account'),
    known.length > 1 ? h('p', {class: 'known'}, 'Seen before: ', known.map((a) =>
      h('a', {href: `#account/${a}`, 'aria-current': a === start ? 'true' : null}, `${a} ${accounts[a]}`))) : null,
    statementAsk(start),
    session.isIssuer ? start === undefined && everyAccount() : closing(),
  ];
}

const statementAsk = (start) => ask('Statement', ['account', 'account', 'Number of the account'], 'Show statement', statement, start);

const closing = () => session.isFull && h('details', {}, h('summary', {}, 'Close an account'), form('close_account'));

/** Lists all accounts with their sums. */
function everyAccount() {
  const title = t`List all accounts`, answer = h('div', {'aria-live': 'polite'});
  const list = async () => {
    button.disabled = true;
    const rows = [];
    try {
      for await (const {facts: f} of statements()) {
        rows.push(f);
        button.textContent = t`Account ${count(rows.length + 1)}`;
      }
      answer.replaceChildren(...accountTable(rows));
    } catch (fault) { answer.replaceChildren(result(problemOf(fault))); }
    button.textContent = title;
    button.disabled = false;
  };
  const button = h('button', {type: 'button', onclick: list}, title);
  return [h('div', {class: 'buttons'}, button), answer];
}

function accountTable(rows) {
  if (rows.length === 0) return [h('p', {class: 'quiet'}, 'No account has been opened.')];
  const columns = [['Account'], ['Holder', 'wide'], ['Status'], ...PLACES.map((p) => [TITLES[p], 'right'])];
  const line = (name, holder, status, sums) => [name, holder, status, ...PLACES.map((p) => count(Number(sums[p])))];
  const all = Object.fromEntries(PLACES.map((p) => [p, rows.reduce((sum, f) => sum + Number(f[p]), 0)]));
  return [
    table(rows.length === 1 ? t`1 account, certificates by place` : t`${count(rows.length)} accounts, certificates by place`, columns, [
      ...rows.map((f) => line(h('a', {href: `#account/${f.account}`}, f.account), f.holder, t(f.status), f)),
      Object.assign(line(t`All`, '', '', all), {kind: 'total'})]),
    h('div', {class: 'buttons'}, csvButton(`accounts-${rows[0].registry}-${rows[0].date}`, () => texts.asCsv(ACCOUNT, rows))),
  ];
}

async function statement(a) {
  const {text, problem} = await read(`/v1/accounts/${a}/statement`);
  if (problem) return result(problem);
  const {facts: f, lines} = texts.document(text);
  memory.put((seen) => { seen.accounts[a] = f.holder; seen.registry = f.registry; seen.date = f.date; });
  const issued = (l) => l.first.startsWith(f.registry);
  const acts = !session.isFull ? [] : session.isIssuer ? ['withdraw', 'correct'] : f.holder === session.caller ? ['transfer', 'cancel'] : [];
  const way = (act, l) => `#${act}/${a}/${l.first}/${l.last}${act === 'correct' ? `/${l.device}/${l.first_day}` : ''}`;

  const months = new Map();
  for (const line of lines) {
    const month = line.first_day.slice(0, 7);
    if (!months.has(month)) months.set(month, Object.fromEntries(PLACES.map((p) => [p, 0])));
    months.get(month)[line.kind] += line.count;
  }
  const chart = bars(t`Certificates by month of production and by place`, [...months].sort()
    .map(([name, sums]) => ({name, parts: PLACES.map((p) => [p, sums[p]])})));

  const columns = [['Certificates', 'range'], ['Count', 'right'], ['Device', 'wide'], ['Period', 'wide'],
    ['Tech.'], ['Source'], ['Place', 'where'], ['', 'acts']];
  const rows = lines.map((l) => Object.assign([
    between(number(l.first), number(l.last)), count(l.count), l.device,
    between(l.first_day, l.last_day), l.tech, l.source,
    l.kind === 'cancelled' ? h('a', {href: `#document/${l.act}`}, place(l.kind, l.act)) : place(l.kind, l.act),
    l.kind === 'held' ? acts.filter((act) => act !== 'correct' || issued(l))
      .map((act) => [h('a', {href: way(act, l), 'aria-label': t`${t(act)}: ${l.first} to ${l.last}`}, act), ' ']) : '',
  ], {kind: l.kind}));
  const caption = lines.length === 1 ? t`1 run of certificates` : t`${count(lines.length)} runs of certificates`;
  return [
    facts([['Account', f.account], ['Holder', f.holder], ['Status', t(f.status)], ['Registry', f.registry], ['Date', f.date]], {class: 'head'}),
    h('ul', {class: 'sums', 'aria-label': 'Certificates by place'}, PLACES.map((p) =>
      h('li', {class: f[p] === '0' ? 'none' : null}, h('b', {}, count(Number(f[p]))), place(p)))),
    lines.length ? h('section', {class: 'chart'}, h('h3', {}, 'By month of production'), chart) : null,
    lines.length ? longTable(caption, columns, rows) : h('p', {class: 'quiet'}, 'This account has never held a certificate.'),
    keeping(`statement-${f.registry}-${a}-${f.date}`, text, () => texts.asCsv(RUN, lines.map((l) => ({...l, place: l.kind}))),
      lines.some(isHeld) && holdingsButton(`holdings-${f.registry}-${a}-${f.date}.csv`, a, lines.filter(isHeld))),
  ];
}

const isHeld = (line) => line.kind === 'held';

/** Saves the runs that are held, each with its whole lot. */
function holdingsButton(name, account, held) {
  const title = t`Save holdings as CSV`;
  return h('button', {type: 'button', onclick: async ({target: button}) => {
    button.disabled = true;
    try {
      const rows = records.isThere ? await everyItem('holdings', {account, by: 'run'}) : await withLots(held, (text) => { button.textContent = text; });
      save(name, texts.asCsv(HOLDING, rows), 'text/csv');
      button.textContent = title;
      button.disabled = false;
    } catch (fault) { button.replaceWith(result(problemOf(fault))); }
  }}, title);
}

/** The same by the registry alone: it tells a lot with one of its certificates, so each lot is asked for once. */
async function withLots(held, progress) {
  const lotOf = (l) => `${l.first.slice(0, 2)} ${l.device} ${l.first_day}`, lots = new Map(held.map((l) => [lotOf(l), l.first])), known = new Map();
  for (const [lot, first] of lots) {
    progress(t`Lot ${count(known.size + 1)} of ${count(lots.size)}`);
    const {text, problem} = await readAmongMany(`/v1/certificates/${first}`);
    if (problem) throw new Unread(problem);
    known.set(lot, {carrier: 'electricity', ...JSON.parse(text).lot});
  }
  return held.map((l) => ({...known.get(lotOf(l)), first: l.first, last: l.last, count: l.count}));
}
