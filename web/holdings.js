// What is held: the caller's accounts, holdings by lot with filters and subtotals, a selection of them, and deadlines.

import {h, longTable, number, between, count, day, written} from './dom.js';
import {PLACES} from './charts.js';
import {ways} from './bundles.js';
import {chosen, toolbar} from './chosen.js';
import {t} from './language.js';
import {listing, fileLinks, stands} from './listing.js';
import {coded, wordFor} from './paper.js';
import {asked, everyItem} from './records.js';
import {session} from './session.js';

/** Days ahead that deadlines are told for. */
const DAYS = 60;

// ------------------------------------------------------------------ accounts

/** The accounts that the caller may see, with their sums; those of one holder, where the address says so. */
export function accounts(said) {
  const given = Object.fromEntries(new URLSearchParams(said ?? '')), filters = session.isIssuer ? [{name: 'q', label: t`Holder’s name or code`}] : [];
  const columns = [[t`Account`, '', 'number'], [t`Holder`, 'wide', 'name'], [t`Status`], ...PLACES.map((p) => [t(p), 'right']), ['', 'acts']];
  const row = (of) => [h('a', {href: `#account/${of.number}`}, of.number), [written(of.name), ' ', h('span', {class: 'code'}, of.holder)], of.closed ? t`closed` : t`open`, ...PLACES.map((p) => count(of[p])),
    [h('a', {href: `#holdings/${of.number}`}, t`holdings`), ' ', h('a', {href: `#history/${of.number}`}, t`history`)]];
  return listing({name: 'accounts', fixed: given.holder ? {holder: given.holder} : {}, given, filters, columns: () => columns, row, empty: t`No account fits.`});
}

/** What the next weeks bring, in one line with a way to the list; nothing where they bring nothing. */
export async function notice() {
  const items = await everyItem('deadlines', {days: DAYS}).catch(() => []);
  const sum = (next) => items.filter((of) => of.next === next).reduce((n, of) => n + of.count, 0);
  const told = [sum('trade') ? t`trade closes for ${count(sum('trade'))}` : '', sum('expiry') ? t`${count(sum('expiry'))} expire` : ''].filter(Boolean);
  return items.length ? h('p', {class: 'result kept', role: 'note'}, t`Within ${DAYS} days, of the certificates held: ${told.join(t` and `)}. `, h('a', {href: '#deadlines'}, t`Which ones`)) : null;
}

/** Lots of which something is held and whose trade closes, or that expire, soon. */
export async function deadlines() {
  const answer = {...await asked('deadlines', {days: DAYS, limit: 1}), items: await everyItem('deadlines', {days: DAYS})};
  const columns = [[t`Day`], [t`What`], [t`Count`, 'right'], [t`Account`], [t`Device`, 'wide'], [t`Period`, 'wide'], [t`Technology`, 'wide'], [t`Source`, 'wide'], ['', 'acts']];
  const row = (of) => Object.assign([day(of.next === 'trade' ? of.trade_until : of.expires_on), of.next === 'trade' ? t`trade closes` : t`expire`, count(of.count), of.account, [written(of.site), ' ', h('span', {class: 'code'}, of.device)],
    between(of.first_day, of.last_day), coded('tech', of.tech), coded('source', of.source), h('a', {href: `#holdings/${of.account}/${new URLSearchParams({device: of.device, from: of.first_day, to: of.last_day})}`}, t`holdings`)],
  {kind: of.next === 'trade' ? 'kept' : 'expired'});
  return [h('h1', {}, t`Deadlines`), h('p', {class: 'lead'}, t`Certificates can be transferred and exported for 12 months after their period, and cancelled for 18 months. These are the lots with a deadline within ${DAYS} days.`),
    answer.items.length ? longTable(stands(answer), columns, answer.items.map(row)) : h('p', {class: 'quiet'}, t`No deadline within ${DAYS} days.`),
    answer.items.length ? h('div', {class: 'buttons'}, fileLinks('deadlines', {days: DAYS})) : null];
}

// ------------------------------------------------------------------ holdings

const GROUPS = {lot: t`lot`, run: t`run of numbers`, device: t`device`, tech: t`technology`, source: t`energy source`, country: t`country`, carrier: t`carrier`, month: t`month of production`, trade_until: t`last day of trade`,
  expires_on: t`day of expiry`, account: t`account`};
const CODED = ['tech', 'source', 'country'];
const FILTERS_OF = ['device', 'tech', 'source', 'country', 'carrier', 'support', 'from', 'to', 'expires_before', 'tradable', 'q', 'commissioned_from', 'commissioned_to', 'capacity_from', 'capacity_to'];

/** The filters; the codes offered are those that the account has. */
async function filters(account) {
  const options = async (by) => [['', t`all`], ...(await asked('holdings', {account, by, limit: 1000})).items.map((of) => [of[by], CODED.includes(by) ? `${wordFor(by, of[by]) ?? ''} ${of[by]}`.trim() : t(of[by])])];
  const [tech, source, country, carrier] = await Promise.all(['tech', 'source', 'country', 'carrier'].map(options));
  return [
    {name: 'by', label: t`Added up by`, options: Object.entries(GROUPS)}, {name: 'q', label: t`Site or device`},
    {name: 'tech', label: t`Technology`, options: tech, first: true}, {name: 'source', label: t`Energy source`, options: source}, {name: 'country', label: t`Country`, options: country},
    {name: 'carrier', label: t`Carrier`, options: carrier}, {name: 'support', label: t`Support`, options: [['', t`all`], ...['none', 'investment', 'production', 'both'].map((of) => [of, t(of)])]},
    {name: 'from', label: t`Produced from`, type: 'date'}, {name: 'to', label: t`Produced to`, type: 'date'}, {name: 'expires_before', label: t`Expires by`, type: 'date'},
    {name: 'commissioned_from', label: t`In operation from`, type: 'date'}, {name: 'commissioned_to', label: t`In operation to`, type: 'date'}, {name: 'capacity_from', label: t`Capacity from, W`}, {name: 'capacity_to', label: t`Capacity to, W`},
    {name: 'tradable', label: t`Trade open`, type: 'checkbox', first: true},
  ];
}

const LOT = [[t`Device`, 'wide', 'site'], [t`Period`, 'wide', 'first_day'], [t`Technology`, 'wide', 'tech'], [t`Source`, 'wide', 'source'], [t`Country`, '', 'country'], [t`Carrier`, '', 'carrier'], [t`Support`, 'wide', 'support'],
  [t`Tradable until`, 'wide', 'trade_until'], [t`Expires on`, 'wide', 'expires_on']];
const lotCells = (of) => [[written(of.site), ' ', h('span', {class: 'code'}, of.device), ' ', h('span', {class: 'line quiet'}, t`since ${of.commissioned}`)], between(of.first_day, of.last_day), coded('tech', of.tech), coded('source', of.source), coded('country', of.country), t(of.carrier), t(of.support),
  day(of.trade_until), day(of.expires_on)];

/** What a sum is of, in words; the whole row leads to its lots. */
const groupCells = (of, by, account, said) => [h('a', {href: `#holdings/${account ?? ''}/${new URLSearchParams({...said, by: 'lot', ...narrowed(by, of[by])})}`}, CODED.includes(by) ? coded(by, of[by]) : of[by] ?? t`none`),
  count(of.count), count(of.runs)];
function narrowed(by, value) {
  if (by === 'month') return {from: `${value}-01`, to: new Date(Date.UTC(Number(value.slice(0, 4)), Number(value.slice(5)), 0)).toISOString().slice(0, 10)};
  return by === 'expires_on' || by === 'trade_until' ? {} : {[by]: value};
}

const isOfLots = (by) => by === 'lot' || by === 'run';
/** Whoever may only read has nothing to choose for. */
const isChosenBy = (by) => session.isFull && isOfLots(by);

/** The holdings of an account. `said` are filters, as the address has them. */
export async function holdings(account, said) {
  const own = session.isIssuer ? [] : await everyItem('accounts');
  const at = account || (own.length ? String(own[0].number) : undefined), given = {by: 'lot', ...Object.fromEntries(new URLSearchParams(said ?? ''))};
  if (!session.isIssuer && !own.length) return [h('h1', {}, t`Holdings`), h('p', {class: 'quiet'}, t`You have no account yet.`)];
  chosen.begin(at);
  const changed = (values) => globalThis.history.replaceState(null, '', `#holdings/${at ?? ''}/${new URLSearchParams(values)}`);
  const columns = ({by}) => isOfLots(by) ? [...(isChosenBy(by) ? [['', 'pick']] : []), ...(by === 'run' ? [[t`Certificates`, 'range', 'first']] : []), ...LOT, [t`Count`, 'right', 'count'], ...(by === 'lot' ? [[t`Runs`, 'right', 'runs']] : []), ...(hasActs(by, at) ? [['', 'acts']] : [])]
    : [[GROUPS[by][0].toUpperCase() + GROUPS[by].slice(1), 'wide', by], [t`Count`, 'right', 'count'], [t`Runs`, 'right', 'runs']];
  const row = (of, {by, ...rest}) => isOfLots(by) ? [...(isChosenBy(by) ? [chosen.box(of, by)] : []), ...(by === 'run' ? [between(number(of.first), number(of.last))] : []), ...lotCells(of), count(of.count), ...(by === 'lot' ? [count(of.runs)] : []), ...(hasActs(by, at) ? [actOf(of, by)] : [])]
    : groupCells(of, by, at, rest);
  const summary = ({sum}, values) => h('div', {class: 'summed'}, h('p', {}, h('b', {}, t`${count(sum.count)} certificates`), ' ', t`in ${count(sum.lots)} lots and ${count(sum.runs)} runs`),
    isChosenBy(values.by) && sum.count && at ? [chosen.allButton(() => everyItem('holdings', {...only(values), account: at, by: values.by})), chosen.quantityForm((asking) => asked('choice', {...only(values), account: at, ...asking}), session.isIssuer ? ['withdraw'] : ['transfer', 'cancel'])] : null);
  const list = listing({name: 'holdings', fixed: {account: at}, given, filters: await filters(at), columns, row, summary, caption: stands, empty: t`Nothing is held that fits.`, changed});
  return [h('h1', {}, t`Holdings`), switcher(own, at), list, toolbar(ways())];
}

/** The way from a row to its withdrawal, for whoever may: it alone is chosen. */
const hasActs = (by, at) => session.isIssuer && at !== undefined && isChosenBy(by);
const actOf = (of, by) => h('a', {href: '#selected/withdraw', 'aria-label': `${t('withdraw')}: ${of.site} ${of.first_day}`, onclick: () => {
  chosen.rows.clear();
  chosen.set(of, by, true);
}}, t('withdraw'));

const only = (values) => Object.fromEntries(FILTERS_OF.filter((name) => values[name]).map((name) => [name, values[name]]));

/** The way from account to account; the issuing body types a number. */
function switcher(own, at) {
  if (own.length > 1) return h('p', {class: 'known'}, t`Account:`, own.map((of) => [' ', h('a', {href: `#holdings/${of.number}`, 'aria-current': String(of.number) === at ? 'true' : null}, of.number)]));
  return h('p', {class: 'lead'}, at ? t`Account ${at}` : t`All accounts`);
}
