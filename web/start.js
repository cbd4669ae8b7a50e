// The page on which one lands, by role: for the issuing body what is late, what failed and what waits; for a holder what he
// has, what came in since he was here last, and which deadlines come; for whoever reads alone, what an auditor looks at first.

import {h, count, facts, result} from './dom.js';
import {PLACES} from './charts.js';
import {briefActs} from './history.js';
import {notice} from './holdings.js';
import {t} from './language.js';
import {asked as askedOfPeople} from './people.js';
import {asked, everyItem} from './records.js';
import {memory, monthsAfter, session, today} from './session.js';
import {way} from './way.js';
import {problemOf} from './words.js';

const DAYS = 7, SHOWN = 5, MOST = 1000;
/** The entry at which this caller was here last; it stays the same until the page is loaded anew. */
let before;

const daysBefore = (day, days) => new Date(Date.parse(`${day}T00:00:00Z`) - days * 86400000).toISOString().slice(0, 10);
const many = (items) => items.length === MOST ? t`${count(MOST)} and more` : count(items.length);
/** A part of the page; one that can't be read is told, and the others stand. */
async function part(title, make) {
  let made;
  try { made = await make(); } catch (fault) { made = [result(problemOf(fault))]; }
  return h('section', {class: 'part'}, h('h2', {}, title), made);
}
const nothing = (text) => h('p', {class: 'quiet'}, text);
const more = (href, text) => h('p', {class: 'way'}, h('a', {href}, text));
/** What stands out, with the way to it. */
const told = (text, href, way) => h('p', {class: 'result kept', role: 'note'}, text, ' ', h('a', {href}, way));

/** Whether other users' requests may wait for this one: with goo-people, and a role that confirms. */
const mayConfirm = () => way.me !== null && !['auditor', 'meters'].includes(way.me.role);

/** What others asked that waits for this user. */
async function toConfirm() {
  const items = (await askedOfPeople('waiting')).items.filter((of) => of.may.includes('confirm'));
  if (!items.length) return nothing(t`No request waits for you.`);
  return told(items.length === 1 ? t`1 request waits until you confirm or refuse it.` : t`${count(items.length)} requests wait until you confirm or refuse them.`, '#waiting', t`Which ones`);
}

// ------------------------------------------------------------------ the issuing body

/** The registry's date, and whether it is the day that it should be. */
async function date() {
  const {stands} = await asked('status'), day = today();
  memory.put((seen) => { Object.assign(seen, {registry: String(stands.code).padStart(2, '0'), date: stands.today}); });
  const late = stands.today < day;
  return [facts([[t`Registry’s date`, stands.today], [t`Today, by the server’s clock`, day], [t`Entry of the log`, count(stands.entry)]], {class: 'head'}),
    !late ? null : session.isFull ? told(t`The registry’s date is behind today. It is moved each night.`, '#date', t`Move it by hand`) : h('p', {class: 'result kept'}, t`The registry’s date is behind today. It is moved each night.`)];
}

/** The devices that have not declared the month that is over. */
async function late() {
  const {items} = await asked('undeclared', {limit: MOST});
  if (!items.length) return nothing(t`Each device has declared the last month.`);
  const lost = items.filter((of) => of.shut_out).length;
  return [told(items.length === 1 ? t`1 device has not declared ${items[0].month} to its end.` : t`${many(items)} devices have not declared ${items[0].month} to its end.`, '#lists/undeclared', t`Which ones`), lost ? nothing(t`${count(lost)} of them can no more: they have declared a later day.`) : null];
}

/** The issuing body's own requests that came to nothing in the last days. */
async function failed() {
  const {stands} = await asked('status'), from = daysBefore(stands.today, DAYS);
  const {items} = await asked('acts', {caller: session.caller, outcome: 'refused', from, limit: SHOWN});
  return items.length ? [briefActs(t`The newest, since ${from}`, items), more(`#lists/entered/${new URLSearchParams({outcome: 'refused', from})}`, t`All that were refused`)] : nothing(t`Nothing was refused since ${from}.`);
}

/** Notices of which the other registry has not said that it took them. */
async function waiting() {
  const items = (await asked('notices', {limit: MOST})).items.filter((of) => of.sent && of.fate !== 'accepted');
  if (!items.length) return nothing(t`No notice waits.`);
  const sum = count(items.reduce((all, of) => all + of.count, 0));
  return told(items.length === 1 ? t`1 notice was sent and not accepted yet, of ${sum} certificates.` : t`${count(items.length)} notices were sent and not accepted yet, of ${sum} certificates.`, '#lists/notices', t`Which ones`);
}

/** What takes certificates away again: an auditor asks why. */
async function taken() {
  const [withdrawn, lowered] = await Promise.all(['withdrawal', 'correction'].map((kind) => asked('acts', {kind, outcome: 'accepted', limit: SHOWN})));
  const items = [...withdrawn.items, ...lowered.items].sort((a, b) => b.id - a.id).slice(0, SHOWN);
  return items.length ? [briefActs(t`The newest`, items), more('#lists/withdrawals', t`All withdrawals`), more('#lists/corrections', t`All corrections`)] : nothing(t`Nothing was withdrawn or corrected.`);
}

// ------------------------------------------------------------------ a holder

/** The sums of all accounts of his. */
async function sums() {
  const items = await everyItem('accounts');
  if (!items.length) return nothing(t`You have no account yet.`);
  const all = Object.fromEntries(PLACES.map((place) => [place, items.reduce((sum, of) => sum + of[place], 0)]));
  return [h('ul', {class: 'sums'}, PLACES.map((place) => h('li', {class: all[place] ? null : 'none'}, h('b', {}, count(all[place])), t(place)))),
    more('#account', items.length === 1 ? t`1 account` : t`${count(items.length)} accounts`), more('#holdings', t`Holdings`)];
}

/** What came to his accounts since he was here last, or in the last weeks where he was not here before. */
async function cameIn() {
  const own = new Set((await everyItem('accounts')).map((of) => of.number));
  const {stands, items} = await asked('acts', {outcome: 'accepted', limit: 100});
  if (before === undefined) {
    before = memory.get().entry ?? 0;
    memory.put((seen) => { seen.entry = stands.entry; });
  }
  const isNew = (act) => before ? act.entry > before : act.day >= monthsAfter(stands.today, -1);
  const came = items.filter((act) => isNew(act) && own.has(act.taker?.account) && act.count > 0);
  const since = before ? t`since you were here last` : t`within a month`;
  return came.length ? [briefActs(t`${count(came.reduce((sum, act) => sum + act.count, 0))} certificates came in ${since}`, came.slice(0, SHOWN)), more('#history', t`All acts`)] : nothing(t`Nothing came in ${since}.`);
}

const deadlines = async () => await notice() ?? nothing(t`No deadline within 60 days.`);

/** What each role sees, in its order. */
const PARTS = {
  officer: [[t`The registry`, date], [t`What is late`, late], [t`What was refused`, failed], [t`Notices that wait`, waiting]],
  auditor: [[t`The registry`, date], [t`Withdrawn and corrected`, taken], [t`What is late`, late], [t`Notices that wait`, waiting]],
  holder: [[t`What you have`, sums], [t`What came in`, cameIn], [t`Deadlines`, deadlines]],
};

export async function start() {
  const role = !session.isIssuer ? 'holder' : session.isFull ? 'officer' : 'auditor';
  const parts = [...mayConfirm() ? [[t`Waits for you`, toConfirm]] : [], ...PARTS[role]];
  return [h('h1', {}, t`Start`), await Promise.all(parts.map(([title, make]) => part(title, make))), role === 'auditor' ? more('#audit', t`The audit, device by device`) : null];
}
