// "Waiting": what waits for a second user: what it will do, in words, who asked for it and until when. Another user confirms or refuses it; whoever asked takes it back.

import {actButton} from './act-button.js';
import {COMMANDS} from './commands.js';
import {h, between, count, facts, number, result, written} from './dom.js';
import {known, t} from './language.js';
import {asked, changed, moment} from './people.js';
import {holderOf} from './records.js';
import {RULE_NAMES} from './rules.js';
import {way} from './way.js';
import * as words from './words.js';

const STATES = {waiting: t`waits`, sending: t`is being sent`, sent: t`was sent`, refused: t`was refused`, withdrawn: t`was taken back`, lapsed: t`has lapsed`};
/** Requests of a bundle that are shown one by one. */
const FEW = 20;

const redraw = async (told) => document.querySelector('.waits')?.replaceWith(h('div', {class: 'waits'}, told ? h('div', {role: 'status'}, told) : null, await parts((await asked('waiting')).items)));

// ------------------------------------------------------------------ what a request will do, in words

/** What stands in the place of a route where a rule is to be made looser: service/goo_service/people/loosening.py. */
const RULE = '/people/v1/rules';
const parsed = (text) => { try { return JSON.parse(text); } catch { return null; } };
/** The requests of a body: one, or those of a bundle, a line each. */
export const requestsOf = ({target, body}) => target.startsWith('/v1/bundles') ? body.split('\n').filter(Boolean).map(parsed) : [parsed(body)];

const sizeOf = (of) => of.first && of.last ? Number(of.last) - Number(of.first) + 1 : 0;
/** Whether a request is too long to be shown whole. */
const isShort = (of) => new TextEncoder().encode(of.body).length < of.length;
/** How many certificates requests name in all. */
export const sum = (all) => all.reduce((n, of) => n + (of ? sizeOf(of) : 0), 0);

/** The name and the value of each field of a request, by the words of its form; one that this page does not know as it was written. */
export function toldOf(of) {
  const named = new Map((COMMANDS[of.command]?.fields ?? []).map(([name, kind, label]) => [name, [label, kind]]));
  return Object.entries(of).filter(([name, value]) => !['command', 'key', 'first', 'last'].includes(name) && value !== '').map(([name, value]) => {
    const [label, kind] = named.get(name) ?? [name, ''];
    return [known(label), typeof value === 'object' ? JSON.stringify(value) : String(value), kind];
  });
}

const rangeOf = (of) => of.first ? [[t`Certificates`, h('span', {}, between(number(of.first), number(of.last)), ' ', h('span', {class: 'quiet'}, t`(${count(sizeOf(of))})`))]] : [];
/** Names of accounts, as far as the reader may know them. */
const withNames = (pairs) => Promise.all(pairs.map(async ([label, value, kind]) => [label, kind === 'account' ? [value, ' ', h('span', {class: 'name'}, written(await holderOf(value).catch(() => '')))] : written(value)]));

/** What a looser rule will do: it is confirmed as a request is. */
const ruleOf = (of) => h('div', {class: 'asked'}, h('h3', {}, t`Change of a rule`), facts([[t`Rule`, [RULE_NAMES[of.command] ?? of.command, of.caller === '*' ? t` of all holders` : '']],
  ...of.above === null ? [[t`From then on`, t`nothing waits by it`]] : [[t`Above so many certificates`, count(of.above)], [t`Waits for so many days`, String(of.days)]]]));

/** What one request will do. */
async function oneOf(of, target) {
  if (target === RULE && of) return ruleOf(of);
  if (!of?.command) return h('p', {}, t`This cannot be read here.`);
  return h('div', {class: 'asked'}, h('h3', {}, t(COMMANDS[of.command]?.title ?? of.command)), facts([...rangeOf(of), ...await withNames(toldOf(of))]));
}

/** What a bundle will do: its sum, then its requests, the first of them one by one. */
async function manyOf(all) {
  const kinds = [...new Set(all.map((of) => of?.command))];
  return [facts([[t`Requests`, count(all.length)], [t`Act`, kinds.map((command) => known(COMMANDS[command]?.title ?? String(command))).join(', ')], [t`Certificates`, count(sum(all))]], {class: 'head'}),
    h('details', {}, h('summary', {}, all.length > FEW ? t`The first ${FEW} of them` : t`One by one`), await Promise.all(all.slice(0, FEW).map((one) => oneOf(one))))];
}

// ------------------------------------------------------------------ what came of it

/** The registry's answer to what was sent. */
function answerOf(of) {
  const value = parsed(of.answer ?? ''), [first] = requestsOf(of);
  if (value?.outcome === 'refused') return result(words.refusal(value.code, value.number));
  if (value?.outcome) return result({good: true, title: value.outcome === 'repeated' ? t`Done already` : t`Accepted`, sentence: words.done(first?.command, value.reply ?? {})});
  return of.status === 200 ? result({good: true, title: t`Answered`, sentence: t`Look at the history for what came of each request.`}) : result({...words.status(of.status ?? 0)});
}

const isMine = (of) => of.user === way.me.user;

/** The buttons of one that waits: nobody confirms his own. */
function buttonsOf(of) {
  const ask = (title, notes) => ({title, facts: [[t`Number`, String(of.number)], [t`Asked by`, of.user], [t`Why it waits`, words.whyOf(of.why)]], notes});
  if (isMine(of)) return h('div', {class: 'buttons'}, actButton(t`Take it back`, redraw, ask(t`Take a request back`, [t`Nothing is sent.`]), () => changed(`waiting/${of.number}/withdraw`), () => result({good: true, title: t`Number ${of.number} is taken back`})),
    h('span', {class: 'quiet'}, t`You have asked for it: another user confirms it.`));
  if (!of.may.includes('confirm')) return h('p', {class: 'quiet'}, t`You have not the right to confirm this.`);
  return h('div', {class: 'buttons'}, actButton(t`Confirm`, redraw, {...ask(t`Confirm a request`, []), final: true, isMain: true}, () => changed(`waiting/${of.number}/confirm`), (came) => h('div', {}, result({good: true, title: t`Number ${of.number} is confirmed`, sentence: came.state === 'sending' ? t`It is being sent to the registry.` : ''}), came.state === 'sending' || of.target === RULE ? null : answerOf({...of, ...came}))),
    actButton(t`Refuse`, redraw, ask(t`Refuse a request`, [t`Nothing is sent.`]), () => changed(`waiting/${of.number}/refuse`), () => result({good: true, title: t`Number ${of.number} is refused`})));
}

/** One that waits, or that has waited. */
async function cardOf(of) {
  const all = requestsOf(of), isOpen = of.state === 'waiting';
  return h('article', {class: `certificate wait ${of.state}`, 'aria-label': t`Number ${of.number}`}, h('h2', {}, t`Number ${of.number}`, ' ', h('span', {class: isOpen ? 'word kept' : 'quiet'}, STATES[of.state] ?? of.state)),
    facts([[t`Asked by`, isMine(of) ? t`you` : of.user], [t`Asked`, moment(of.asked)], ...isOpen ? [[t`Waits until`, moment(of.ends)]] : [], [t`Why it waits`, words.whyOf(of.why)], ...of.decided ? [[t`Decided by`, of.decider ?? t`the service`], [t`Decided`, moment(of.decided)]] : []], {class: 'head'}),
    !of.body ? null : all.length > 1 ? await manyOf(all) : await oneOf(all[0], of.target), isShort(of) ? h('p', {class: 'quiet'}, t`It is too long to be shown whole: what stands here is its beginning.`) : null, isOpen ? buttonsOf(of) : of.state === 'sent' ? answerOf(of) : null);
}

// ------------------------------------------------------------------ the page

async function parts(list) {
  const open = list.filter((of) => of.state === 'waiting' || of.state === 'sending'), over = list.filter((of) => !open.includes(of));
  return [open.length ? await Promise.all(open.map(cardOf)) : h('p', {class: 'quiet'}, t`Nothing waits for a second user.`), over.length ? h('details', {}, h('summary', {}, t`What was decided`), await Promise.all(over.map(cardOf))) : null];
}

export async function waiting() {
  const {items: list} = await asked('waiting');
  return [h('h1', {}, t`Waiting`), h('p', {class: 'lead'}, t`What cannot be taken back waits here until a second user confirms it, where a rule says so.`), h('div', {class: 'waits'}, await parts(list))];
}
