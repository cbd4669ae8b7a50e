// "Rules": which acts wait for a second user. The issuing body has rules for its own acts and for all holders; a holder's administrator has rules of its own. The stricter counts.

import {h, count, result} from './dom.js';
import {box, formOf, part, tick} from './fields.js';
import {t} from './language.js';
import {ungrouped} from './commands.js';
import {asked, changed} from './people.js';
import {session} from './session.js';
import {way} from './way.js';
import {waits} from './words.js';

const OF_BODY = {withdraw: t`Withdrawals`, correct: t`Corrections`, advance: t`Moves of the date`, open_holder: t`New holders`}, OF_HOLDERS = {transfer: t`Transfers`, cancel: t`Cancellations`, export: t`Exports`};
export const RULE_NAMES = {...OF_BODY, ...OF_HOLDERS};
const DAYS = 7, MOST_DAYS = 30, MOST = 10 ** 12;

/** The form of one rule: whether it holds, above which quantity, and for how many days it waits. */
function ruleForm(caller, command, name, of) {
  const isBody = caller === 'ISSUER';
  const above = box({name: 'above', label: t`Above so many certificates`, value: of ? count(of.above) : '0', inputmode: 'numeric', read: (text) => Number(ungrouped(text)), wrong: (value) => Number.isInteger(value) && value >= 0 && value <= MOST ? '' : t`A whole number.`});
  const days = box({name: 'days', label: t`Waits for so many days`, value: String(of?.days ?? DAYS), inputmode: 'numeric', read: (text) => Number(text.trim()), wrong: (value) => Number.isInteger(value) && value >= 1 && value <= MOST_DAYS ? '' : t`A whole number of 1 to ${MOST_DAYS}.`});
  const isOn = tick('on', isBody ? t`wait for a second officer` : t`wait for a second user`, Boolean(of));
  const send = async (given) => {
    const rule = {caller, command, ...given.on ? {above: isBody ? 0 : given.above, days: given.days} : {above: null}};
    const came = await changed('rules', rule);
    if (came === null) return null;
    if (came.outcome === 'waiting') return result(waits(came));
    return result({good: true, title: given.on ? t`The rule holds` : t`The rule is gone`, sentence: given.on ? t`It counts for each request from now on.` : t`What waits by it goes on to wait.`});
  };
  return formOf({kind: ['rule', command].join(' '), title: name, act: t`Keep it`, fields: [isOn, ...isBody ? [] : [above], days], send});
}

const forms = (caller, names, rules) => h('div', {class: 'rules'}, Object.entries(names).map(([command, name]) => ruleForm(caller, command, name, rules.find((of) => of.caller === caller && of.command === command))));

/** The body's rules for all holders, for a holder to read. */
const ofAll = (rules) => {
  const all = rules.filter((of) => of.caller === '*');
  return all.length ? h('ul', {}, all.map((of) => h('li', {}, t`${OF_HOLDERS[of.command] ?? of.command} above ${count(of.above)} certificates, for ${of.days} days`))) : h('p', {class: 'quiet'}, t`The issuing body has no rule for holders.`);
};

export async function rules() {
  const {items: list} = await asked('rules'), head = [h('h1', {}, t`Rules`), h('p', {class: 'lead'}, t`What a rule takes waits until a second user confirms it; it lapses after its days. Of two rules the stricter counts.`)];
  if (way.me.role === 'officer') return [head, part(t`The issuing body’s own acts`, forms('ISSUER', OF_BODY, list)), part(t`What all holders ask`, forms('*', OF_HOLDERS, list))];
  return [head, part(t`What users of ${session.caller} ask`, forms(session.caller, OF_HOLDERS, list)), part(t`What the issuing body wants of all holders`, ofAll(list))];
}
