// Tokens of programs: made here, shown once, revoked at once. A token may less than its user, never more.

import {actButton} from './act-button.js';
import {h, DAY, count, dayBox, result, table} from './dom.js';
import {box, formOf, part, tick} from './fields.js';
import {t} from './language.js';
import {ungrouped} from './commands.js';
import {changed, endOf, moment} from './people.js';
import {isDay} from './reading.js';
import {today} from './session.js';

const MOST_DAYS = 366;

/** A row of access in words. */
export function accessWords({account, reads, trades, cancels}) {
  const may = [reads && t`read`, trades && t`transfer and export`, cancels && t`cancel`].filter(Boolean).join(', ');
  return account === 0 ? t`each account: ${may}` : t`account ${account}: ${may}`;
}

/** What a token may do, in words. */
function scopeOf({reads, declares, trades, most, account}) {
  const words = [reads && t`reads`, declares && t`declares production`, trades && (most === null ? t`trades` : t`trades up to ${count(most)} a day`), account && t`account ${account} alone`];
  return words.filter(Boolean).join(', ');
}

/** What a token may be made to do. */
const ticks = (me, {mayDeclare, mayTrade}) => [tick('reads', t`reads`, me.role !== 'meters'), ...mayDeclare ? [tick('declares', t`declares production`, me.role === 'meters')] : [], ...mayTrade ? [tick('trades', t`trades: transfers, exports, cancels`)] : []];
/** What its user may, and so a token at most. */
const mayOf = (me) => ({mayDeclare: me.role === 'meters' || me.role === 'officer', mayTrade: me.access.some((of) => of.trades || of.cancels) || me.role === 'officer'});

/** The day so many days after today. */
const dayAfter = (days) => new Date(Date.parse(`${today()}T12:00:00Z`) + days * 86_400_000).toISOString().slice(0, 10);

function fields({mayTrade}) {
  const number = (text) => /^\d{1,12}$/.test(ungrouped(text)) && Number(ungrouped(text)) > 0 ? '' : t`A whole number.`, read = (text) => text === '' ? null : Number(ungrouped(text));
  return [box({name: 'name', label: t`What the program is called`, maxlength: '40', wrong: (text) => /^[!-~]([ -~]*[!-~])?$/.test(text) ? '' : t`Letters of A to Z, digits, signs and blanks.`}),
    box({name: 'ends', label: t`Last day`, ...DAY, value: dayAfter(90), hint: t`At most a year from today`, wrong: (day) => isDay(day) && day >= today() && day <= dayAfter(MOST_DAYS - 1) ? '' : t`A day from today on, at most a year away, such as 2025-03-31.`}),
    ...mayTrade ? [box({name: 'most', label: t`Certificates a day, at most`, hint: t`Empty: as many as you may`, optional: true, inputmode: 'numeric', wrong: () => '', read: (text) => text}),
      box({name: 'account', label: t`One account alone`, hint: t`Empty: each of your accounts`, optional: true, inputmode: 'numeric'})] : []]
    .map((of) => ['most', 'account'].includes(of.name) ? {...of, error: () => of.say(of.empty() ? '' : number(of.input.value)), value: () => read(of.input.value)} : of);
}

/** The secret of a new token, which is shown this once. */
function madeToken(name, token) {
  const copied = h('span', {class: 'quiet', role: 'status'}), box_ = h('input', {class: 'token', readonly: true, value: token, 'aria-label': t`The token`, onfocus: (event) => event.target.select()});
  const copy = h('button', {type: 'button', onclick: async () => { await navigator.clipboard.writeText(token).then(() => { copied.textContent = t`Copied.`; }, () => box_.focus()); }}, t`Copy`);
  return result({good: true, title: t`The token of ${name}`, sentence: t`It is shown this once. Whoever has it can do what it may: keep it where only the program reads it.`}, box_, h('p', {class: 'buttons'}, copy, copied),
    h('p', {class: 'quiet'}, t`The program sends it as “Authorization: Bearer”, or as the password beside your name.`));
}

/** The part of "My account" about tokens. */
export function tokensPart(me, redraw) {
  const send = async ({ends, ...given}, by) => {
    if (!given.reads && !given.declares && !given.trades) return result({good: false, title: t`Nothing may be done with it`, sentence: t`Tick at least one thing that it may do.`});
    const made = await changed('me/tokens', {declares: false, trades: false, ...given, most: given.trades ? given.most ?? null : null, account: given.trades ? given.account ?? null : null, ends: endOf(ends)});
    if (made === null) return null;
    by.name.input.value = '';
    await redraw(madeToken(given.name, made.token));
    return null;
  };
  const form = formOf({kind: 'token', act: t`Make a token`, fields: fields(mayOf(me)), ticks: ticks(me, mayOf(me)), send});
  form.querySelectorAll('input[name=ends]').forEach((input) => { const mark = document.createComment(''); input.replaceWith(mark); mark.replaceWith(dayBox(input)); });
  const revoke = (of) => actButton(t`Revoke`, redraw, {title: t`Revoke a token`, facts: [[t`Name`, of.name], [t`May`, scopeOf(of)]], notes: [t`The program that has it is refused from now on.`]}, () => changed(`me/tokens/${of.id}/revoke`), () => result({good: true, title: t`The token ${of.name} is revoked`}));
  return part(t`Tokens of programs`, me.tokens.length ? table(t`A program signs in with a token in place of a password.`, [[t`Name`, 'wide'], [t`May`, 'wide'], [t`Made`], [t`Ends`], [t`Last used`], ['', 'acts']], me.tokens.map((of) =>
    [of.name, scopeOf(of), moment(of.made), moment(of.ends), moment(of.used) || t`never`, revoke(of)])) : h('p', {class: 'quiet'}, t`You have no token.`), h('details', {}, h('summary', {}, t`Make a token`), form));
}
