// "My account": what somebody signs in with, where he is signed in, the tokens of his programs, and which mails he gets.

import {actButton} from './act-button.js';
import {h, facts, result, table, written} from './dom.js';
import {chooseFactor, kindOf} from './factors.js';
import {box, formOf, newPassword, part} from './fields.js';
import {t} from './language.js';
import {mailPart} from './mail.js';
import {asked, changed, moment, roleOf} from './people.js';
import {accessWords, tokensPart} from './tokens.js';
import {way} from './way.js';

/** What goo-people says of me now. */
export async function myself() {
  way.me = await asked('me');
  return way.me;
}

/** The page drawn anew, with what was said last above it. */
const redraw = async (told) => document.querySelector('.my-account')?.replaceWith(h('div', {class: 'my-account', tabindex: '-1'}, told ? h('div', {role: 'status'}, told) : null, parts(await myself())));

// ------------------------------------------------------------------ password

function passwordPart() {
  const old = box({name: 'old', label: t`Present password`, type: 'password', autocomplete: 'current-password', maxlength: '200'});
  const faults = (fault, by) => [401, 403].includes(fault.status) && by.old.say(t`This is not your present password.`);
  return part(t`Password`, formOf({kind: 'password', act: t`Change the password`, fields: [old, ...newPassword(t`At least 12 characters. A few words are easier to keep than signs.`)], faults,
    send: async ({old: before, password}, by) => {
      if (await changed('me/password', {old: before, new: password}) === null) return null;
      for (const of of Object.values(by)) of.input.value = '';
      return result({good: true, title: t`The password is changed`, sentence: t`All other sessions of yours have ended.`});
    }}));
}

// ------------------------------------------------------------------ second factors

function factorsPart(me) {
  const added = async () => { await redraw(result({good: true, title: t`The second factor is added`, sentence: t`From the next sign-in on you can use it.`})); return null; };
  const remove = (of) => me.factors.length < 2 ? h('span', {class: 'quiet'}, t`the only one`) : actButton(t`Remove`, redraw, {title: t`Remove a second factor`, facts: [[t`Name`, of.name], [t`Kind`, kindOf(of)]]},
    () => changed(`me/factors/${of.id}/remove`), () => result({good: true, title: t`The second factor is removed`, sentence: t`All other sessions of yours have ended.`}));
  return part(t`Second factors`, table(t`You need one of these each time you sign in. Two are better: one may be lost.`, [[t`Name`, 'wide'], [t`Kind`], [t`Added`], [t`Last used`], ['', 'acts']], me.factors.map((of) =>
    [of.name, kindOf(of), moment(of.made), moment(of.used) || t`never`, remove(of)])), h('details', {}, h('summary', {}, t`Add a second factor`), chooseFactor(added)));
}

// ------------------------------------------------------------------ sessions

/** The browser and the system of a session, as far as its own words say. */
function deviceOf(agent) {
  const browser = [[/Edg\//, 'Edge'], [/Firefox\//, 'Firefox'], [/Chrom(e|ium)\//, 'Chromium'], [/Safari\//, 'Safari']].find(([form]) => form.test(agent))?.[1];
  const system = [[/Windows/, 'Windows'], [/Android/, 'Android'], [/iPhone|iPad/, 'iOS'], [/Mac OS/, 'macOS'], [/Linux/, 'Linux']].find(([form]) => form.test(agent))?.[1];
  return browser || system ? [browser, system].filter(Boolean).join(', ') : written(agent || '–');
}

/** Ends all sessions, and this page with them: nothing is drawn anew. */
async function signOutEverywhere() {
  if (await changed('sign-out-everywhere') !== null) location.replace('sign-in.html');
  return null;
}

function sessionsPart(me) {
  const everywhere = actButton(t`Sign out everywhere`, redraw, {title: t`Sign out everywhere`, notes: [t`Each browser in which you are signed in has to sign in again, this one too. Tokens of programs go on.`]}, signOutEverywhere);
  const end = (of) => of.here ? h('b', {}, t`this one`) : actButton(t`End`, redraw, {title: t`End a session`, facts: [[t`From`, of.address], [t`Signed in`, moment(of.begun)]]}, () => changed(`me/sessions/${of.id}/end`));
  return part(t`Sessions`, table(t`Where you are signed in. A session ends after half an hour without use, and after 12 hours.`, [[t`Signed in`, 'wide'], [t`Last used`, 'wide'], [t`From`], [t`Browser`, 'wide'], ['', 'acts']], me.sessions.map((of) =>
    [moment(of.begun), moment(of.seen), of.address, deviceOf(of.agent), end(of)])), h('div', {class: 'buttons'}, everywhere));
}

// ------------------------------------------------------------------ the page

function parts(me) {
  return [facts([[t`Name`, me.user], [t`For`, me.caller === 'ISSUER' ? t`Issuing body` : me.caller], [t`As`, roleOf(me)], ...me.access.length ? [[t`Accounts`, h('span', {}, me.access.map((of) => h('span', {class: 'line'}, accessWords(of))))]] : []], {class: 'head'}),
    passwordPart(), factorsPart(me), sessionsPart(me), tokensPart(me, redraw), mailPart(me, redraw)];
}

export async function myAccount() {
  return [h('h1', {}, t`My account`), h('div', {class: 'my-account', tabindex: '-1'}, parts(await myself()))];
}
