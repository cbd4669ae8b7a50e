// The way to goo-people: users, tokens, rules, and what waits for a second user. A change that a stolen session must not make wants a fresh second factor; it is asked for
// once the answer says so.

import {h} from './dom.js';
import {t} from './language.js';
import {Unread, pause} from './registry.js';
import {fieldsOf, known, way} from './way.js';
import * as words from './words.js';

const PREFIX = '/people/v1/', PATIENCE = 30_000;
/** How the sentence begins by which goo-people asks for a fresh second factor, and that on a wrong one: service/goo_service/people/fresh.py. */
const FRESH = /^this needs a fresh second factor/, WRONG = /^the code is wrong/;

/** An answer that is no: its status, the service's own sentence, and after how many seconds to try again. */
export class Refusal extends Unread {
  constructor(status, said, wait) {
    super(problemOf(status, said));
    Object.assign(this, {status, said, wait});
  }
}

const TITLES = {403: t`This is not allowed`, 404: t`This is not there`, 409: t`This does not fit`};

/** A refusal in words: the service's sentence names what it is about. */
function problemOf(status, said) {
  const of = words.unread(status);
  return {...of, title: TITLES[status] ?? of.title, ...(said ? {sentence: t`The service says: “${said}”. Nothing was done.`} : {})};
}

/** Asks once. With a body it is a change. */
async function once(name, body) {
  const how = body === undefined ? {} : {method: 'POST', body: JSON.stringify(body), headers: fieldsOf('application/json')};
  let answer;
  try { answer = known(await fetch(PREFIX + name, {cache: 'no-store', signal: AbortSignal.timeout(PATIENCE), ...how})); } catch { throw new Refusal(0); }
  const said = await answer.json().catch(() => null);
  if (answer.ok) return said;
  throw new Refusal(answer.status, said?.error, Number(answer.headers.get('Retry-After') ?? 0));
}

/** A question; again where the front door wants fewer. */
export async function asked(name, tries = 5) {
  try { return await once(name); } catch (fault) {
    if (fault.status !== 429 || tries === 1) throw fault;
    await pause(1000);
    return asked(name, tries - 1);
  }
}

/** A change. Where a fresh second factor is wanted it is asked for, and the same is sent with it. Resolves to null where the user went back. */
export async function changed(name, body = {}) {
  let told = '', sent = body;
  for (;;) {
    try { return await once(name, sent); } catch (fault) {
      const isWrong = 'code' in sent && fault.status === 403 && WRONG.test(fault.said);
      if (!isWrong && !(fault.status === 403 && FRESH.test(fault.said))) throw fault;
      told = isWrong ? t`This code is wrong, or was used before. Wait for the next one.` : '';
      const code = await askCode(told);
      if (code === null) return null;
      sent = {...body, code};
    }
  }
}

/** The form of a one-time code as it is typed: six digits, in groups or not. */
export const digitsOf = (text) => text.replace(/[\s-]/g, '');

/** Whether this user has a device that shows codes. A security key is asked for by signing in again. */
const hasApp = () => (way.me?.factors ?? []).some(({kind}) => kind === 'totp');

/** Asks for a one-time code. Resolves to null where the user goes back. */
function askCode(told) {
  const dialog = document.getElementById('sure'), code = h('input', {id: 'fresh', name: 'code', inputmode: 'numeric', autocomplete: 'one-time-code', maxlength: '9', 'aria-describedby': 'fresh-more'});
  const form = h('form', {class: 'fresh', novalidate: true, onsubmit: (event) => { event.preventDefault(); if (digitsOf(code.value)) dialog.close('yes'); }},
    hasApp() ? [h('label', {for: 'fresh'}, t`One-time code`), code, h('p', {class: told ? 'hint wrong' : 'hint', id: 'fresh-more'}, told || t`Six digits, from your device`)] : null,
    h('div', {class: 'buttons'}, hasApp() ? h('button', {type: 'submit', class: 'main'}, t`Go on`) : h('a', {class: 'button', href: `sign-in.html?again${location.hash}`}, t`Sign in`),
      h('button', {type: 'button', onclick: () => dialog.close('no')}, t`Go back`)));
  return new Promise((resolve) => {
    dialog.replaceChildren(h('h2', {id: 'sure-title'}, t`Show that it is you`),
      h('p', {class: 'quiet'}, hasApp() ? t`This changes who may do what, so a code of now is needed.` : t`This changes who may do what. Sign in again with your security key: for five minutes it is then not asked again.`), form);
    dialog.returnValue = 'no';
    dialog.addEventListener('close', () => resolve(dialog.returnValue === 'yes' ? digitsOf(code.value) : null), {once: true});
    dialog.showModal();
    if (hasApp()) code.focus();
  });
}

/** A moment as goo-people has it, in seconds or as a text, in UTC. */
export const moment = (of) => of ? `${(typeof of === 'string' ? of : new Date(of * 1000).toISOString()).slice(0, 16).replace('T', ' ')} UTC` : '';
/** Seconds of the end of a day, UTC. */
export const endOf = (day) => Date.parse(`${day}T23:59:59Z`) / 1000;

/** What each role of goo-people is called. */
export const ROLE_NAMES = {officer: t`officer`, second: t`second officer`, auditor: t`auditor`, meters: t`meter data`, user: t`user`, peer: t`another registry`};
export const roleOf = ({role, administrator}) => administrator ? t`administrator` : ROLE_NAMES[role] ?? role;
