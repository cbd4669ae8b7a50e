// Sign-in: name and password, then a second factor: a one-time code or a security key. Whoever has none yet adds one here, and can do nothing else before.

import {h, result} from './dom.js';
import {askKey, chooseFactor, codeBox, isNoKey, NO_KEY} from './factors.js';
import {box, formOf} from './fields.js';
import {others, t} from './language.js';
import {Refusal, asked, changed} from './people.js';
import {way} from './way.js';

const view = document.getElementById('view');
const PROVIDER = '/people/v1/oidc/begin', KEPT = 'goo/provider', DAY = 86_400_000;
/** Whoever comes here from another page goes back to it. Nothing of the address is taken but what stands after its #. The front door shows this page in the place of the registry's own, too. */
const back = () => location.pathname.endsWith('.html') ? location.replace(`./${location.hash}`) : location.reload();

/** One text for each failure of a sign-in: which of the three was wrong is nobody's to learn. */
const FAILED = {good: false, title: t`Not signed in`, sentence: t`The name, the password or the code is wrong. Where the password is lost, your administrator can send you a link for a new one.`};
const later = (seconds) => ({good: false, title: t`Too many tries`, sentence: t`Wait ${seconds} seconds, then try again.`});
const ABSENT = {good: false, title: t`No answer`, sentence: t`The sign-in does not answer. Try again in a minute.`};

/** What came of a step, in words. */
const toldOf = (fault) => ({401: FAILED, 400: FAILED, 429: later(fault.wait || 10)}[fault.status] ?? ABSENT);

const show = (...children) => {
  view.replaceChildren(...children.flat(Infinity).filter(Boolean));
  view.querySelector('form [name]')?.focus();
};

/** A step's form, whose failures are told in one text each. */
const step = (title, act, fields, send, more = null) => formOf({kind: 'sign-in', title, act, fields, more, send: async (values) => {
  try { return await send(values); } catch (fault) {
    if (fault instanceof Refusal) return result(toldOf(fault));
    throw fault;
  }
}});

/** What comes after a step. `given` are name and password, which are kept in this page alone until the second factor is there. */
function next(said, given) {
  if (said.next === 'done') return back();
  if (said.next === 'enrol') return enrol();
  return second(said, given);
}

/** The second step: a code, or a key, or either. */
function second(said, given) {
  const hasCode = said.next === 'code' || said.code, options = said.key;
  const code = hasCode ? step('', t`Sign in`, [codeBox()], async ({code: typed}) => next(await changed('sign-in', {...given, code: typed}), given)) : null;
  const told = h('div', {role: 'status', 'aria-live': 'polite'});
  const touch = async () => {
    told.replaceChildren(h('p', {class: 'quiet'}, t`Put in your security key, and touch it when it blinks.`));
    try { next(await changed('sign-in/key', {assertion: await askKey(options)}), given); } catch (fault) {
      told.replaceChildren(result(isNoKey(fault) ? NO_KEY : toldOf(fault)));
    }
  };
  const key = options ? h('div', {class: 'buttons'}, h('button', {type: 'button', class: hasCode ? null : 'main', onclick: touch}, t`Use the security key`)) : null;
  show(h('h1', {}, t`Second factor`), h('p', {class: 'lead'}, t`The password alone signs nobody in.`), code, key, told, h('p', {}, h('button', {type: 'button', class: 'plain', onclick: () => first()}, t`Begin again`)));
  if (options && !hasCode) touch();
  return null;
}

/** Whoever has a right password and no second factor yet adds one, and is then signed in. */
async function enrol() {
  way.me = await asked('me');
  show(h('h1', {}, t`Add a second factor`), h('p', {class: 'lead'}, t`Whoever learns your password can do nothing without it. You need it each time you sign in.`), chooseFactor(back));
  return null;
}

/** Whether this host has an identity provider of the issuing body's: the front door then leads there. A browser asks once a day, as each question counts as a try to sign in. */
async function hasProvider() {
  try {
    const {at, is} = JSON.parse(localStorage.getItem(KEPT)) ?? {};
    if (Date.now() - at < DAY) return is;
  } catch { /* it is asked anew */ }
  const answer = await fetch(PROVIDER, {redirect: 'manual', cache: 'no-store'}).catch(() => null), is = answer?.type === 'opaqueredirect';
  try { if (is || answer?.status === 404) localStorage.setItem(KEPT, JSON.stringify({at: Date.now(), is})); } catch { /* it is asked each time */ }
  return is;
}

/** The way by that provider. */
async function provider() {
  if (await hasProvider()) document.querySelector('.provider')?.replaceChildren(h('a', {class: 'button', href: PROVIDER}, t`Sign in with the issuing body’s own account`));
}

/** The first step. */
function first() {
  const user = box({name: 'user', label: t`Name`, autocomplete: 'username', autocapitalize: 'none', maxlength: '200'}), password = box({name: 'password', label: t`Password`, type: 'password', autocomplete: 'current-password', maxlength: '200'});
  provider();
  show(h('h1', {}, t`Sign in`), step('', t`Go on`, [user, password], async (given) => next(await changed('sign-in', given), given)),
    h('p', {class: 'provider buttons'}), h('p', {class: 'quiet'}, h('a', {href: 'verify.html'}, t`Check a cancellation document`), ...others().flatMap(([name, choose]) => [' · ', h('button', {type: 'button', class: 'plain language', onclick: choose}, name)])));
  return null;
}

/** A session that is open goes on, unless its user signs in again to show a second factor of now; one of whoever has no second factor yet goes on with that. */
async function start() {
  if (location.search === '?again') return first();
  const open = await fetch('/people/v1/me', {cache: 'no-store'}).then((answer) => answer.ok ? answer.json() : null, () => null);
  if (open?.way === 'enrol') return enrol();
  return open?.user ? back() : first();
}

start();
