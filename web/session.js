// Who is signed in, the day by the server's clock, and what this browser has seen.

import {t} from './language.js';
import {whoAmI} from './registry.js';
import {fieldsOf, findWay, way} from './way.js';

/** `reads` and `declares` are roles that allow less than `full`; the page leaves out what the front door would refuse. */
export const session = {caller: '', isIssuer: false, role: 'full', ahead: 0, get isFull() { return this.role === 'full'; }};

/** Asks the front door who is signed in; false where that is nobody whom the registry knows, and null where the browser goes to the page that signs in. */
export async function signIn() {
  if (!await findWay()) return null;
  const {caller, role, time} = await whoAmI();
  Object.assign(session, {caller, role, isIssuer: caller === 'ISSUER', ahead: time ? time - Date.now() : 0});
  return caller !== '';
}

const SIGNED_OUT = 'goo_signed_out', HERE = 'path=/; secure; samesite=strict';

/**
 * Forgets what this browser has seen of the caller's accounts, and ends his session or has the browser forget his password. Resolves to what it still has of him: '', 'session' where that is over,
 * or 'password'; or 'certificate', which no browser forgets, and with which nobody is signed in here from now on. Requests without an answer stay: they are the only way to
 * learn what became of them.
 */
export async function signOut() {
  localStorage.removeItem(`goo/seen/${session.caller}`);
  if (way.me) {
    const answer = await fetch('/people/v1/sign-out', {method: 'POST', body: '{}', headers: fieldsOf('application/json'), cache: 'no-store'});
    return answer.ok || answer.status === 401 ? 'session' : 'password';
  }
  await kept();                                 // the password goes with this answer; the next request no longer has it
  const still = await kept();
  if (still === 'certificate') document.cookie = `${SIGNED_OUT}=yes; ${HERE}`;
  return still;
}

/** What of the caller came with a request to sign out. A front door of before has no such route, and leaves the password. */
async function kept() {
  const answer = await fetch('/sign-out', {method: 'POST', cache: 'no-store'});
  return answer.status === 204 ? answer.headers.get('GOO-Kept') ?? '' : 'password';
}

/** Whether somebody has signed out in this browser, with a certificate. */
export const isSignedOut = () => document.cookie.includes(SIGNED_OUT);

/** Signs in again: the browser asks for a password, or sends its certificate. */
export function signInAgain() {
  document.cookie = `${SIGNED_OUT}=; max-age=0; ${HERE}`;
  location.assign(way.me ? 'sign-in.html' : './');
}

/** The day by the server's clock, in the time zone of this browser. */
export function today() {
  const at = new Date(Date.now() + session.ahead), two = (n) => String(n).padStart(2, '0');
  return `${at.getFullYear()}-${two(at.getMonth() + 1)}-${two(at.getDate())}`;
}

/** The same day of the month so many months on, or the last of that month. */
export function monthsAfter(day, months) {
  const [y, m, d] = day.split('-').map(Number), last = new Date(Date.UTC(y, m + months, 0)).getUTCDate();
  return new Date(Date.UTC(y, m - 1 + months, Math.min(d, last))).toISOString().slice(0, 10);
}

/** Accounts seen, the registry's code and date, by caller. Nothing depends on it, so what can't be read is forgotten. */
export const memory = {
  get() {
    try {
      const seen = JSON.parse(localStorage.getItem(`goo/seen/${session.caller}`));
      return {...seen, accounts: {...seen?.accounts}};
    } catch { return {accounts: {}}; }
  },
  put(change) {
    const seen = this.get();
    change(seen);
    try { localStorage.setItem(`goo/seen/${session.caller}`, JSON.stringify(seen)); } catch { /* no room: it is only forgotten */ }
    showFacts();
  },
};

export function showFacts() {
  const {registry, date} = memory.get();
  document.getElementById('facts').textContent = registry ? t`Registry ${registry}, date ${date}` : t`1 certificate = 1 MWh`;
}
