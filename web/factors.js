// Second factors: a device that shows one-time codes, and security keys by WebAuthn.

import {h, result} from './dom.js';
import {box, formOf} from './fields.js';
import {known, t} from './language.js';
import {qr} from './paper.js';
import {changed, digitsOf} from './people.js';

// ------------------------------------------------------------------ one-time codes

/** The field of a one-time code. */
export const codeBox = (hint = t`Six digits, from your device`) => box({name: 'code', label: t`One-time code`, hint, inputmode: 'numeric', autocomplete: 'one-time-code', maxlength: '9', read: digitsOf,
  wrong: (text) => /^\d{6}$/.test(text) ? '' : t`A one-time code has six digits.`});

/** A secret in groups of four, as people type it. */
const grouped = (secret) => secret.match(/.{1,4}/g).join(' ');

/** Adds a device that shows codes: its QR code, the same to be typed, and the first code of it. `done()` comes once the code was right. */
export async function addApp(name, done) {
  const made = await changed('me/factors/totp', name ? {name} : {});
  if (!made) return [];
  const faults = (fault, by) => fault.status === 400 && by.code.say(t`This code is not right. Wait for the next one, and look whether the clock of the device is right.`);
  return [h('div', {class: 'enrol'}, h('ol', {},
    h('li', {}, h('p', {}, t`Open an app for one-time codes on your telephone, and scan this picture with it.`), qr(made.qr, t`QR code for an app of one-time codes`)),
    h('li', {}, h('p', {}, t`Or type this into the app:`), h('p', {class: 'secret'}, grouped(made.secret)), h('p', {}, h('a', {href: made.uri}, t`Open it in an app of this device`))),
    h('li', {}, h('p', {}, t`Type the code that the app shows now.`)))),
  formOf({kind: 'first-code', act: t`Finish`, fields: [codeBox()], faults, send: async ({code}) => {
    if (await changed('me/factors/totp/confirm', {id: made.id, code}) === null) return null;
    return done();
  }})];
}

// ------------------------------------------------------------------ security keys

const bytesOf = (text) => Uint8Array.from(atob(text.replaceAll('-', '+').replaceAll('_', '/')), (c) => c.charCodeAt(0));
export const textOf = (buffer) => btoa(String.fromCharCode(...new Uint8Array(buffer))).replaceAll('+', '-').replaceAll('/', '_').replace(/=+$/, '');
const withIds = (list = []) => list.map((of) => ({...of, id: bytesOf(of.id)}));

/** Whether this browser has security keys. */
export const hasKeys = () => 'credentials' in navigator && 'PublicKeyCredential' in globalThis;

/** What a security key answers to a new registration, with each part as base64url. */
export async function createKey(options) {
  const made = await navigator.credentials.create({publicKey: {...options, challenge: bytesOf(options.challenge), user: {...options.user, id: bytesOf(options.user.id)}, excludeCredentials: withIds(options.excludeCredentials)}});
  return {id: made.id, clientDataJSON: textOf(made.response.clientDataJSON), attestationObject: textOf(made.response.attestationObject)};
}

/** What a security key answers to a challenge. */
export async function askKey(options) {
  const got = await navigator.credentials.get({publicKey: {...options, challenge: bytesOf(options.challenge), allowCredentials: withIds(options.allowCredentials)}}), of = got.response;
  return {id: got.id, clientDataJSON: textOf(of.clientDataJSON), authenticatorData: textOf(of.authenticatorData), signature: textOf(of.signature)};
}

/** What is said where a key gave no answer: it was taken out, was not touched in time, or is not one of this user's. */
export const NO_KEY = {good: false, title: t`The security key did not answer`, sentence: t`Put it in, touch it when it blinks, and try again. A key that was added before is not added twice.`};
export const isNoKey = (fault) => fault instanceof DOMException;

/** Adds a security key under a name. Resolves to null where the user went back. */
export async function addKey(name) {
  const begun = await changed('me/factors/key/begin', {name});
  if (!begun) return null;
  return changed('me/factors/key/finish', {name, credential: await createKey(begun.key)});
}

/** Both ways to add a first or a further factor. `done()` resolves to what is shown once one was added. */
export function chooseFactor(done) {
  const shown = h('div', {'aria-live': 'polite'}), show = (...made) => shown.replaceChildren(...made.flat(Infinity).filter(Boolean));
  const app = formOf({kind: 'add-app', title: t`A telephone with an app for one-time codes`, act: t`Add a telephone`, fields: [nameOf(t`Telephone`)],
    send: async ({name}) => { show(await addApp(name, done)); shown.scrollIntoView({block: 'nearest'}); shown.querySelector('input')?.focus({preventScroll: true}); return null; }});
  const key = hasKeys() ? formOf({kind: 'add-key', title: t`A security key`, act: t`Add a security key`, fields: [nameOf(t`Security key`)],
    send: async ({name}) => {
      show();
      let added;
      try { added = await addKey(name); } catch (fault) { if (isNoKey(fault)) return result(NO_KEY); throw fault; }
      return added === null ? null : done();
    }}) : null;
  return [h('div', {class: 'pair'}, app, key), shown];
}

const nameOf = (value) => box({name: 'name', label: t`What you call it`, value, maxlength: '60'});

/** What a factor is called. */
export const kindOf = ({kind}) => known({totp: t`one-time codes`, key: t`security key`}[kind] ?? kind);
