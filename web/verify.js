// The public check: whether the number and the check code of a document belong together, and what the registry has under
// them. Nobody signs in for it. The address in a document's QR code has both, and checks at once.

import {h, result} from './dom.js';
import {language, t} from './language.js';
import {sheet} from './paper.js';

const shown = h('div', {'aria-live': 'polite'});
const given = new URLSearchParams(location.search);
const box = (name, label, hint) => [h('div', {class: 'field'}, h('label', {for: name}, label), h('input', {id: name, name, value: given.get(name), autocomplete: 'off', spellcheck: 'false', 'aria-describedby': `${name}-more`}), h('p', {class: 'hint', id: `${name}-more`}, hint))];

const PROBLEMS = {
  404: [t`They do not belong together`, t`The registry has no document of this number with this code. Compare both with the document, letter by letter: what was printed may have been changed.`],
  400: [t`Not readable`, t`A document’s number is written as 07-42-170. Older documents have the numbers of cancellations, as 7, 1-30, “1 to 30” or “1, 3 and 7”.`],
  429: [t`Too many at once`, t`Wait a minute and try again.`],
};

const CHANGED = [t`Not as it was sealed`, t`The registry has not sealed this file, or it was changed since. Type the number and the code that stand on it, and compare what is shown.`];
const UNSEALED = [t`No sealed PDF`, t`This file has no seal of a registry. Type the number and the code that stand on it.`];
const MOST = 2 ** 24;

const tell = ([title, sentence]) => shown.replaceChildren(result({good: false, title, sentence}));

/** Checks a number and a code, of a file its seal too, and shows what the registry has. */
async function check(number, code, seal = {}) {
  shown.replaceChildren(h('p', {class: 'quiet'}, t`Looking.`));
  const answer = await fetch(`/verify?${new URLSearchParams({number, code, lang: language, ...seal})}`, {cache: 'no-store'}).catch(() => null);
  if (!answer?.ok) {
    tell(answer?.status === 404 && seal.seal ? CHANGED : PROBLEMS[answer?.status] ?? [t`No answer`, t`The check does not answer. Try again in a minute.`]);
    return;
  }
  const {paper, sealed} = await answer.json();
  shown.replaceChildren(sealed ? result({good: true, title: t`The file is as the registry sealed it`, sentence: t`No byte of it was changed. This is what the registry has under its number.`})
    : result({good: true, title: t`They belong together`, sentence: t`This is what the registry has under this number. Compare it with the document: the beneficiary, the period, the sum and the summary have to be the same.`}), sheet(paper, 'h2'));
}

function typed(event) {
  event.preventDefault();
  const {number, code} = event.target.elements;
  return check(number.value, code.value);
}

const LINE = /\n%goo-seal 1 ([0-9,-]{1,300}) ([A-Z2-7]{4}(?:-[A-Z2-7]{4}){3}) ([A-Za-z0-9+/]{86}==)\n$/;

/** Checks a PDF by its seal. The file stays here: only its number, its code, its SHA-256 and its seal are sent. */
async function dropped(event) {
  const [file] = event.target.files;
  if (!file) return undefined;
  if (file.size > MOST) return tell(UNSEALED);
  const bytes = new Uint8Array(await file.arrayBuffer()), found = LINE.exec(new TextDecoder('latin1').decode(bytes.slice(-500)));
  if (!found) return tell(UNSEALED);
  const digest = new Uint8Array(await crypto.subtle.digest('SHA-256', bytes.slice(0, bytes.length - found[0].length)));
  return check(found[1], found[2], {sha256: [...digest].map((byte) => byte.toString(16).padStart(2, '0')).join(''), seal: found[3]});
}

document.getElementById('view').replaceChildren(h('h1', {}, t`Check a cancellation document`),
  h('p', {class: 'lead'}, t`A document of a cancellation has a number and a check code, and a QR code that opens this page with both.`),
  h('form', {class: 'verify', novalidate: true, onsubmit: typed, 'aria-label': t`Check a cancellation document`}, h('div', {class: 'fields'}, box('number', t`Number of the document`, t`Such as 07-42-170; on older documents 12, or 1-3,7`), box('code', t`Check code`, t`16 letters and digits`)),
    h('div', {class: 'buttons'}, h('button', {type: 'submit', class: 'main'}, t`Check`))),
  h('div', {class: 'drop'}, h('label', {for: 'file'}, t`Or a PDF that the registry has made`), h('input', {id: 'file', type: 'file', accept: '.pdf,application/pdf', onchange: dropped, 'aria-describedby': 'file-more'}), h('p', {class: 'hint', id: 'file-more'}, t`The file is not sent: only its seal is.`)), shown);
if (given.get('number') && given.get('code')) check(given.get('number'), given.get('code'));
