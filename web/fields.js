// Fields and forms of the pages about people: a label, a box, and one sentence below it, which says what is wrong there.

import {h, busy, result} from './dom.js';
import {known, t} from './language.js';
import {problemOf} from './words.js';

let serial = 0;

/** A labelled field; `error()` says what is wrong with it. */
export function box({name, label, hint = '', optional = false, wrong = () => '', options, read = (text) => text, ...more}) {
  const id = `p${++serial}`, own = {id, name, 'aria-describedby': `${id}-more`, 'aria-required': String(!optional)};
  const input = options ? h('select', own, options.map(([value, text]) => h('option', {value, selected: value === more.value}, text)))
    : h('input', {type: 'text', autocomplete: 'off', spellcheck: 'false', ...own, ...more});
  const told = h('p', {class: 'hint', id: `${id}-more`}, hint);
  const say = (sentence) => {
    input.setAttribute('aria-invalid', String(sentence !== ''));
    told.className = sentence ? 'hint wrong' : 'hint';
    told.textContent = known(sentence || hint);
    return sentence;
  };
  const value = () => read(input.value), empty = () => input.value === '';
  const error = () => say(empty() ? optional ? '' : t`This is needed.` : wrong(value()));
  input.addEventListener('change', () => { if (!empty()) error(); });
  return {name, input, value, empty, error, say, node: h('div', {class: 'field'}, h('label', {for: id}, label), input, told)};
}

/** A box to tick. */
export function tick(name, label, checked = false, more = {}) {
  const id = `p${++serial}`, input = h('input', {type: 'checkbox', id, name, checked, ...more});
  return {name, input, value: () => input.checked, error: () => '', node: h('p', {class: 'tick'}, input, h('label', {for: id}, label))};
}

/** Where a form's answer stands. It is read aloud once it comes. */
export const answerBox = () => h('div', {role: 'status', 'aria-live': 'polite'});

/**
 * A form: what is wrong is said at its field, and `send(values)` gets the rest. What that resolves to is shown; a fault is told in words.
 * `faults(fault, by)` may say a fault at a field: then it is true.
 */
export function formOf({title, act, fields, ticks = [], send, faults = () => false, kind = '', lead = null, more = null}) {
  const all = [...fields, ...ticks], by = Object.fromEntries(all.map((of) => [of.name, of])), answer = answerBox();
  const button = h('button', {type: 'submit', class: 'main'}, act);
  const onsubmit = async (event) => {
    event.preventDefault();
    const wrong = all.filter((of) => of.error());
    if (wrong.length) { wrong[0].input.focus(); return; }
    await busy(button, async () => {
      answer.replaceChildren();
      try {
        const shown = await send(Object.fromEntries(all.map((of) => [of.name, of.value()])), by);
        answer.replaceChildren(...[shown].flat(Infinity).filter(Boolean));
      } catch (fault) {
        if (!faults(fault, by)) answer.replaceChildren(result(problemOf(fault)));
      }
    });
  };
  return h('form', {class: `people ${kind}`, novalidate: true, onsubmit, 'aria-label': title}, title ? h('h2', {}, title) : null, lead,
    h('div', {class: 'fields'}, fields.map((of) => of.node)), ticks.length ? h('div', {class: 'ticks'}, ticks.map((of) => of.node)) : null, more, h('div', {class: 'buttons'}, button), answer);
}

/** A part of a page, under a heading. */
export const part = (title, ...children) => h('section', {class: 'part', 'aria-label': title}, h('h2', {}, title), ...children);

/** The two fields of a new password. */
export function newPassword(hint) {
  const first = box({name: 'password', label: t`New password`, type: 'password', autocomplete: 'new-password', maxlength: '200', hint, wrong: (text) => [...text].length < 12 ? t`At least 12 characters.` : ''});
  const second = box({name: 'again', label: t`The same once more`, type: 'password', autocomplete: 'new-password', maxlength: '200', wrong: (text) => text === first.value() ? '' : t`The two are different.`});
  return [first, second];
}
