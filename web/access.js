// Access by account, as rows that are typed: which account, and what may be done with it.

import {h} from './dom.js';
import {t} from './language.js';

let serial = 0;
const RIGHTS = [['reads', t`reads`], ['trades', t`transfers and exports`], ['cancels', t`cancels`]];

/** A row: an account, empty for each of the holder, and its ticks. Whoever trades or cancels also reads. */
function rowOf({account, ...may}, remove) {
  const id = `a${++serial}`, number = h('input', {id, name: 'account', inputmode: 'numeric', autocomplete: 'off', value: account || '', placeholder: t`each account`, 'aria-describedby': `${id}-more`}), told = h('p', {class: 'hint', id: `${id}-more`});
  const ticks = RIGHTS.map(([name, label]) => ({name, label, input: h('input', {type: 'checkbox', id: `${id}-${name}`, name, checked: Boolean(may[name])})})), [reads, ...others] = ticks;
  for (const {input} of others) input.addEventListener('change', () => { if (input.checked) reads.input.checked = true; });
  reads.input.addEventListener('change', () => { if (!reads.input.checked) others.forEach((of) => { of.input.checked = false; }); });
  const say = (sentence) => {
    number.setAttribute('aria-invalid', String(sentence !== ''));
    told.className = sentence ? 'hint wrong' : 'hint';
    told.textContent = sentence;
    return sentence;
  };
  const node = h('div', {class: 'access-row', role: 'group', 'aria-label': t`Access to an account`}, h('div', {class: 'field'}, h('label', {for: id}, t`Account`), number, told),
    ticks.map(({name, label, input}) => h('p', {class: 'tick'}, input, h('label', {for: `${id}-${name}`}, label))), h('button', {type: 'button', onclick: () => remove(made)}, t`Remove`));
  const made = {node, number, say, value: () => ({account: Number(number.value.trim() || 0), ...Object.fromEntries(ticks.map(({name, input}) => [name, input.checked]))}),
    error: () => say(/^(0|[1-9]\d{0,8})?$/.test(number.value.trim()) ? ticks.some(({input}) => input.checked) ? '' : t`Tick what may be done.` : t`The number of an account, or nothing.`)};
  return made;
}

/** The rows, with buttons to add and to remove one. `value()` gives them, or null where something is wrong, which is then said at its row. */
export function accessBox(given) {
  let rows = [];
  const list = h('div', {class: 'access-rows'});
  const add = (of, isNew) => {
    const row = rowOf(of, (gone) => { rows = rows.filter((one) => one !== gone); gone.node.remove(); more.focus(); });
    rows.push(row);
    list.append(row.node);
    if (isNew) row.number.focus();
  };
  const more = h('button', {type: 'button', onclick: () => add({account: 0, reads: true}, true)}, t`Add an account`);
  given.forEach((of) => add(of));
  const value = () => {
    const wrong = rows.filter((row) => row.error()), all = rows.map((row) => row.value()), double = rows.find((row, i) => all.findIndex((of) => of.account === all[i].account) < i);
    if (!wrong.length && double) { double.say(t`This account stands here already.`); wrong.push(double); }
    wrong[0]?.number.focus();
    return wrong.length ? null : all;
  };
  return {node: h('fieldset', {class: 'access'}, h('legend', {}, t`Accounts`), list, h('div', {class: 'buttons'}, more)), value};
}
