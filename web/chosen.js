// What somebody has chosen of an account's holdings: lots or runs, over many pages of the list, with their running sum.

import {h, busy, count, result} from './dom.js';
import {ungrouped} from './commands.js';
import {t} from './language.js';
import {problemOf} from './words.js';

/** A row by what it is: a lot by its registry, device and first day, a run by its first number. */
const keyOf = (of, by) => by === 'run' ? of.first : `${of.origin} ${of.device} ${of.first_day}`;

/** The row that a box chooses, and by what. */
const rowOf = new WeakMap();

export const chosen = {
  account: undefined, by: 'lot', rows: new Map(), told: () => null,

  /** Another account begins with nothing chosen. */
  begin(account) {
    if (account !== this.account) this.rows.clear();
    this.account = account;
  },
  /** Lots and runs aren't mixed, so that nothing is chosen twice. */
  set(of, by, isChosen) {
    if (by !== this.by) { this.rows.clear(); this.by = by; }
    if (isChosen) this.rows.set(keyOf(of, by), of); else this.rows.delete(keyOf(of, by));
  },
  has(of, by) { return by === this.by && this.rows.has(keyOf(of, by)); },
  get count() { return [...this.rows.values()].reduce((sum, of) => sum + of.count, 0); },
  /** Has the boxes on the screen and the bar show what is chosen now. */
  tell() {
    for (const box of document.querySelectorAll('td.pick input')) box.checked = this.has(...rowOf.get(box));
    this.told();
  },
  clear() { this.rows.clear(); this.tell(); },

  /** The box of a row. */
  box(of, by) {
    const box = h('input', {type: 'checkbox', checked: this.has(of, by), 'aria-label': t`Choose ${of.first ?? of.site} ${of.first_day}, ${count(of.count)}`, onchange: () => {
      this.set(of, by, box.checked);
      this.tell();
    }});
    rowOf.set(box, [of, by]);
    return box;
  },
  /** Chooses all that fit the filters, on whatever page they are. */
  allButton(find) {
    const told = h('span', {'aria-live': 'polite'});
    const button = h('button', {type: 'button', onclick: () => busy(button, async () => {
      told.replaceChildren();
      try {
        for (const of of await find()) this.set(of, of.lot === undefined ? 'run' : 'lot', true);
        this.tell();
      } catch (fault) { told.replaceChildren(result(problemOf(fault))); }
    })}, t`Choose all of these`);
    return [button, told];
  },
  /** Chooses a quantity of what fits the filters, for one of these acts and in an order. `find({count, act, order})` answers with ranges that add up to it and that the act can take. */
  quantityForm(find, acts) {
    const amount = h('input', {id: 'quantity', name: 'count', inputmode: 'numeric', autocomplete: 'off'}), told = h('div', {'aria-live': 'polite'});
    const act = h('select', {id: 'quantity-act', name: 'act', 'aria-label': t`What for`, hidden: acts.length < 2}, acts.map((value) => h('option', {value}, WHAT_FOR[value] ?? value)));
    const order = h('select', {id: 'quantity-order', name: 'order'}, Object.entries(ORDERS).map(([value, text]) => h('option', {value}, text)));
    const onsubmit = async (event) => {
      event.preventDefault();
      told.replaceChildren();
      try {
        const {items} = await find({count: ungrouped(amount.value), act: act.value, order: order.value});
        this.rows.clear();
        for (const of of items) this.set(of, 'run', true);
        this.tell();
      } catch (fault) { told.replaceChildren(result(problemOf(fault))); }
    };
    return h('form', {class: 'quantity', novalidate: true, onsubmit, 'aria-label': t`Choose a quantity`}, h('label', {for: 'quantity'}, t`Or a quantity`), amount, act, h('label', {for: 'quantity-order'}, t`of`), order,
      h('button', {type: 'submit'}, t`Choose`), told);
  },
};

/** What a quantity is for: trade takes certificates whose trade is open alone. */
const WHAT_FOR = {transfer: t`to transfer or export`, cancel: t`to cancel`};

/** In which order a quantity is made up. */
const ORDERS = {oldest: t`the oldest production`, expiring: t`the soonest to expire`, fewest: t`the fewest ranges`};

/** The bar at the foot of the page: the running sum, and what can be done with it. */
export function toolbar(...acts) {
  const told = h('p', {'aria-live': 'polite'});
  const bar = h('section', {class: 'chosen', 'aria-label': t`Chosen`}, told, h('div', {class: 'buttons'}, acts, h('button', {type: 'button', onclick: () => chosen.clear()}, t`Clear`)));
  const show = () => {
    bar.hidden = chosen.rows.size === 0;
    told.replaceChildren(h('b', {}, t`${count(chosen.count)} certificates`), ' ', chosen.by === 'run' ? t`chosen in ${count(chosen.rows.size)} runs` : t`chosen in ${count(chosen.rows.size)} lots`);
  };
  chosen.told = show;
  show();
  return bar;
}
