// A list of the records: filters above, a table that its heads sort, a page of rows at a time, and the whole as a file.

import {DAY, h, dayBox, table, count, result} from './dom.js';
import {t} from './language.js';
import {asked, pageFrom, pathOf} from './records.js';
import {problemOf} from './words.js';

const ROWS = 100;
/** Filters up to which all are shown. */
const FEW = 4;
let serial = 0;

/** A field of a filter: a text, a day, a choice of `options` ([value, text] each), or a box to tick. */
function filterField({name, label, type = 'text', options}, value, onchange) {
  const id = `l${++serial}`, isTick = type === 'checkbox', words = type === 'date' ? DAY : {type, autocomplete: 'off'};
  const box = options ? h('select', {id, name, onchange}, options.map(([of, text]) => h('option', {value: of, selected: of === (value ?? '')}, text)))
    : h('input', {id, name, ...words, value: isTick ? '1' : value ?? '', checked: isTick && value === '1', onchange});
  return h('div', {class: isTick ? 'tick' : name === 'q' ? 'text' : null}, isTick ? [box, h('label', {for: id}, label)] : [h('label', {for: id}, label), type === 'date' ? dayBox(box) : box]);
}

/** The fields: those that a list is looked through by first, and the others folded, unless one of them is set. */
function filterFields(filters, given, again) {
  const made = (some) => some.map((filter) => filterField(filter, given[filter.name], again)), isFirst = ({name, first}) => first || name === 'q' || name === 'by';
  const folded = filters.length > FEW ? filters.filter((of) => !isFirst(of)) : [], shown = filters.filter((of) => !folded.includes(of));
  const set = folded.filter(({name}) => given[name]).length;
  return [made(shown), shown.some(({type, options}) => !type && !options) ? h('button', {type: 'submit'}, t`Find`) : null,
    folded.length ? h('details', {open: set > 0}, h('summary', {}, t`More filters`), h('div', {class: 'folded'}, made(folded))) : null];
}

/** What a filter's fields say, by name. */
function valuesOf(form) {
  return Object.fromEntries([...form.elements].filter((e) => e.name && (e.type !== 'checkbox' || e.checked) && e.value.trim() !== '').map((e) => [e.name, e.value.trim()]));
}

/**
 * A list of the records. `name` is its route, `fixed` what is always asked, `given` the filters at first; `columns(values)` are
 * [name, class, column that it is sorted by]; `row(item, values)` its cells; `summary(answer, values)` stands above the table.
 * `changed(values)` hears of each new filter.
 */
export function listing({name, fixed = {}, given = {}, filters = [], columns, row, summary = () => null, caption, empty = t`There is nothing here.`, changed = () => null}) {
  const shown = h('div', {class: 'listed', 'aria-live': 'polite', tabindex: '-1'});
  const pages = [];                            // where each page begun; the last is the one that is shown
  let sort = given.sort, turn = 0;
  const form = h('form', {class: 'filters', role: 'search', novalidate: true, 'aria-label': t`Filters`, onsubmit: (e) => { e.preventDefault(); again(); }},
    filterFields(filters, given, () => again()));
  const values = () => ({...valuesOf(form), ...(sort ? {sort} : {})});
  const again = () => { pages.length = 0; load(null); changed(values()); };
  const load = async (from) => {
    const mine = ++turn, said = values();
    pages.push(from);
    shown.setAttribute('aria-busy', 'true');
    let made;
    try { made = drawn(await asked(name, {limit: ROWS, ...fixed, ...said, ...pageFrom(name, from)}), said); } catch (fault) { made = [result(problemOf(fault))]; }
    if (mine !== turn) return;
    shown.removeAttribute('aria-busy');
    const at = shown.contains(document.activeElement) && (document.activeElement.dataset.at ?? '');
    shown.replaceChildren(...made.flat(Infinity).filter(Boolean));
    if (at !== false) (shown.querySelector(`[data-at="${at}"]`) ?? shown).focus();        // what was pressed is there again
  };
  const heads = (said) => columns(said).map(([title, kind, by]) => [title, kind, by ? headButton(title, by) : null]);
  const headButton = (title, by) => h('button', {type: 'button', class: 'head', 'data-at': by, 'aria-label': t`Sort by ${title}`, onclick: () => {
    sort = sort === by ? `-${by}` : by;
    again();
  }}, title, sort === by ? ' ↑' : sort === `-${by}` ? ' ↓' : '');
  const drawn = (answer, said) => [
    summary(answer, said),
    answer.items.length === 0 ? h('p', {class: 'quiet'}, empty) : table(caption?.(answer, said) ?? stands(answer), heads(said), answer.items.map((item) => row(item, said))),
    h('div', {class: 'buttons'},
      pages.length > 1 ? h('button', {type: 'button', 'data-at': 'before', onclick: () => { pages.pop(); load(pages.pop()); }}, t`Page before`) : null,
      answer.next ? h('button', {type: 'button', 'data-at': 'next', onclick: () => load(answer.next)}, t`Next page`) : null,
      answer.items.length ? fileLinks(name, {...fixed, ...said, folded: undefined}) : null),      // a file has each act
  ];
  load(null);
  return [filters.length ? form : null, shown];
}

/** By what the answer stands. */
export const stands = ({stands: {today, time, entry}}) => t`By the registry’s date ${today}, entry ${count(entry)}`;

/** Links that save a whole list for a spreadsheet: as CSV with the mark by which Excel knows UTF-8, and as a workbook. */
export const fileLinks = (name, parameters) => [['csv-bom', 'csv', t`Save as CSV`], ['xlsx', 'xlsx', t`Save as XLSX`]].map(([format, ending, text]) =>
  h('a', {class: 'button', href: pathOf(name, {...parameters, format}), download: `${name}.${ending}`}, text));
