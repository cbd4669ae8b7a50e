// The sheet of a document: what Article 19(7) of Directive (EU) 2018/2001 has a guarantee of origin say, lot by lot. What stands on it is the records' alone
// (service/goo_service/records/paper.py): the page, the public check and the PDF lay out the same.

import {h, facts, written, number} from './dom.js';
import {language} from './language.js';
import {LISTS} from './lists.js';

export {LISTS};
const AT = {en: 0, de: 1};
/** A country in the reader's language; English names are those of the issuing body's own list. */
const country = (code, name) => language === 'en' ? name : new Intl.DisplayNames([language], {type: 'region'}).of(code);

/** The word of a code, undefined where no list has it. A list has one name for all languages, or one in English and one in German. */
export function wordFor(field, code) {
  const names = Object.hasOwn(LISTS[field].codes, code) ? [LISTS[field].codes[code]].flat() : [];
  return field === 'country' && names.length === 1 ? country(code, names[0]) : names[AT[language]] ?? names[0];
}

/** A code with its word. */
export function coded(field, code) {
  const word = wordFor(field, code);
  return word ? h('span', {class: 'coded'}, word, ' ', h('span', {class: 'code'}, code)) : code;
}

/** Numbers as a document has them: 1-3,7. */
export const asList = (numbers) => [...numbers].sort((a, b) => a - b).reduce((spans, n) => {
  const last = spans.at(-1);
  if (last && n === last[1] + 1) last[1] = n; else spans.push([n, n]);
  return spans;
}, []).map(([a, b]) => a === b ? `${a}` : `${a}-${b}`).join(',');

/** Texts below one another in one cell. */
export const lines = (...texts) => texts.filter(Boolean).map((text) => h('span', {class: 'line'}, text));

/** A line of a document, with the numbers of certificates in groups. */
const range = (text) => h('span', {class: 'line'}, text.split(/(\b\d{14}\b)/).map((part, i) => i % 2 ? number(part) : part && written(part)));
const line = (text) => h('span', {class: 'line'}, written(text));

/** A table of a document: its columns, and its rows of cells of lines. A column of ranges stands below its row, over the whole width. */
function tableOf({caption, columns, rows}) {
  const kept = columns.map((column, at) => ({...column, at})), beside = kept.filter(({kind}) => kind !== 'ranges'), below = kept.filter(({kind}) => kind === 'ranges');
  const rowsOf = (row) => [
    h('tr', {role: 'row', class: below.length ? 'lot' : null}, beside.map(({name, kind, at}) => h('td', {role: 'cell', 'data-name': name, class: kind}, row[at].length > 1 ? row[at].map(line) : row[at].map(written)))),
    ...below.filter(({at}) => row[at].length).map(({name, kind, at}) => h('tr', {role: 'row', class: 'below'}, h('td', {role: 'cell', 'data-name': name, class: kind, colspan: beside.length}, row[at].map(range))))];
  return h('table', {role: 'table'}, h('caption', {}, written(caption)),
    h('thead', {role: 'rowgroup'}, h('tr', {role: 'row'}, beside.map(({name, kind}) => h('th', {role: 'columnheader', scope: 'col', class: kind}, written(name))))),
    h('tbody', {role: 'rowgroup'}, rows.flatMap(rowsOf)));
}

const SIDE = 4;      // light modules around a QR code, as ISO/IEC 18004 has them

/** A QR code of rows of 0 and 1. */
export function qr(rows, label) {
  const size = rows.length + 2 * SIDE, made = h('svg', {class: 'qr', viewBox: `0 0 ${size} ${size}`, role: 'img', 'aria-label': label});
  made.append(h('rect', {class: 'light', width: size, height: size}), ...rows.flatMap((row, y) => [...row.matchAll(/1+/g)].map((run) => h('rect', {x: run.index + SIDE, y: y + SIDE, width: run[0].length, height: 1}))));
  return made;
}

let footed = null;      // the sheet that is shown, whose foot each printed page has

/** Has the pages in print the foot of a sheet; none where that is null. */
function adopt(made, text = '') {
  footed = made;
  const others = document.adoptedStyleSheets.filter((one) => !one.isFoot), rules = new CSSStyleSheet();
  rules.replaceSync(text);
  rules.isFoot = true;
  document.adoptedStyleSheets = made ? [...others, rules] : others;
}
globalThis.addEventListener?.('beforeprint', () => { if (footed && !footed.isConnected) adopt(null); });

/** The foot of each printed page: by the boxes of a page's margin where the browser has them, else an element that print repeats. */
function withFoot(made, paper) {
  const [before, between, after] = paper.page.split('{}').map((text) => JSON.stringify(text));
  if (!('CSSMarginRule' in globalThis)) made.append(h('p', {class: 'running'}, written(paper.each_page)));
  else adopt(made, `@page{@bottom-left{content:${JSON.stringify(paper.each_page)}}@bottom-right{content:${before}counter(page)${between}counter(pages)${after}}}`);
  return made;
}

/** The sheet. `paper` is what stands on the document, `head` the kind of its heading. */
export function sheet(paper, head = 'h1') {
  const {check} = paper;
  return withFoot(h('article', {class: 'sheet', lang: paper.language},
    h('p', {class: 'house'}, written(paper.house)),
    h(head, {}, written(paper.title)),
    h('p', {class: 'claim'}, paper.claim.map((text, at) => at % 2 ? text : h('b', {}, written(text)))),
    facts(paper.facts.map(({name, lines: texts}) => [written(name), texts.map((text) => h('span', {class: 'line'}, written(text)))])),
    paper.notes.map((text) => h('p', {class: 'foot'}, text)),
    h('div', {class: 'check'}, paper.qr.length ? qr(paper.qr, check.name) : null,
      h('p', {}, written(check.name), ' ', h('b', {}, check.code)), h('p', {class: 'foot'}, written(check.text))),
    paper.tables.map(tableOf),
    h('p', {class: 'foot'}, paper.foot)), paper);
}
