// What the registry keeps for others to read: documents of cancellations, certificates, notices to other registries.

import {busy, h, table, facts, written, number, between, count, place, result, save, special, printButton, textButton} from './dom.js';
import {ask} from './forms.js';
import {life} from './history.js';
import {language, t} from './language.js';
import {LISTS, coded, sheet} from './paper.js';
import {asked, records} from './records.js';
import {read} from './registry.js';
import * as texts from './texts.js';

const MANY = /^[0-9]{1,9}(-[0-9]{1,9}){0,2}(,[0-9]{1,9}(-[0-9]{1,9})?)*$/;

/** The document of one cancellation or of several, with all facts of its lots and the check code, by the records of acts. */
async function wholePaper(numbers) {
  const {number, items, text, paper: of} = await asked('documents', {numbers, lang: language}), [first] = items;
  return [
    h('div', {class: 'buttons'}, printButton({class: 'main'}), pdfButton(number), textButton(`document-${number.replaceAll(',', '_').slice(0, 60)}`, text),
      h('a', {href: `#account/${first.account}`}, t`Back to the account`)),
    sheet(of),
  ];
}

/** Saves the document as the PDF that the registry has sealed, or says why there is none. */
function pdfButton(number) {
  const button = h('button', {type: 'button', onclick: () => busy(button, async () => {
    const told = h('p', {class: 'quiet', 'aria-live': 'polite'}, t`The PDF is being made.`);
    button.parentElement.parentElement.querySelectorAll('.pdf').forEach((e) => e.remove());
    button.parentElement.after(h('div', {class: 'pdf'}, told));
    const answer = await fetch(`/records/v1/documents?${new URLSearchParams({numbers: number, lang: language, format: 'pdf'})}`, {cache: 'no-store'}).catch(() => null);
    if (answer?.ok) {
      save(`document-${number.replaceAll(',', '_').slice(0, 60)}.pdf`, await answer.blob(), 'application/pdf');
      told.parentElement.remove();
      return;
    }
    const sentence = {400: t`It is too long for a PDF. Print the page.`, 501: t`This registry makes no PDF. Print the page.`}[answer?.status] ?? t`Others are being made, or no answer came. Try again in some seconds, or print the page.`;
    told.parentElement.replaceChildren(result({good: false, title: t`No PDF`, sentence}));
  })}, t`Save as PDF`);
  return button;
}

/** The document of a cancellation. What it says is the registry's alone: of the page's address only digits are taken. */
export async function paper(k) {
  if (records.isThere && MANY.test(k)) {
    try { return await wholePaper(k); } catch (fault) { if (!MANY.test(k) || k.includes(',') || k.includes('-')) throw fault; }      // one by itself the registry has too
  }
  if (!/^[0-9]{1,9}$/.test(k)) return [h('h1', {}, t`Cancellation`), result({good: false, title: 'No such document', sentence: 'A cancellation’s number has 1 to 9 digits.'})];
  const {text, problem} = await read(`/v1/cancellations/${k}`);
  if (problem) return [h('h1', {}, t`Cancellation ${k}`), result(problem)];
  const {facts: f, lines} = texts.document(text);
  const own = f.head.split(' ')[1], [used, until] = f.period.split(' ');
  return [
    h('div', {class: 'buttons'}, printButton({class: 'main'}), textButton(`cancellation-${f.registry}-${own}`, text),
      h('a', {href: `#account/${f.account}`}, 'Back to the account')),
    h('article', {class: 'sheet'},
      h('p', {class: 'house'}, t`Registry of guarantees of origin`, ' ', f.registry),
      h('h1', {}, t`Cancellation ${own}`),
      h('p', {class: 'claim'}, h('b', {}, `${count(Number(f.certificates))} MWh`), ' of energy, used from ', between(used, until), ' by ', h('b', {}, written(f.beneficiary))),
      facts([['Registry', f.registry], ['Cancellation', own], ['Day of cancellation', f.date], ['Holder', [f.holder, t`, account ${f.account}`]],
        ['Beneficiary', f.beneficiary], ['Period of use', between(used, until)], ['Certificates', t`${count(Number(f.certificates))} of 1 MWh each`]]),
      special(f.beneficiary).length ? h('p', {class: 'foot'}, t`The beneficiary’s name has characters that cannot be seen, or that change the order of its letters. Their codes stand in its place: ${special(f.beneficiary).join(', ')}.`) : null,
      table('Certificates cancelled', [['Certificates', 'range'], ['Count', 'right'], ['Device', 'wide'], ['Period', 'wide'], ['Tech.'], ['Source']],
        lines.map((l) => [between(number(l.first), number(l.last)), count(l.count), l.device,
          between(l.first_day, l.last_day), l.tech, l.source])),
      h('p', {class: 'foot'}, 'Guarantees of origin under Directive (EU) 2018/2001, Article 19. These certificates are used up: they cannot be transferred or cancelled again. The registry keeps each cancellation under its number.')),
  ];
}

const FIELDS = [['device', 'Device'], ['carrier', 'Carrier'], ['site', 'Site'], ['country', 'Country'], ['tech', 'Technology'], ['source', 'Energy source'],
  ['capacity_w', 'Capacity in W'], ['commissioned', 'Commissioned on'], ['support', 'Support'], ['first_day', 'Produced from'],
  ['last_day', 'Produced to'], ['issued_on', 'Issued on'], ['origin', 'Registry of origin']];

async function certificate(n) {
  const {text, problem} = await read(`/v1/certificates/${n}`);
  if (problem) return result(problem);
  const c = JSON.parse(text), lot = {carrier: 'electricity', ...c.lot};     // a lot of electricity doesn't say so
  return [h('div', {class: 'certificate'},
    h('p', {class: 'headline'}, number(c.number), place(c.place, String(c.act)), h('span', {class: 'quiet'}, t`account ${c.account}`)),
    facts(FIELDS.map(([key, label]) => [label, key === 'capacity_w' ? count(lot[key]) : ['carrier', 'support'].includes(key) ? t(lot[key]) : Object.hasOwn(LISTS, key) ? coded(key, lot[key]) : String(lot[key])]))), records.isThere ? await life(n).catch(() => null) : null];
}

export const lookUp = (n) => [h('h1', {}, 'Look up'),
  ask('A certificate', ['number', 'number', 'Number', '14 digits'], 'Look up', certificate, n),
  ask('A cancellation document', ['number', 'account', 'Cancellation', 'Its number'], 'Open', (k) => {
    location.hash = `document/${k}`;
    return '';
  })];

export const noticeAsk = () => ask('Save a notice that was sent', ['number', 'account', 'Notice', 'Its number'], 'Save', noticeSave);
export const noticeButton = (k) => h('p', {}, h('button', {type: 'button', onclick: async (e) => e.target.after(await noticeSave(k))}, t`Save notice ${k}`));

async function noticeSave(k) {
  const {text, problem} = await read(`/v1/notices/${k}`);
  if (problem) return result(problem);
  const n = JSON.parse(text);
  save(`notice-${String(n.sender).padStart(2, '0')}-${k}.json`, text, 'application/json');
  return h('p', {class: 'quiet'}, t` Notice ${k} to registry ${n.addressee}, account ${n.account}: ${n.parts.length} parts, saved.`);
}
