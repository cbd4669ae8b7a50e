// The pages of the acts: those of a holder, then those of the issuing body.

import {h, facts, count, result} from './dom.js';
import {excess} from './audit.js';
import {manyDevices} from './devices.js';
import {noticeAsk, noticeButton} from './documents.js';
import {drop, field, form} from './forms.js';
import {t} from './language.js';
import {manyBy} from './plans.js';
import {bodyOf, newKey, submit} from './registry.js';
import {session, memory, today} from './session.js';
import * as words from './words.js';

const own = () => Object.entries(memory.get().accounts).find(([, holder]) => holder === session.caller)?.[0];
const range = (a, first, last) => ({giver: a ?? own(), account: a ?? own(), first, last});
const see = (a) => h('p', {}, h('a', {href: `#account/${a}`}, t`Statement of account ${a}`));

export const transfer = (...p) => [h('h1', {}, 'Transfer'),
  form('transfer', {filled: range(...p), after: (o, v) => o.good && see(v.giver)}), manyBy('transfer')];

export const cancel = (...p) => [h('h1', {}, 'Cancel'),
  h('p', {class: 'lead'}, 'Cancelling uses certificates up: it discloses the origin of energy that somebody has used.'),
  form('cancel', {filled: range(...p), after: (o) => o.good &&
    h('p', {}, h('a', {href: `#document/${o.reply.cancellation}`}, t`Document of cancellation ${o.reply.cancellation}, for printing`))}), manyBy('cancel')];

export const exporting = (...p) => [h('h1', {}, 'Export'),
  form('export', {filled: {...range(...p), account: undefined}, after: (o) => o.good && noticeButton(o.reply.notice)}), noticeAsk()];

export const register = () => [h('h1', {}, 'Register'),
  h('div', {class: 'pair'}, form('open_holder'),
    form('open_account', {after: (o) => o.good && see(o.reply.account)})),
  form('register_device'), manyDevices(), form('close_account')];

export const withdraw = (...p) => [h('h1', {}, 'Withdraw'),
  h('p', {class: 'lead'}, 'For certificates that should not have been issued. They must still be held.'),
  form('withdraw', {filled: range(...p)})];

export function correct(a, first, last, device, day) {
  let filled = last ?? '';                     // a last number that nobody typed
  const advise = async (by) => {
    if (by.device.empty() || by.less_wh.empty() || by.device.error() || by.less_wh.error()) return '';
    const n = await excess(by.device.value(), BigInt(by.less_wh.value())).catch(() => null);       // it is only advice
    if (n == null) return '';
    if (n === 0n) return t`No certificate is in excess: leave both numbers empty.`;
    const isFree = [filled, ''].includes(by.last.box.value) && document.activeElement !== by.last.box;   // nobody types there
    if (!by.first.empty() && !by.first.error() && isFree) {
      by.last.box.value = filled = String(BigInt(by.first.value()) + n - 1n).padStart(14, '0');
    }
    return n === 1n ? t`1 certificate is in excess: name one of this device’s that is held.` : t`${count(n)} certificates are in excess: name as many of this device’s that are held.`;
  };
  return [h('h1', {}, 'Correct'),
    h('p', {class: 'lead'}, 'Lowers what a device declared for a period. Certificates that are then in excess are withdrawn: any of the device’s own, from whatever period, that are still held.'),
    form('correct', {filled: {device, first, last, first_day: day}, advise, after: (o) => o.good && h('p', {}, h('a', {href: '#audit'}, 'Audit'))})];
}

/** The form that moves the date. A day after today by the server's clock is typed twice. */
export function date() {
  const again = field(['again', 'day', 'The same day once more', 'As this day lies after today']);
  const stops = ({day}) => {
    again.node.hidden = day.value() <= today();
    if (again.node.hidden || again.box.value === day.value()) return false;
    again.node.remove();
    day.node.after(again.node);
    if (again.box.value) again.say('The two days differ.');
    day.say(t`${day.value()} is after today, ${today()}, by the server’s clock. The date never moves back: type the day once more if it is meant.`);
    again.box.focus();
    return true;
  };
  return [h('h1', {}, 'Date'),
    h('p', {class: 'lead'}, memory.get().date ? t`Last seen: ${memory.get().date}. ` : '', 'The registry keeps its own date. It is moved automatically each night; move it by hand only if that failed.'),
    form('advance', {stops, after: (o, v) => { if (o.good) memory.put((s) => { s.date = v.day; }); return null; }})];
}

/** Notices of other registries, taken in by hand. */
export function exchange() {
  const shown = h('div', {'aria-live': 'polite'});
  const take = async (file) => {
    const text = await file.text();
    let n;
    try { n = JSON.parse(text); } catch { shown.replaceChildren(result(words.fault('NotJson'))); return; }
    if (!Array.isArray(n?.parts) || n.parts.some((p) => p === null || typeof p !== 'object')) { shown.replaceChildren(result(words.fault('Shape'))); return; }
    const size = n.parts.reduce((s, p) => s + Number(p.last) - Number(p.first) + 1, 0);
    const carriers = [...new Set(n.parts.map((p) => t(String(p.lot?.carrier ?? 'electricity'))))].join(', ');
    const button = h('button', {type: 'button', class: 'main', onclick: async () => {
      button.disabled = true;
      const key = newKey();
      const outcome = await submit(session.caller, {key, command: 'import', path: '/v1/requests', body: bodyOf('import', key, {}, text),
        told: t`Import of notice ${n.number} of registry ${n.sender}`});
      shown.replaceChildren(result(outcome, outcome.good && see(n.account)));
      document.dispatchEvent(new CustomEvent('answered'));
    }}, 'Import');
    shown.replaceChildren(facts([['Notice', n.number], ['From registry', n.sender], ['To registry', n.addressee], ['Account', n.account],
      ['Parts', n.parts.length], ['Certificates', count(size)], ['Carrier', carriers]].map(([name, v]) => [name, String(v)]), {class: 'head'}),
    h('div', {class: 'buttons'}, button));
  };
  return [h('h1', {}, 'Exchange with other registries'), h('h2', {}, 'Import a notice'),
    drop('Drop a notice here, or choose one', 'The file that another registry sent, unchanged. Notices that its exchange delivers are imported without this.', '.json,application/json', take), shown,
    noticeAsk(), form('add_peer')];
}
