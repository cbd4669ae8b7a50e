// A button of a row: it asks whether it is meant, does it, and has the page drawn anew with what came of it.

import {h, busy, result} from './dom.js';
import {sure} from './forms.js';
import {problemOf} from './words.js';

/** `drawn(told)` draws the page anew; `ask` is what the question says; `act()` resolves to null where the user went back, and `told(came)` is what is said of the rest. */
export function actButton(text, drawn, ask, act, told = () => null) {
  const button = h('button', {type: 'button', class: ask.isMain ? 'main' : null, onclick: () => busy(button, async () => {
    if (!await sure(ask.title, text, {facts: ask.facts ?? [], notes: ask.notes ?? [], final: ask.final})) return;
    let came;
    try { came = await act(); } catch (fault) { await drawn(result(problemOf(fault))); return; }
    if (came !== null) await drawn(told(came));
  })}, text);
  return button;
}
