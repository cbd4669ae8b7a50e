// What the tests share: chance that repeats itself, answers in place of the front door's, and values.

/** Numbers from 0 below `most`, always the same ones (a linear generator by Numerical Recipes). */
export function chance(seed = 1) {
  let state = seed >>> 0;
  return (most) => {
    state = (Math.imul(state, 1664525) + 1013904223) >>> 0;
    return Math.floor(state / 2 ** 32 * most);
  };
}

/** Has `fetch` answer by a function of address and words; gives the list of what was sent. */
export function answering(answer) {
  const sent = [];
  globalThis.fetch = async (path, words = {}) => {
    sent.push({path: String(path), ...words});
    const came = await answer(String(path), words, sent.length);
    if (came === null) throw new TypeError('the connection broke');
    const {status = 200, text = '', fields = {}} = came;
    return new Response(status === 204 ? null : text, {status, headers: fields});
  };
  return sent;
}

export const json = (value, status = 200, fields = {}) => ({status, text: JSON.stringify(value), fields});

/** Texts of the elements of a kind below an element. */
export const texts = (element, tag) => [...element.getElementsByTagName(tag)].map((of) => of.textContent);

/** Pauses take no time. */
export function hurry() {
  const real = globalThis.setTimeout;
  globalThis.setTimeout = (act) => real(act, 0);
}
