// The part of node:test and of node:assert/strict that the tests use, for a browser.

const tests = [];

export const test = (name, act) => tests.push([name, act]);

/** Whether two values are the same by their parts. */
function isSame(a, b) {
  if (Object.is(a, b)) return true;
  if (typeof a !== 'object' || typeof b !== 'object' || !a || !b || Array.isArray(a) !== Array.isArray(b)) return false;
  const names = Object.keys(a);
  return names.length === Object.keys(b).length && names.every((name) => Object.hasOwn(b, name) && isSame(a[name], b[name]));
}

const shown = (value) => JSON.stringify(value, (_, of) => typeof of === 'bigint' ? `${of}n` : of);
const must = (isGood, text) => { if (!isGood) throw new Error(text); };

const assert = {
  ok: (value, text) => must(value, text ?? `${value} is not true`),
  equal: (a, b, text = '') => must(Object.is(a, b), `${text} ${shown(a)} is not ${shown(b)}`),
  deepEqual: (a, b, text = '') => must(isSame(a, b), `${text} ${shown(a)} is not ${shown(b)}`),
  match: (text, form) => must(form.test(text), `${shown(text)} does not fit ${form}`),
  rejects: async (made, isIt) => {
    const fault = await (typeof made === 'function' ? made() : made).then(() => null, (of) => of);
    must(fault && isIt(fault), `it was not refused in that way: ${fault}`);
  },
};
export default assert;

/** Runs the tests of these files, one after another: name and fault of each, '' where it passed. */
export async function run(names) {
  const came = [];
  for (const name of names) {
    tests.length = 0;
    try { await import(`/tests/${name}`); } catch (fault) { came.push([name, `it can not be read: ${fault}`]); }
    for (const [title, act] of [...tests]) {
      try { await act(); came.push([`${name}: ${title}`, '']); } catch (fault) { came.push([`${name}: ${title}`, String(fault.stack ?? fault)]); }
    }
  }
  return came;
}
