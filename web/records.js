// The way to the records of acts: the service beside the registry that has history, search and choice. Where it isn't
// there, the page shows what the registry itself tells.

import {t} from './language.js';
import {Unread, last, pause} from './registry.js';
import {fieldsOf, known} from './way.js';
import * as words from './words.js';

export const records = {isThere: false, hasDirectory: false, hasAttachments: false};

/** The address of a list; parameters without a value are left out. */
export function pathOf(name, parameters = {}) {
  const given = Object.entries(parameters).filter(([, value]) => value !== undefined && value !== null && value !== '');
  return `/records/v1/${name}${given.length ? `?${new URLSearchParams(given)}` : ''}`;
}

/** Finds out whether the service is there. */
export async function findRecords() {
  try {
    const answer = await fetch(pathOf('status'), {cache: 'no-store', signal: AbortSignal.timeout(20_000)});
    records.isThere = answer.ok;
    const said = answer.ok ? await answer.json() : {};
    records.hasDirectory = said.directory === true;
    records.hasAttachments = said.attachments === true;
  } catch { records.isThere = false; }
}

/** Seconds: a wait of the front door, which passes. One that is longer the records have told. */
const SHORT_WAIT = 10;
/** Questions that the front door lets a user ask at once. */
const AT_ONCE = 2;
const turns = [];                               // those that wait for one before them to be answered
let asking = 0;

/** Asks once fewer than two others are under way. */
async function inTurn(ask) {
  if (asking === AT_ONCE) await new Promise((goOn) => turns.push(goOn));
  else asking++;
  try { return await ask(); } finally { turns.length ? turns.shift()() : asking--; }
}

/** An answer of the records. A question that they can't answer is thrown, in words. */
export async function asked(name, parameters, tries = 30) {
  const ask = async () => {
    const answer = known(await fetch(pathOf(name, parameters), {cache: 'no-store'}));
    return [answer, answer.ok ? await answer.json() : null];
  };
  let answer, found;
  try { [answer, found] = await inTurn(ask); } catch { throw new Unread(words.unread(0)); }
  if (answer.ok) return found;
  if (answer.status === 429 && Number(answer.headers.get('Retry-After') ?? 0) <= SHORT_WAIT && tries > 1) {
    await pause(1000);
    return asked(name, parameters, tries - 1);
  }
  throw new Unread(await problemOf(answer));
}

/** What the records say of a table that is not sent yet. */
export async function askedOf(name, table, parameters, kind = 'text/csv', tries = 30) {
  const ask = async () => {
    const answer = known(await fetch(pathOf(name, parameters), {method: 'POST', body: table, headers: fieldsOf(kind), cache: 'no-store'}));
    return [answer, answer.ok ? await answer.json() : null];
  };
  let answer, found;
  try { [answer, found] = await inTurn(ask); } catch { throw new Unread(words.unread(0)); }
  if (answer.ok) return found;
  if (answer.status === 429 && Number(answer.headers.get('Retry-After') ?? 0) <= SHORT_WAIT && tries > 1) {
    await pause(1000);
    return askedOf(name, table, parameters, kind, tries - 1);
  }
  throw new Unread(await problemOf(answer));
}

/** Waits until the records tell of this entry of the log, or of the last one that this page has made: they are a second behind it at most. */
export async function followed(entry = last.entry) {
  for (let tries = 60; entry > 0 && (await asked('status')).stands.entry < entry && tries > 0; tries--) await pause(500);
}

async function problemOf(answer) {
  const said = await answer.json().then((value) => value.error, () => null);
  if (answer.status === 503 && said && !/^the records/.test(said)) return {good: false, title: t`The records are busy`, sentence: `${said[0].toUpperCase()}${said.slice(1)}.`};
  if (answer.status === 503 || answer.status === 502) return {good: false, title: t`The records are not there`, sentence: t`They are being made, or do not answer. The registry itself is not touched by this. Try again in a minute.`};
  return {...words.unread(answer.status), status: answer.status, ...(said ? {sentence: `${said[0].toUpperCase()}${said.slice(1)}.`} : {})};
}

const PAGE = 1000;
/** By what holdings are told, and the sum that says how many of them there are. */
const IN_ALL = {lot: 'lots', run: 'runs'};
/** The parameter that takes the `next` of a page: sums count rows, acts their ids, and other lists go on behind a row. */
const GOES_ON = {acts: 'before', holdings: 'offset', deadlines: 'offset', statistics: 'offset', undeclared: 'offset', directory: 'offset', attachments: 'offset'};
/** What asks for the page that begins there; the first one where `next` is none. */
export const pageFrom = (name, next) => next === null ? {} : {[GOES_ON[name] ?? 'after']: next};

/** Every item of a list. Where the first page tells how many there are, the others are asked for side by side, else one after another. */
export async function everyItem(name, parameters) {
  const pageAt = (next) => asked(name, {...parameters, limit: PAGE, ...pageFrom(name, next)});
  const pages = [await pageAt(null)], all = pages[0].sum?.[IN_ALL[parameters?.by]];
  if (all !== undefined) pages.push(...await Promise.all(Array.from({length: Math.max(0, Math.ceil(all / PAGE) - 1)}, (_, i) => pageAt((i + 1) * PAGE))));
  else while (pages.at(-1).next) pages.push(await pageAt(pages.at(-1).next));
  return pages.flatMap(({items}) => items);
}

// ------------------------------------------------------------------ names of codes

const names = new Map();

/** What is found by `find`, asked for once; '' where that fails, as a name is only said besides. */
async function once(key, find) {
  if (!records.isThere) return '';
  if (!names.has(key)) names.set(key, await find().catch(() => ''));
  return names.get(key);
}

/** Code and name of an account's holder, as far as the caller may know them: his own accounts, and those that he has dealt with. */
export const holderOf = (account) => once(`account/${account}`, async () => {
  const own = (await asked('accounts', {account})).items[0];
  if (own) return `${own.holder}, ${own.name}`;
  const {items} = await asked('acts', {account, kind: 'transfer', outcome: 'accepted', limit: 1});
  const found = items.flatMap((act) => [act.giver, act.taker]).find((party) => party?.account === Number(account));
  return found?.holder ? `${found.holder}, ${found.name}` : '';
});

/** Says whose an account is, once that is known. */
export const nameAccount = (account, text) => names.set(`account/${account}`, text);

/** The site of a device. */
export const siteOf = (device) => once(`device/${device}`, async () => (await asked('devices', {device})).items[0]?.site ?? '');

/** The name of a holder. */
export const nameOf = (holder) => once(`holder/${holder}`, async () => (await asked('holders', {holder})).items[0]?.name ?? '');

/** Forgets the names, as one may have been opened since. */
export const forgetNames = () => names.clear();
