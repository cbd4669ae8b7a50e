// Whose account a transfer or an export goes to. What has moved can't be called back, so the holder's code is typed beside
// the account's number, and the two have to fit before anything is sent. The records say whether they do.

import {known, t} from './language.js';
import {asked, everyItem, nameAccount, records} from './records.js';
import {Unread} from './registry.js';

/** The fields of a command that say whose account it is: the account, the code, and the registry where it is another one. */
const FIELDS = {transfer: {account: 'taker', holder: 'taker_holder'}, export: {account: 'account', holder: 'far_holder', peer: 'peer'}};
const names = new Map();

/** Whether a field is typed to be held against another one, and is in no request. */
export const isAside = (kind) => kind === 'partner';

/** The name of a holder of another registry whose code fitted; one of this registry is named beside the account. */
export const partnerName = async (code) => names.get(code) ?? '';

const isOwn = async (account) => (await everyItem('accounts')).some(({number}) => number === account);

/** What the records say of a pair. Too many wrong ones are told in the page's words. */
async function pairOf(given) {
  try { return await asked('party', given); } catch (fault) {
    if (fault.problem?.status !== 429) throw fault;
    throw new Unread({good: false, title: t`Too many wrong pairs`, sentence: t`Nothing was sent. Wait a minute, and look at the account’s number and the holder’s code again.`});
  }
}

/**
 * Holds account and code of a form against each other. `{stop}` is a field at which was said why nothing is sent; `{notes}`
 * are told in the question.
 */
export async function partnerOf(command, by) {
  const of = FIELDS[command];
  if (!of || !records.isThere) return {notes: []};
  const account = by[of.account].value(), code = by[of.holder].empty() ? '' : by[of.holder].value(), peer = of.peer ? by[of.peer].value() : undefined;
  const stop = (name, sentence) => {
    by[name].say(sentence);
    return {stop: by[name]};
  };
  if (!code && !peer) return await isOwn(account) ? {notes: []} : stop(of.holder, t`This is needed, as account ${account} is not yours.`);
  const {fits, name, closed} = await pairOf({account, holder: code, peer});
  if (fits === null) return {notes: [t`Registry ${peer} publishes no accounts: nobody has looked whose account ${account} is.`]};
  if (!code) return stop(of.holder, t`This is needed: registry ${peer} publishes its accounts.`);
  if (!fits) return stop(of.holder, t`Account ${account} is not one of ${code}. Nothing was sent.`);
  if (closed) return stop(of.account, t`Account ${account} is closed. Nothing was sent.`);
  names.set(code, peer ? name : '');
  if (!peer && name) nameAccount(account, `${code}, ${name}`);
  return {notes: name || peer ? [] : [t`Account and code fit. The issuing body shows no names.`]};
}

/** The fields of a command that can be asked: without the records nobody could hold a code against an account. */
export const askable = (fields) => fields.filter(([, kind]) => records.isThere || !isAside(kind));

/** What a form sends: without what is only held against something else. */
export const sendable = (fields) => fields.filter((f) => !f.isImplied() && !isAside(f.kind));

/** Facts of a form's fields, for the question. */
export const factsOf = (fields) => fields.filter((f) => !f.empty()).map((f) => [known(f.label), String(f.value()), f.kind]);
