// What was done with users, tokens, rules and sign-ins, the newest first: the acts of goo-people, which nobody changes.

import {h, table, written} from './dom.js';
import {known, t} from './language.js';
import {asked, moment} from './people.js';

const KINDS = {sign_in: t`signed in`, sign_in_refused: t`a sign-in failed`, sign_out: t`signed out`, session_ended: t`session ended`, password_set: t`password set`, factor_added: t`second factor added`, factor_removed: t`second factor removed`, factors_reset: t`user reset`,
  token_made: t`token made`, token_revoked: t`token revoked`, invited: t`invited`, invitation_revoked: t`invitation taken back`, user_made: t`user made`, user_ended: t`user ended`, access_given: t`access given`, administrator_set: t`administrator set`, rule_set: t`rule set`,
  waiting: t`asked, and waits`, confirmed: t`confirmed`, refused: t`refused`, withdrawn: t`taken back by who asked`, lapsed: t`lapsed`, hook_made: t`webhook made`, hook_revoked: t`webhook revoked`, mail_set: t`mails set`, taken_over: t`taken over from files`};
/** Whoever acts without being a user. */
const WAYS = {host: t`a command on the host`, service: t`by itself`, session: t`session`, invitation: t`invitation`, enrol: t`first sign-in`};
const PAGE = 100;

/** What an act is about: a number of an invitation, or a name. */
function aboutOf({about}) {
  const [, number] = /^invitation (\d+)$/.exec(about) ?? [];
  return number ? t`invitation ${number}` : written(about);
}

const wayOf = (of) => Object.hasOwn(WAYS, of.way) ? WAYS[of.way] : written(of.way);
const rowOf = (of) => [moment(of.time), known(KINDS[of.kind] ?? of.kind), aboutOf(of), of.user ? written(of.user) : '', wayOf(of), of.address, of.caller];

/** The acts, by a hundred at a time. */
export async function peopleActs() {
  const shown = [], list = h('div', {});
  const next = h('button', {type: 'button', onclick: () => more()}, t`Older ones`);
  const more = async () => {
    const {acts} = await asked(`acts?limit=${PAGE}${shown.length ? `&before=${shown.at(-1).id}` : ''}`);
    shown.push(...acts);
    next.hidden = acts.length < PAGE;
    list.replaceChildren(table(t`What was done, the newest first`, [[t`When, UTC`, 'wide'], [t`Act`, 'wide'], [t`About`, 'wide'], [t`User`], [t`Way of signing in`, 'wide'], [t`From`], [t`For`]], shown.map(rowOf)));
  };
  await more();
  return [list, h('div', {class: 'buttons'}, next)];
}
