// What has happened: the acts that the caller may see, one of them whole, and the life of a certificate.

import {h, table, facts, number, between, count, written, place} from './dom.js';
import {t} from './language.js';
import {listing, stands} from './listing.js';
import {asked} from './records.js';
import {session} from './session.js';

export const KINDS = {issue: t`issue`, transfer: t`transfer`, cancellation: t`cancellation`, withdrawal: t`withdrawal`, correction: t`correction`, export: t`export`, import: t`import`,
  expiry: t`expiry`, holder: t`holder opened`, account: t`account opened`, closing: t`account closed`, device: t`device registered`, date: t`date moved`, peer: t`registry added`, unreadable: t`unreadable`};
const OUTCOMES = {accepted: t`accepted`, refused: t`refused`, unreadable: t`unreadable`, 'set aside': t`set aside`};

/** An account with its holder's code and name. */
export const party = (p) => p ? h('span', {class: 'party'}, String(p.account), p.holder ? [' ', h('b', {}, p.holder), ' ', written(p.name)] : null) : '';

const whenOf = (act) => h('a', {href: `#act/${act.id}`}, act.time ? `${act.time.slice(0, 10)} ${act.time.slice(11, 16)}` : act.day);
/** The roles of users, by their words in the list of callers. */
const ROLES = {full: t`full`, reads: t`read only`, declares: t`declarations only`};
export const roleName = (role) => ROLES[role] ?? role;
/** How users sign in, by the log's words; a token has its name behind it. */
const WAYS = {session: t`sign-in page`, certificate: t`client certificate`, password: t`password`};
const wayOf = (way) => way.startsWith('token ') ? t`token “${way.slice(6)}”` : WAYS[way] ?? way;
/** Why an act came to nothing: the registry's refusal or fault, or the role of the user, whose request never came to the registry. */
const reason = (act) => act.refusal === 'Role' ? t`role “${roleName(act.role)}”` : act.refusal;
const outcome = (act) => act.outcome === 'accepted' ? OUTCOMES.accepted : h('b', {class: 'word refused'}, act.refusal ? `${OUTCOMES[act.outcome]}: ${reason(act)}` : OUTCOMES[act.outcome]);

/** The document that an act made. */
function paperOf(act) {
  if (!act.number || act.outcome !== 'accepted') return '';
  if (act.acts > 1 && act.last_number > act.number) return papersOf(act);
  if (act.kind === 'cancellation') return h('a', {href: `#document/${act.number}`}, t`cancellation ${act.number}`);
  return {withdrawal: t`withdrawal ${act.number}`, correction: t`withdrawal ${act.number}`, export: t`notice ${act.number}`, import: t`notice ${act.number}`, account: t`account ${act.number}`}[act.kind] ?? String(act.number);
}

/** The documents that the acts of a bundle made: nothing comes between them, so they are numbered one after another. */
function papersOf({kind, number: first, last_number: end}) {
  if (kind === 'cancellation') return h('a', {href: `#document/${first}-${end}`}, t`cancellations ${first} to ${end}`);
  return {withdrawal: t`withdrawals ${first} to ${end}`, export: t`notices ${first} to ${end}`, account: t`accounts ${first} to ${end}`}[kind] ?? '';
}

/** The first of an act's ranges, and how many more there are. */
const rangesOf = (act) => act.ranges.length === 0 ? '' : [between(number(act.ranges[0].first), number(act.ranges[0].last)), act.ranges_in_all > 1 ? t` and ${count(act.ranges_in_all - 1)} more` : ''];

/** How many rows of a table an act tells of. */
const rowsOf = (n) => n === 1 ? t`1 row` : t`${count(n)} rows`;

/** How many acts a line tells of, with the way to them. */
const many = (act) => act.acts > 1 ? [' ', h('a', {href: `#history//bundle=${act.bundle}`}, t`${count(act.acts)} as one`)] : '';
/** What else there is to say of how it ended. */
const ended = (act) => act.lines ? [', ', rowsOf(act.rows)] : act.failed && act.failed < act.acts ? [', ', t`${count(act.failed)} not`] : act.bundle && act.rows > 1 ? [', ', t`none of ${count(act.rows)} requests was carried out`] : '';

const COLUMNS = [[t`When, UTC`, 'wide'], [t`Act`, 'wide'], [t`Count`, 'right'], [t`From`, 'wide'], [t`To`, 'wide'], [t`Certificates`, 'range'], [t`Outcome`, 'wide'], [t`Document`, 'wide'], [t`Note`, 'wide']];
/** The columns of ranges and documents. */
const LONG = [5, 7];
const far = (act) => act.kind === 'export' || act.kind === 'import' ? t`registry ${act.peer}` : '';
const cells = (act) => Object.assign([whenOf(act), [KINDS[act.kind], many(act)], act.count ? count(act.count) : '', act.kind === 'import' ? far(act) : party(act.giver), act.kind === 'export' ? far(act) : party(act.taker), rangesOf(act),
  [outcome(act), ended(act)], paperOf(act), [act.device ?? '', act.device && act.note ? ', ' : '', act.note ? written(act.note) : '', act.user ? t` by ${act.user}` : '']], {kind: act.outcome === 'accepted' ? 'accepted' : 'refused'});

const choices = (words) => [['', t`all`], ...Object.entries(words)];
const FILTERS = [{name: 'account', label: t`Account`}, {name: 'kind', label: t`Act`, options: choices(KINDS), first: true}, {name: 'outcome', label: t`Outcome`, options: choices(OUTCOMES), first: true},
  {name: 'from', label: t`From day`, type: 'date'}, {name: 'to', label: t`To day`, type: 'date'}, {name: 'user', label: t`User`, first: true}, {name: 'q', label: t`Text in note, key, device or holder`}];

/** Acts with all that may be filtered; `fixed` is asked always. */
export const acts = (given, fixed = {}) => listing({name: 'acts', given, fixed, filters: FILTERS, columns: () => COLUMNS, row: cells, empty: t`No act fits.`});

/** A few acts without what a list of them is filtered by. */
export const briefActs = (caption, items) => table(caption, COLUMNS.filter((_, i) => !LONG.includes(i)), items.map((of) => Object.assign(cells(of).filter((_, i) => !LONG.includes(i)), {kind: of.outcome === 'accepted' ? 'accepted' : 'refused'})));

/** All acts, each bundle as one line; or the acts of one bundle. */
export function history(account, said) {
  const {bundle, ...given} = Object.fromEntries(new URLSearchParams(said ?? ''));
  if (bundle) return [h('h1', {}, t`Bundle of entry ${bundle}`), h('p', {}, h('a', {href: '#history'}, t`History`)), acts({account, ...given}, {bundle})];
  return [h('h1', {}, t`History`), h('p', {class: 'lead'}, session.isIssuer ? t`All acts of the registry, the newest first.` : t`The acts that touched your accounts, the newest first.`), acts({account, ...given}, {folded: 'yes'})];
}

/** One act with all its ranges. */
export async function act(id) {
  const of = await asked(`acts/${encodeURIComponent(id)}`);
  const known = [[t`When, UTC`, of.time?.slice(0, 19).replace('T', ' ')], [t`Registry’s date`, of.day], [t`Outcome`, outcome(of)], [t`Document`, paperOf(of)], [t`From`, party(of.giver)], [t`To`, party(of.taker)], [t`Registry`, far(of)],
    [t`Device`, of.device], [t`Holder`, of.holder], ['Wh', of.wh === null ? null : count(of.wh)], [t`Note`, of.note], [t`User`, of.user], [t`Role`, roleName(of.role)], [t`Signed in by`, of.way && wayOf(of.way)], [t`Confirmed by`, of.confirmed], [t`Caller`, of.caller], [t`Key`, of.key], [t`Entry of the log`, of.entry ? count(of.entry) : null],
    [of.bundle ? t`Lines of the bundle` : t`Rows of the table`, of.lines ? `${count(of.rows)}: ${of.lines}` : null],
    [t`Bundle`, of.bundle ? h('a', {href: `#history//bundle=${of.bundle}`}, t`line ${count(of.line)} of entry ${count(of.bundle)}`) : null],
    [t`Certificates`, of.count ? count(of.count) : null]].filter(([, value]) => value);
  return [h('h1', {}, t`Act ${of.id}: ${KINDS[of.kind]}`), h('div', {class: 'certificate'}, facts(known)),
    of.ranges.length ? table(t`${count(of.ranges.length)} ranges`, [[t`Certificates`, 'range'], [t`Count`, 'right'], [t`From account`], [t`Account`], [t`Place`]], of.ranges.map((r) =>
      [between(number(r.first), number(r.last)), count(r.count), r.from_account ?? '', r.account, place(r.place)])) : null,
    h('p', {class: 'quiet'}, stands(of))];
}

/** The acts that a certificate went through, as far as the caller may see them. */
export async function life(n) {
  const of = await asked(`certificates/${Number(n)}`);
  return [h('h3', {}, t`Its life`), table(stands(of), COLUMNS.filter((_, i) => ![2, 5].includes(i)), of.life.map((row) => Object.assign(cells(row).filter((_, i) => ![2, 5].includes(i)), {kind: row.outcome === 'accepted' ? 'accepted' : 'refused'})))];
}
