// "Users": whom an administrator of a holder, or an officer of the issuing body, lets in: invitations, access by account, and the end of it.

import {actButton} from './act-button.js';
import {h, result, table, written} from './dom.js';
import {accessBox} from './access.js';
import {box, formOf, part, tick} from './fields.js';
import {language, t} from './language.js';
import {peopleActs} from './people-acts.js';
import {ROLE_NAMES, asked, changed, moment, roleOf} from './people.js';
import {session} from './session.js';
import {accessWords} from './tokens.js';
import {way} from './way.js';

const BODY = ['officer', 'second', 'auditor', 'meters'];
const LANGUAGES = [['en', 'English'], ['de', 'Deutsch']];
const isOfficer = () => way.me.role === 'officer';
const address = (text) => /^[^\s@]{1,64}@[^\s@]+\.[^\s@]+$/.test(text) ? '' : t`An address such as anna@sun.example.`;
const forWhom = (caller) => caller === 'ISSUER' ? t`Issuing body` : caller;

const redraw = async (told) => document.querySelector('.users')?.replaceWith(h('div', {class: 'users'}, told ? h('div', {role: 'status'}, told) : null, await parts()));

// ------------------------------------------------------------------ the list

/** The accounts of a user in words, one below the other. */
const accessOf = (user) => user.access.length ? h('span', {}, user.access.map((row) => h('span', {class: 'line'}, accessWords(row)))) : user.caller === 'ISSUER' ? '' : h('span', {class: 'quiet'}, t`no account`);

function actsOf(user) {
  if (!user.managed) return h('span', {class: 'quiet'}, user.name === way.me.user ? t`you` : '');
  const named = [[t`Name`, user.name], [t`For`, forWhom(user.caller)]];
  return h('span', {class: 'buttons'}, user.caller === 'ISSUER' ? null : h('a', {href: `#users/${encodeURIComponent(user.name)}`}, t`Access`),
    actButton(t`Reset`, redraw, {title: t`Reset a user`, facts: [...named, [t`Mail address`, user.mail ?? '']], notes: [t`Password and second factors are gone at once. A link for new ones goes to the mail address; you are not shown it.`]},
      () => changed(`users/${encodeURIComponent(user.name)}/reset`), () => result({good: true, title: t`${user.name} gets a link`, sentence: t`It goes to ${user.mail ?? ''} and works for seven days.`})),
    actButton(t`End`, redraw, {title: t`End a user`, facts: named, notes: [t`Sessions, tokens, webhooks and open invitations of this user end at once. What this user has done stays in the records.`], final: true},
      () => changed(`users/${encodeURIComponent(user.name)}/end`), () => result({good: true, title: t`${user.name} is ended`})));
}

const usersTable = (users) => table(t`${users.length} users`, [[t`Name`, 'wide'], ...isOfficer() ? [[t`For`]] : [], [t`As`], [t`Accounts`, 'wide'], [t`Mail address`, 'wide mail'], [t`Second factors`, 'right'], [t`Last seen`], ['', 'acts']], users.map((user) =>
  [user.name, ...isOfficer() ? [forWhom(user.caller)] : [], roleOf(user), accessOf(user), written(user.mail ?? ''), String(user.factors), moment(user.seen) || t`never`, actsOf(user)]));

// ------------------------------------------------------------------ invitations

/** The link that a new user is given. It is shown for whoever has no mail. */
const linkOf = (made) => h('input', {class: 'token', readonly: true, value: `${location.origin}/accept.html#${made.secret}`, 'aria-label': t`The link`, onfocus: (event) => event.target.select()});
const invited = (made) => result({good: true, title: t`The invitation goes to ${made.mail}`, sentence: t`It ends on ${moment(made.ends)}. Where no mail comes, hand this link over yourself: it is shown this once, and works once.`}, linkOf(made));

async function invite(given) {
  const made = await changed('users/invite', given);
  if (made !== null) await redraw(invited(made));
  return null;
}

const whom = () => [box({name: 'mail', label: t`Mail address`, type: 'email', maxlength: '254', wrong: address}), box({name: 'language', label: t`Language of mails`, options: LANGUAGES, value: language})];

/** What an administrator invites: a user of his holder, with access by account. */
function userForm() {
  const rows = accessBox([{account: 0, reads: true, trades: false, cancels: false}]);
  return formOf({kind: 'invite', title: t`Invite a user`, act: t`Invite`, fields: [...whom(), tick('administrator', t`manages users too`)], more: rows.node, send: async (given, by) => {
    const access = rows.value();
    if (access === null) return null;
    if (!access.length && !by.administrator.value()) return result({good: false, title: t`This user could do nothing`, sentence: t`Give access to an account, or have the user manage users.`});
    return invite({...given, access});
  }});
}

/** What an officer invites: users of the body, and the first administrator of a holder. */
function officerForms() {
  const roles = box({name: 'role', label: t`As`, options: BODY.map((role) => [role, ROLE_NAMES[role]])}), rows = accessBox([]);
  const code = box({name: 'caller', label: t`Holder code`, maxlength: '16', read: (text) => text.trim().toUpperCase(), wrong: (text) => /^[A-Z0-9-]{1,16}$/.test(text) ? '' : t`1 to 16 of A to Z, 0 to 9 and the hyphen.`});
  return h('div', {class: 'pair'}, formOf({kind: 'invite', title: t`Invite a user of the issuing body`, act: t`Invite`, fields: [...whom(), roles], send: (given) => invite({...given, caller: 'ISSUER'})}),
    formOf({kind: 'first-administrator', title: t`Invite the first administrator of a holder`, act: t`Invite`, fields: [code, ...whom()], more: h('details', {}, h('summary', {}, t`Accounts that he may use himself`), rows.node),
      send: async (given) => {
        const access = rows.value();
        return access === null ? null : invite({...given, administrator: true, access});
      }}));
}

const invitationsTable = (list) => list.length ? table(t`Open invitations`, [[t`To`, 'wide'], ...isOfficer() ? [[t`For`]] : [], [t`As`], [t`By`], [t`Made`], [t`Ends`], ['', 'acts']], list.map((of) =>
  [written(of.mail), ...isOfficer() ? [forWhom(of.caller)] : [], of.user ? t`${of.user}, anew` : roleOf(of), of.made_by ?? t`the host`, moment(of.made), moment(of.ends),
    actButton(t`Take back`, redraw, {title: t`Take an invitation back`, facts: [[t`To`, of.mail]]}, () => changed(`invitations/${of.number}/revoke`), () => result({good: true, title: t`The invitation is taken back`}))])) : h('p', {class: 'quiet'}, t`No invitation is open.`);

// ------------------------------------------------------------------ the pages

async function parts() {
  const [{users}, {invitations}] = await Promise.all([asked('users'), asked('invitations')]);
  return [usersTable(users), part(t`Invitations`, invitationsTable(invitations), isOfficer() ? officerForms() : userForm()), h('details', {ontoggle: (event) => showActs(event)}, h('summary', {}, t`What was done with users and tokens`), h('div', {class: 'acts-of-people'}))];
}

async function showActs({target}) {
  const shown = target.querySelector('.acts-of-people');
  if (target.open && !shown.firstChild) shown.replaceChildren(...(await peopleActs()).flat(Infinity).filter(Boolean));
}

/** One user's access. */
async function accessPage(name) {
  const user = (await asked('users')).users.find((of) => of.name === name && of.managed);
  if (!user) return [h('h1', {}, t`Access`), result({good: false, title: t`This is not there`, sentence: t`There is no such user whom you manage.`})];
  const rows = accessBox(user.access);
  const send = async ({administrator}) => {
    const access = rows.value();
    if (access === null || await changed(`users/${encodeURIComponent(user.name)}/access`, {access, administrator}) === null) return null;
    return result({good: true, title: t`The access of ${user.name} is changed`, sentence: t`It holds from the next request on.`}, h('p', {}, h('a', {href: '#users'}, t`Users`)));
  };
  return [h('h1', {}, t`Access of ${user.name}`), h('p', {class: 'lead'}, t`Whoever may transfer or cancel also reads. A line of its own adds to what the line of each account allows.`),
    formOf({kind: 'access', act: t`Keep it`, fields: [tick('administrator', t`manages users too`, user.administrator)], more: rows.node, send}), h('p', {}, h('a', {href: '#users'}, t`Users`))];
}

export async function users(name) {
  if (name) return accessPage(name);
  return [h('h1', {}, t`Users`), h('p', {class: 'lead'}, isOfficer() ? t`The users of the issuing body, and the administrators of holders. A holder’s administrator keeps its other users.` : t`The users of ${session.caller}. Nobody manages himself: what you may do, another administrator decides.`),
    h('div', {class: 'users'}, await parts())];
}
