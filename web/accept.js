// The link of an invitation: whoever has it chooses a name and a password, adds a second factor, and is signed in. The secret stands behind the # of the address, which no
// server is sent; it is taken out of the address at once.

import {h, facts, result} from './dom.js';
import {chooseFactor} from './factors.js';
import {box, formOf, newPassword} from './fields.js';
import {others, t} from './language.js';
import {Refusal, asked, changed, moment, roleOf} from './people.js';
import {way} from './way.js';

const view = document.getElementById('view'), show = (...children) => {
  view.replaceChildren(...children.flat(Infinity).filter(Boolean));
  view.querySelector('form [name]')?.focus();
};
const GONE = {good: false, title: t`This invitation is over`, sentence: t`It has ended, was used before, or was taken back. Whoever invited you can send another one.`};
const ABSENT = {good: false, title: t`No answer`, sentence: t`The service does not answer. Try again in a minute.`};
const LATER = {good: false, title: t`Too many tries`, sentence: t`Wait an hour, then open the link again.`};
const told = (fault) => result({404: GONE, 429: LATER}[fault.status] ?? ABSENT);
const title = () => h('h1', {}, t`Invitation`);

/** What the invitation is for, and the form that accepts it. */
function offer(invitation, of) {
  const name = of.user ? null : box({name: 'name', label: t`Name to sign in with`, hint: t`Letters, digits and signs without a blank. It can not be changed later.`, autocomplete: 'username', autocapitalize: 'none', maxlength: '200',
    wrong: (text) => /^[!-9;-~]+$/.test(text) && !text.startsWith('#') ? '' : t`Letters of A to Z, digits and signs, without a blank or a colon.`});
  const faults = (fault, by) => fault.status === 409 && by.name?.say(t`This name is taken. Choose another one.`);
  const send = async ({name: chosen, password}, by) => {
    if (by.name && password.toLowerCase() === chosen.toLowerCase()) return by.password.say(t`The password must not be the name.`) && null;
    try {
      const {user} = await changed('accept', {invitation, password, ...of.user ? {} : {name: chosen}});
      return begin(user, password);
    } catch (fault) {
      if (!(fault instanceof Refusal) || [400, 409].includes(fault.status)) throw fault;
      return told(fault);
    }
  };
  show(title(), h('p', {class: 'lead'}, of.user ? t`Your access to the registry is made anew.` : t`You are invited to the registry of guarantees of origin.`),
    facts([[t`For`, of.caller === 'ISSUER' ? t`Issuing body` : of.caller], [t`As`, roleOf(of)], ...of.user ? [[t`Name`, of.user]] : [], [t`Mails for you go to`, of.mail], [t`The link ends`, moment(of.ends)]], {class: 'head'}),
    formOf({kind: 'accept', act: t`Go on`, fields: [...name ? [name] : [], ...newPassword(t`At least 12 characters. A few words are easier to keep than signs.`)], send, faults}));
}

/** Signs in for the first time, and adds the second factor. */
async function begin(user, password) {
  const {next} = await changed('sign-in', {user, password});
  if (next !== 'enrol') return location.replace('./');
  way.me = await asked('me');
  show(h('h1', {}, t`Add a second factor`), result({good: true, title: t`Welcome, ${user}`, sentence: t`Your name and your password are kept. One step is left.`}),
    h('p', {class: 'lead'}, t`Whoever learns your password can do nothing without it. You need it each time you sign in.`), chooseFactor(() => location.replace('./')));
  return null;
}

async function start() {
  const invitation = location.hash.slice(1);
  history.replaceState(null, '', location.pathname);
  const languages = h('p', {class: 'quiet'}, others().map(([name, choose]) => h('button', {type: 'button', class: 'plain language', onclick: () => { history.replaceState(null, '', `#${invitation}`); choose(); }}, name)));
  try { offer(invitation, await changed('accept', {invitation})); } catch (fault) { show(title(), told(fault), h('p', {}, h('a', {href: './'}, t`Sign in`))); }
  view.append(languages);
}

start();
