// Which mails somebody gets, in which language and where, and the webhooks of his programs.

import {actButton} from './act-button.js';
import {h, result, table, written} from './dom.js';
import {box, formOf, part, tick} from './fields.js';
import {t} from './language.js';
import {changed, moment} from './people.js';

/** The kinds of mails that can be switched off. */
const KINDS = {came_in: t`certificates came in`, sent: t`a transfer of mine was sent`, document: t`a document was made`, deadline: t`deadlines 60, 30 and 7 days ahead`, notice_refused: t`another registry refused an export`,
  new_place: t`a sign-in from a new place`, waits: t`something waits for me, or was decided`};
const LANGUAGES = [['en', 'English'], ['de', 'Deutsch']];
const address = (text) => /^[^\s@]{1,64}@[^\s@]{1,190}$/.test(text) ? '' : t`An address such as anna@sun.example.`;

function mailForm({mail, language: present, off: switched, kinds}) {
  const ticks = kinds.map((kind) => tick(`mail-${kind}`, KINDS[kind] ?? kind, !switched.includes(kind)));
  const send = async ({address: to, language, ...on}) => {
    const off = kinds.filter((kind) => !on[`mail-${kind}`]);
    return await changed('me/mail', {address: to, language, off}) === null ? null : result({good: true, title: t`It is kept`});
  };
  return formOf({kind: 'mail', act: t`Keep it`, fields: [box({name: 'address', label: t`Mail address`, type: 'email', autocomplete: 'email', value: mail ?? '', maxlength: '200', optional: true, wrong: address}),
    box({name: 'language', label: t`Language of mails`, options: LANGUAGES, value: present ?? 'en'})], ticks, send});
}

/** What became of the messages of a webhook. */
const fateOf = (of) => of.given_up ? t`${of.given_up} given up` : of.waiting ? t`${of.waiting} wait` : moment(of.sent) || t`never`;

function hooks(list, redraw) {
  const revoke = (of) => actButton(t`Revoke`, redraw, {title: t`Revoke a webhook`, facts: [[t`Address`, of.url]]}, () => changed(`me/hooks/${of.id}/revoke`), () => result({good: true, title: t`The webhook is revoked`}));
  const send = async ({url}) => {
    const made = await changed('me/hooks', {url, kinds: []});
    if (made !== null) await redraw(result({good: true, title: t`The webhook is made`, sentence: t`Each message is signed with this secret, which is shown this once:`}, h('input', {class: 'token', readonly: true, value: made.secret, 'aria-label': t`The secret of the webhook`, onfocus: (event) => event.target.select()})));
    return null;
  };
  return [list.length ? table(t`The registry tells these addresses the same as the mails, for programs.`, [[t`Address`, 'wide'], [t`Made`], [t`Last message`], ['', 'acts']], list.map((of) => [written(of.url), moment(of.made), fateOf(of), revoke(of)])) : h('p', {class: 'quiet'}, t`You have no webhook.`),
    h('details', {}, h('summary', {}, t`Make a webhook`), formOf({kind: 'hook', act: t`Make a webhook`, fields: [box({name: 'url', label: t`Address`, type: 'url', hint: t`Begins with https://`, maxlength: '500', wrong: (text) => /^https:\/\/\S+$/.test(text) ? '' : t`An address that begins with https://.`})], send}))];
}

/** The parts of "My account" about mails and webhooks. */
export const mailPart = (me, redraw) => [part(t`Mails`, mailForm(me)), part(t`Webhooks`, hooks(me.hooks, redraw))];
