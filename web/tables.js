// The lists of what the registry has: devices, declarations, corrections, cancellations, withdrawals, notices, holders, and
// the statistics. Each as the records of acts have it, with what may be filtered, and as CSV.

import {h, number, between, count, day, written} from './dom.js';
import {acts} from './history.js';
import {t} from './language.js';
import {listing} from './listing.js';
import {coded, lines} from './paper.js';
import {records} from './records.js';
import {session} from './session.js';

const ACCOUNT = {name: 'account', label: t`Account`}, FROM = {name: 'from', label: t`From day`, type: 'date'}, TO = {name: 'to', label: t`To day`, type: 'date'};
const SITE = {name: 'q', label: t`Site or device`};
const AGE = [{name: 'commissioned_from', label: t`In operation from`, type: 'date'}, {name: 'commissioned_to', label: t`In operation to`, type: 'date'}, {name: 'capacity_from', label: t`Capacity from, W`}, {name: 'capacity_to', label: t`Capacity to, W`}];
const range = (of) => of.first ? between(number(of.first), number(of.last)) : '';
const act = (of, text) => h('a', {href: `#act/${of.act}`}, text);
const wh = (n) => n ? count(n) : '0';
const site = (of) => h('a', {href: `#holdings/${of.account}/${new URLSearchParams({device: of.gsrn})}`}, written(of.site));
/** A device as people know it, its number below. */
const plant = (of) => lines(written(of.site), h('span', {class: 'code'}, of.device));
/** The way to lower a declaration, for whoever may. */
const correcting = (of) => session.isIssuer && session.isFull ? h('a', {href: `#correct/${of.account}/${of.first ?? ''}/${of.last ?? ''}/${of.device}/${of.first_day}`, 'aria-label': `${t('correct')}: ${of.site} ${of.first_day}`}, t('correct')) : '';
/** What became of a notice; a refusal stands out. */
const fate = (of) => !of.fate ? '' : /refused|failed/i.test(of.fate) ? h('b', {class: 'word refused'}, of.fate) : of.fate;

/** Each list: title, filters, columns, the cells of a row, who has it. */
const LISTS = {
  devices: {title: t`Devices`, filters: [SITE, ACCOUNT, ...AGE], columns: [[t`Device`, 'wide', 'site'], [t`Account`], [t`Technology and source`, 'wide'], [t`Capacity in W`, 'right', 'capacity_w'], [t`Commissioned on`, 'wide', 'commissioned'], [t`Last declared day`], [t`Issued`, 'right'], [t`Withdrawn`, 'right'], [t`Carry Wh`, 'right']],
    row: (of) => [lines(site(of), h('span', {class: 'code'}, of.gsrn), coded('country', of.country)), of.account, lines(coded('tech', of.tech), coded('source', of.source), t(of.carrier)), count(of.capacity_w),
      lines(day(of.commissioned), of.support === 'none' ? t`no support` : t(of.support)), day(of.last_day), count(of.issued), count(of.withdrawn), wh(of.carry_wh)]},
  declarations: {title: t`Declarations`, filters: [SITE, FROM, TO, ACCOUNT], columns: [[t`Declared on`], [t`Device`, 'wide'], [t`Period`, 'wide'], [t`Gross in Wh`, 'right'], [t`Auxiliaries in Wh`, 'right'], [t`Less corrections Wh`, 'right'], [t`Certificates`, 'range'], [t`Count`, 'right'], [t`Key`, 'wide'], ['', 'acts']],
    row: (of) => [act(of, of.day), plant(of), between(of.first_day, of.last_day), wh(of.gross_wh), wh(of.aux_wh), wh(of.corrected_wh), range(of), of.first ? count(Number(of.last) - Number(of.first) + 1) : '0', of.key ?? '', correcting(of)]},
  undeclared: {title: t`Not declared`, filters: [ACCOUNT, {name: 'month', label: t`Month`, type: 'month'}], columns: [[t`Device`, 'wide'], [t`Holder`, 'wide'], [t`Account`], [t`Month`], [t`Days declared`], [t`Last declared day`], [t`Capacity in W`, 'right'], [t`Can still be declared`, 'wide']],
    row: (of) => [lines(site(of), h('span', {class: 'code'}, of.gsrn)), [h('b', {}, of.holder), ' ', written(of.name)], of.account, h('span', {class: 'end'}, of.month), t`${of.declared} of ${of.days}`, day(of.last_day), count(of.capacity_w),
      of.shut_out ? h('b', {class: 'word refused'}, t`no: a later day is declared`) : t`yes`]},
  corrections: {title: t`Corrections`, filters: [SITE, ACCOUNT], columns: [[t`Corrected on`], [t`Device`, 'wide'], [t`First day of the period`], [t`Less, in Wh`, 'right'], [t`Withdrawal`, 'right'], [t`Certificates`, 'range'], [t`Reason`, 'wide']],
    row: (of) => [act(of, of.day), plant(of), day(of.first_day), wh(of.less_wh), of.withdrawal || '', range(of), of.reason ? written(of.reason) : '']},
  cancellations: {title: t`Cancellations`, filters: [{name: 'q', label: t`Beneficiary`}, FROM, TO, ACCOUNT, {name: 'number', label: t`Cancellation`}], columns: [[t`Cancellation`, '', 'number'], [t`Day`, '', 'day'], [t`Account`], [t`Count`, 'right'], [t`Certificates`, 'range'], [t`Beneficiary`, 'wide', 'beneficiary'], [t`Period of use`, 'wide']],
    row: (of) => [h('a', {href: `#document/${of.number}`}, of.number), act(of, of.day), of.account, count(of.count), range(of), written(of.beneficiary), between(of.use_first, of.use_last)]},
  withdrawals: {title: t`Withdrawals`, filters: [], columns: [[t`Withdrawal`], [t`Day`], [t`Count`, 'right'], [t`Certificates`, 'range'], [t`Reason`, 'wide']], row: (of) => [of.number, act(of, of.day), count(of.count), range(of), written(of.reason)]},
  notices: {title: t`Notices`, filters: [ACCOUNT, {name: 'peer', label: t`Registry`}, {name: 'number', label: t`Notice`}], columns: [[t`Notice`], [t`Day`], [t`Way`], [t`Registry`], [t`Account`], [t`Account there`], [t`Count`, 'right'], [t`What became of it`, 'wide']],
    row: (of) => [of.number, act(of, of.day), of.sent ? t`sent` : t`received`, of.peer, of.account, of.far_account ?? '', count(of.count), fate(of)]},
  attachments: {title: t`Documents of the old registry`, filters: [], isThere: () => records.hasAttachments, columns: [[t`Document`, 'wide'], [t`About`, 'wide'], [t`Holder code`], [t`Bytes`, 'right'], ['SHA-256', 'wide']],
    row: (of) => [h('a', {href: `/records/v1/attachments/${of.number}`, download: of.file}, written(of.file)), written(of.about), of.holder, count(of.bytes), h('span', {class: 'code'}, of.sha256)]},
  directory: {title: t`Directory`, filters: [], isThere: () => records.hasDirectory && !session.isIssuer, columns: [[t`Account`], [t`Holder code`], [t`Name`, 'wide']], row: (of) => [of.account, h('b', {}, of.holder), written(of.name)]},
  holders: {title: t`Holders`, filters: [{name: 'q', label: t`Name or code`}], ofIssuer: true, columns: [[t`Name`, 'wide', 'name'], [t`Holder code`, '', 'code'], [t`Accounts`, 'right'], ['', 'acts']], row: (of) => [written(of.name), of.code, count(of.accounts), h('a', {href: `#account//${new URLSearchParams({holder: of.code})}`}, t`accounts`)]},
};

const BY = {month: t`month`, tech: t`technology`, source: t`energy source`, carrier: t`carrier`, country: t`country`, device: t`device`, production: t`month of production`};
const FLOWS = {issued: t`Issued`, imported: t`Imported`, cancelled: t`Cancelled`, expired: t`Expired`, withdrawn: t`Withdrawn`, exported: t`Exported`};
const wordOf = (by, code) => ['tech', 'source', 'country'].includes(by) ? coded(by, code) : by === 'carrier' ? t(code) : code;
const statistics = () => listing({name: 'statistics', given: {by: 'month'}, filters: [{name: 'by', label: t`Added up by`, options: Object.entries(BY)}, {name: 'from', label: t`From day`, type: 'date'}, {name: 'to', label: t`To day`, type: 'date'}],
  columns: ({by}) => [[BY[by][0].toUpperCase() + BY[by].slice(1), 'wide'], ...Object.values(FLOWS).map((text) => [text, 'right'])], row: (of, {by}) => [wordOf(by, of[by]), ...Object.keys(FLOWS).map((name) => count(of[name]))]});

/** The way between the lists, and the one that is open. */
export function lists(name = 'devices', said) {
  const given = Object.fromEntries(new URLSearchParams(said ?? ''));
  const own = Object.entries(LISTS).filter(([, {ofIssuer, isThere}]) => isThere ? isThere() : session.isIssuer || !ofIssuer), titles = [...own.map(([of, {title}]) => [of, title]), ['entered', session.isIssuer ? t`Entered by the issuing body` : t`Entered by you`], ['statistics', t`Statistics`]];
  const open = titles.some(([of]) => of === name) ? name : 'devices';
  return [h('h1', {}, titles.find(([of]) => of === open)[1]),
    h('p', {class: 'known', role: 'navigation', 'aria-label': t`Lists`}, titles.map(([of, title]) => [h('a', {href: `#lists/${of}`, 'aria-current': of === open ? 'true' : null}, title), ' '])),
    open === 'statistics' ? statistics() : open === 'entered' ? acts(given, {caller: session.caller}) : listing({name: open, given, filters: LISTS[open].filters, columns: () => LISTS[open].columns, row: LISTS[open].row})];
}
