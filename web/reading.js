// A file of declarations, read before anything of it is sent: what is at fault, by row and field, with what was
// expected. service/goo_service/people/declarations.py does the same by the same rules; tools/trials/declarations holds the two, and the
// registry's own answers, against each other.

import {language, t} from './language.js';
import {csv} from './texts.js';

export const HEADER = 'key,device,first_day,last_day,gross_wh,aux_wh';
const FIELDS = {key: 'key', device: 'gsrn', first_day: 'day', last_day: 'day', gross_wh: 'wh', aux_wh: 'wh'};
const MOST_WH = 1e15;
/** The rows of a table that the log in front of the registry takes: ROWS of service/goo_service/log/bounds.py. */
const MOST_ROWS = 21_000;
const SHORTENED = /^[+-]?[0-9]+([.,][0-9]+)?[eE][+-]?[0-9]+$/;
const EXPECTED = {
  key: t`Expected 1 to 40 characters: letters A to Z, digits, and - _ . : are allowed.`,
  gsrn: t`Expected the 18 digits of a GSRN.`,
  day: t`Expected a day from 1900 to 2099 in the form 2025-01-31.`,
  wh: t`Expected a whole number of Wh from 0 to 1,000,000,000,000,000, digits alone.`,
};
/** What often goes wrong with each kind of text: the first pattern that fits gives the reason. */
const SLIPS = {
  key: [],
  gsrn: [[SHORTENED, t`A spreadsheet has shortened it and its last digits are lost.`],
    [/^[0-9]{18}$/, t`Its check digit does not fit the other digits: look for a typing mistake.`],
    [/^[0-9]+$/, t`It has too few or too many digits.`]],
  day: [[/^[0-9]{4}-[0-9]{2}-[0-9]{2}$/, t`There is no such day.`],
    [/^[0-9]{1,4}[./-][0-9]{1,2}[./-][0-9]{1,4}$/, t`A spreadsheet has changed the form of the day.`],
    [/^[0-9]{5}([.,][0-9]+)?$/, t`A spreadsheet has turned the day into a number.`]],
  wh: [[SHORTENED, t`A spreadsheet has shortened it and its last digits may be lost.`],
    [/^-/, t`It is negative.`],
    [/^[0-9]{1,3}([., '\u00a0\u202f’][0-9]{3})+$/, t`It has separators between its digits.`],
    [/^[0-9]+[.,][0-9]+$/, t`It has decimals.`],
    [/^[0-9]+$/, t`It is too large.`]],
};

/** Eighteen digits, the last one GS1's check digit: weights 3, 1, 3, .. over the first 17. */
export const isGsrn = (text) => /^[0-9]{18}$/.test(text)
  && ([...text.slice(0, 17)].reduce((sum, digit, place) => sum + Number(digit) * (place % 2 ? 1 : 3), 0) + Number(text[17])) % 10 === 0;

/** A day of the calendar from 1900-01-01 to 2099-12-31. */
export function isDay(text) {
  if (!/^(19|20)[0-9]{2}-[0-9]{2}-[0-9]{2}$/.test(text)) return false;
  const [year, month, day] = text.split('-').map(Number);
  return month >= 1 && month <= 12 && day >= 1 && day <= new Date(Date.UTC(year, month, 0)).getUTCDate();
}

const FITS = {
  key: (text) => /^[A-Za-z0-9_.:-]{1,40}$/.test(text),
  gsrn: isGsrn,
  day: isDay,
  wh: (text) => /^[0-9]{1,16}$/.test(text) && Number(text) <= MOST_WH,
};

/** Why a field is not of its kind, and what was expected; '' where nothing is wrong. */
function fieldFault(kind, text) {
  if (FITS[kind](text)) return '';
  const slips = [[/^$/, t`It is empty.`], [/^[ \t\u00a0]|[ \t\u00a0]$/, t`There is a space before or after it.`], ...SLIPS[kind], [/(?:)/, '']];
  return `${slips.find(([pattern]) => pattern.test(text))[1]} ${EXPECTED[kind]}`.trim();
}

/** What is wrong between the fields of one row. */
function periodFaults([first, last, gross, aux]) {
  const faults = [];
  if (last < first) faults.push(['last_day', t`The period ends before it begins. Expected a day from first_day to the end of its month.`]);
  else if (last.slice(0, 7) !== first.slice(0, 7)) faults.push(['last_day', t`The period runs into another month. Expected a day of the month of first_day: one row for each month.`]);
  if (Number(aux) > Number(gross)) faults.push(['aux_wh', t`The auxiliaries exceed the gross production. Expected at most gross_wh.`]);
  return faults;
}

/** The fields of a row that are at fault, each with its reason; `row` where it is the row as a whole. */
function rowFaults(fields) {
  const kinds = Object.entries(FIELDS);
  if (/^[ \t\u00a0]*$/.test(fields.join(''))) return [['row', t`It is empty. Delete it.`]];
  if (fields.some((field) => /[\r\n]/.test(field))) return [['row', t`It goes on in another line. Look for a quotation mark that is not closed.`]];
  if (fields.length === 1 && fields[0].split(';').length === kinds.length) return [['row', t`Its fields are separated by semicolons. Expected commas.`]];
  if (fields.length !== kinds.length) return [['row', t`Expected ${kinds.length} fields, and it has ${fields.length}.`]];
  const faults = kinds.map(([name, kind], i) => [name, fieldFault(kind, fields[i])]).filter(([, reason]) => reason);
  return faults.length ? faults : periodFaults(fields.slice(2));
}

/** What is wrong between a row and those before it: their keys, and where each device's last period ended. */
function orderFaults([key, device, first], keys, ends) {
  const faults = [], [end, row] = ends.get(device) ?? [];
  if (keys.has(key)) faults.push(['key', t`Row ${keys.get(key)} has the same key. Expected a key of its own for each row.`]);
  if (end && first <= end) faults.push(['first_day', t`Row ${row} of this device ends on ${end}. Expected a later day.`]);
  return faults;
}

const said = (n) => n.toLocaleString(language);

/** What is wrong with the first record; '' where it is the header. */
function headerFault(header) {
  const text = header.join();
  if (text === HEADER && header.length === Object.keys(FIELDS).length) return '';
  const reasons = [[/[\0\ufffd]/, t`The file is not UTF-8 text.`], [/;/, t`The fields are separated by semicolons.`],
    [/\t/, t`The fields are separated by tabs.`], [/^$/, t`The file is empty.`], [/(?:)/, '']];
  return `${reasons.find(([pattern]) => pattern.test(text))[1]} ${t`Expected a CSV in UTF-8 that begins with ${HEADER}`}`.trim();
}

/** The rows of a file, and what is at fault: row (0 is the header, 1 the first below it), field and reason of each. */
export function readDeclarations(text) {
  const [header = [], ...rows] = csv(text);
  const wrong = headerFault(header);
  if (wrong) return {rows, faults: [{row: 0, field: 'header', reason: wrong}]};
  if (rows.length > MOST_ROWS) return {rows, faults: [{row: 0, field: 'file', reason: t`It has ${said(rows.length)} rows. Expected at most ${said(MOST_ROWS)}: split it, each part with the header.`}]};
  const faults = [], keys = new Map(), ends = new Map();
  rows.forEach((fields, i) => {
    const own = rowFaults(fields), found = own.length ? own : orderFaults(fields, keys, ends);
    faults.push(...found.map(([field, reason]) => ({row: i + 1, field, reason})));
    if (found.length) return;
    keys.set(fields[0], i + 1);
    ends.set(fields[1], [fields[3], i + 1]);
  });
  return {rows, faults: rows.length ? faults : [{row: 0, field: 'file', reason: t`There is no row below the header. Expected one at least.`}]};
}
