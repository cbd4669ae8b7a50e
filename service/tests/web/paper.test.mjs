// The printed document of a cancellation: what Article 19(7) of Directive (EU) 2018/2001 has it say, each under its name.
import assert from 'node:assert/strict';
import {test} from 'node:test';
import {answering, chance, json, texts} from './shared.mjs';
import {paper} from '../web/documents.js';
import {asList, qr, sheet} from '../web/paper.js';
import {records} from '../web/records.js';

const ONE = {language: 'en', number: '07-3-2', code: 'ABCD-EFGH-IJKL-MNOP', house: 'Registry of guarantees of origin 07', title: 'Document of cancellation 07-3-2',
  claim: ['15 MWh', ' of energy, used from 2025-02-01 to 2025-02-28 by ', 'Rathaus Beispielstadt'], facts: [{name: 'Issuing body', lines: ['Umweltamt', 'Hauptstraße 1', 'registry 07']}, {name: 'Beneficiary', lines: ['Rathaus Beispielstadt']}],
  notes: [], tables: [{caption: 'By month', columns: [{name: 'Month', kind: ''}, {name: 'MWh', kind: 'right'}], rows: [[['2025-01'], ['15']]]},
    {caption: 'Certificates cancelled', columns: [{name: 'Plant', kind: 'wide'}, {name: 'Certificates', kind: 'ranges'}], rows: [[['North field', 'Germany DE'], ['07000000000001 – 07000000000010 (10)', '07000000000012 (1)']], [['In all'], []]]}],
  check: {name: 'Check code', code: 'ABCD-EFGH-IJKL-MNOP', text: 'Anybody can check this.'}, address: 'https://registry.example/verify.html?number=07-3-2&code=ABCDEFGHIJKLMNOP', qr: ['101', '010', '111'],
  foot: 'Guarantees of origin.', each_page: 'Document 07-3-2, check code ABCD-EFGH-IJKL-MNOP', page: 'page {} of {}'};
const ITEMS = [{number: 3, account: 12}, {number: 5, account: 12}];
const factsOf = (made) => Object.fromEntries(texts(made, 'dt').map((name, i) => [name, texts(made, 'dd')[i]]));
const claimOf = (made) => [...made.getElementsByTagName('p')].find((of) => of.className === 'claim').textContent;

/** Every text of a document, as the records have it. */
const textsOf = (of) => [of.house, of.title, of.claim.join(''), ...of.facts.flatMap(({name, lines}) => [name, ...lines]), ...of.notes, ...of.tables.flatMap(({caption, columns, rows}) => [caption, ...columns.filter(({kind}) => kind !== 'ranges').map(({name}) => name), ...rows.flat(2)]),
  of.check.name, of.check.code, of.check.text, of.foot];

test('every text of a document stands on its sheet', () => {
  const made = sheet(ONE), said = made.textContent;
  for (const text of textsOf(ONE)) assert.ok(said.includes(text), text);
  assert.equal(claimOf(made), '15 MWh of energy, used from 2025-02-01 to 2025-02-28 by Rathaus Beispielstadt');
  assert.deepEqual(texts(made, 'h1'), ['Document of cancellation 07-3-2']);
  assert.deepEqual(factsOf(made), {'Issuing body': 'UmweltamtHauptstraße 1registry 07', Beneficiary: 'Rathaus Beispielstadt'});
});

test('a sheet has the rows of its document, in their order', () => {
  assert.deepEqual(texts(sheet(ONE), 'td'), ['2025-01', '15', 'North fieldGermany DE', '07000000000001 – 07000000000010 (10)07000000000012 (1)', 'In all']);
  assert.deepEqual([...sheet(ONE).getElementsByTagName('td')].map((of) => of.getAttribute('data-name')), ['Month', 'MWh', 'Plant', 'Certificates', 'Plant']);
});

test('a name that deceives is shown by its codes', () => {
  assert.ok(claimOf(sheet({...ONE, claim: [ONE.claim[0], ONE.claim[1], 'Rat\u202ehaus']})).endsWith('RatU+202Ehaus'));
});

test('a QR code has a square for each dark module, and light ones around', () => {
  const dark = [...qr(['101', '010', '111'], 'x').getElementsByTagName('rect')].slice(1).map((of) => ['x', 'y', 'width'].map((name) => Number(of.getAttribute(name))));
  assert.deepEqual(dark, [[4, 4, 1], [6, 4, 1], [5, 5, 1], [4, 6, 3]]);
  assert.equal(sheet({...ONE, qr: []}).getElementsByTagName('rect').length, 0);
});

test('each printed page has the number, the code and the page of pages', () => {
  const before = document.adoptedStyleSheets?.filter((of) => !of.isFoot).length;
  sheet(ONE);
  const made = sheet({...ONE, each_page: 'Document "1"\n', page: 'Seite {} von {}'});
  if (!('CSSMarginRule' in globalThis)) {
    assert.ok(made.textContent.includes('Document "1"'));
    return;
  }
  const feet = document.adoptedStyleSheets.filter((of) => of.isFoot);
  assert.equal(feet.length, 1);
  const rule = feet[0].cssRules[0].cssText;
  assert.ok(rule.includes('counter(page)') && rule.includes('counter(pages)') && rule.includes('"Seite "') && rule.includes('" von "'), rule);
  dispatchEvent(new Event('beforeprint'));
  assert.equal(document.adoptedStyleSheets.length, before, 'a sheet that is gone leaves no foot');
});

test('a list of numbers says each number once', () => {
  const below = chance(5);
  assert.equal(asList([3, 1, 2, 7]), '1-3,7');
  for (let turn = 0; turn < 300; turn++) {
    const numbers = [...new Set(Array.from({length: 1 + below(20)}, () => 1 + below(30)))];
    const said = asList(numbers).split(',').flatMap((span) => { const [a, b = a] = span.split('-').map(Number); return Array.from({length: b - a + 1}, (_, i) => a + i); });
    assert.deepEqual(said, [...numbers].sort((a, b) => a - b));
  }
});

const TEXT = `CANCELLATION 1
registry 07
date 2025-04-05
account 1
holder SUN
beneficiary Bäckerei Müller
period 2025-01-01 2025-03-31
07000000000001 07000000000010           10 500000000000000012 2025-01-01 2025-01-31 T010000 F01010100
certificates 10
END
`;

test('without the records the registry\'s own text is the document', async () => {
  records.isThere = false;
  answering(() => ({text: TEXT}));
  const [, made] = await paper('1'), named = factsOf(made);
  assert.equal(claimOf(made), '10 MWh of energy, used from 2025-01-01 to 2025-03-31 by Bäckerei Müller');
  assert.deepEqual([named.Beneficiary, named.Holder, named.Registry, named.Certificates], ['Bäckerei Müller', 'SUN, account 1', '07', '10 of 1 MWh each']);
});

test('with the records it is theirs, with its code', async () => {
  records.isThere = true;
  const sent = answering(() => json({number: '07-3-2', items: ITEMS, text: TEXT, code: ONE.code, paper: ONE}));
  for (const [given, asked] of [['3,5', '3%2C5'], ['07-3-2', '07-3-2']]) {
    const [, made] = await paper(given);
    assert.equal(sent.at(-1).path, `/records/v1/documents?numbers=${asked}&lang=en`);
    assert.ok(made.textContent.includes('ABCD-EFGH-IJKL-MNOP') && claimOf(made).endsWith('Rathaus Beispielstadt'));
  }
  records.isThere = false;
});

test('of an address only numbers are asked for', async () => {
  const sent = answering(() => ({text: TEXT}));
  for (const odd of ['1/../2', '', 'x', '1234567890', '%31', '1-2-3-4']) await paper(odd);
  assert.deepEqual(sent, []);
});
