// Account and holder's code of a form, held against each other by what the records answer.

import {test} from 'node:test';
import assert from 'node:assert/strict';
import {answering, json} from './shared.mjs';
import {partnerName, partnerOf} from '../web/partner.js';
import {holderOf, records} from '../web/records.js';

records.isThere = true;

/** The fields of a form, with what was said at each. */
function form(values) {
  const by = {};
  for (const [name, value] of Object.entries(values)) by[name] = {value: () => value, empty: () => value === '', say: (said) => { by[name].said = said; }};
  return by;
}

const PAIR = {account: 2, holder: 'VOLT', peer: null, fits: true, name: 'Volt', closed: false};
const answers = (pair, status = 200) => answering((path) => path.includes('/accounts') ? json({items: [{number: 1}], next: null}) : json(pair, status, {'Retry-After': '60'}));

test('a pair that fits goes on, with the name beside the account', async () => {
  const sent = answers(PAIR), {stop, notes} = await partnerOf('transfer', form({taker: 2, taker_holder: 'VOLT'}));
  assert.equal(stop, undefined);
  assert.deepEqual(notes, []);
  assert.equal(sent[0].path, '/records/v1/party?account=2&holder=VOLT');
  assert.equal(await holderOf(2), 'VOLT, Volt');
});

test('a wrong pair, a closed account and a code that lacks stop what is sent', async () => {
  answers({...PAIR, fits: false, name: null});
  const wrong = form({taker: 3, taker_holder: 'VOLT'});
  assert.equal((await partnerOf('transfer', wrong)).stop, wrong.taker_holder);
  assert.match(wrong.taker_holder.said, /Account 3 is not one of VOLT/);
  answers({...PAIR, closed: true});
  const closed = form({taker: 2, taker_holder: 'VOLT'});
  assert.equal((await partnerOf('transfer', closed)).stop, closed.taker);
  const none = form({taker: 2, taker_holder: ''});
  assert.equal((await partnerOf('transfer', none)).stop, none.taker_holder);
  assert.equal((await partnerOf('transfer', form({taker: 1, taker_holder: ''}))).stop, undefined);
});

test('accounts of another registry, as far as it publishes them', async () => {
  answers({...PAIR, peer: 9, fits: null, name: null});
  assert.equal((await partnerOf('export', form({account: 5, peer: 9, far_holder: ''}))).notes.length, 1);
  answers({...PAIR, peer: 9, fits: false, name: null});
  const lacking = form({account: 5, peer: 9, far_holder: ''});
  assert.equal((await partnerOf('export', lacking)).stop, lacking.far_holder);
  answers({...PAIR, peer: 9, holder: 'NORD', name: 'Nord'});
  assert.deepEqual((await partnerOf('export', form({account: 5, peer: 9, far_holder: 'NORD'}))).notes, []);
  assert.equal(await partnerName('NORD'), 'Nord');
});

test('too many wrong pairs are told, and other commands ask nothing', async () => {
  answers({error: '3 wrong pairs'}, 429);
  await assert.rejects(partnerOf('transfer', form({taker: 2, taker_holder: 'VOLT'})), (fault) => fault.problem.title === 'Too many wrong pairs');
  const sent = answers(PAIR);
  assert.deepEqual(await partnerOf('cancel', form({})), {notes: []});
  assert.equal(sent.length, 0);
});
