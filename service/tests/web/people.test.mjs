// The way to goo-people: which page a session leads to, what a change is sent with, what a refusal says, and what waits for a second user in words.
import assert from 'node:assert/strict';
import {test} from 'node:test';
import {answering, hurry, json} from './shared.mjs';
import {bundleOf, carry} from '../web/bundles.js';
import {h} from '../web/dom.js';
import {asked, changed, digitsOf, moment} from '../web/people.js';
import {askedOf} from '../web/records.js';
import {submit} from '../web/registry.js';
import {session} from '../web/session.js';
import {requestsOf, sum, toldOf} from '../web/waiting.js';
import {fieldsOf, findWay, known, way} from '../web/way.js';
import {whyOf} from '../web/words.js';

hurry();
const ME = {user: 'anna', caller: 'SUN', role: 'user', way: 'session', csrf: 'word.of.session', factors: []};
const left = [];
way.leave = (to) => left.push(to.split('#')[0]);
const as = (me) => { way.me = me; left.length = 0; };

test('a host without goo-people keeps its way: no word is sent, and nobody is led away', async () => {
  as(null);
  answering(() => ({status: 404}));
  assert.deepEqual([await findWay(), way.me, left], [true, null, []]);
  assert.deepEqual(fieldsOf('text/csv'), {'Content-Type': 'text/csv'});
  known(new Response('', {status: 401}));
  assert.deepEqual(left, []);
});

test('whoever has no session is led to the sign-in, and so is one who still lacks a second factor', async () => {
  for (const answer of [{status: 401}, json({...ME, way: 'enrol'})]) {
    as(null);
    answering(() => answer);
    assert.deepEqual([await findWay(), left], [false, ['sign-in.html']]);
  }
});

test('a session that ends while the page is open leads to the sign-in', async () => {
  as(ME);
  answering(() => json({error: 'nobody is signed in'}, 401));
  await assert.rejects(() => asked('users'), (fault) => fault.status === 401);
  assert.deepEqual(left, ['sign-in.html']);
});

test('each write has the word of the session', async () => {
  localStorage.clear();
  as(ME);
  session.caller = 'SUN';
  const sent = answering((path) => json(path.startsWith('/v1/bundles') ? {error: 'no'} : {outcome: 'accepted', reply: {count: 1}}, path.startsWith('/v1/bundles') ? 403 : 200));
  await submit('SUN', {key: 'w-1', command: 'transfer', path: '/v1/requests', body: '{}', told: 'x'});
  await askedOf('plan', 'a,b');
  await changed('me/password', {old: 'a', new: 'b'});
  await carry(bundleOf('transfer', {giver: 1, taker: 2}, [{first: '07000000000001', last: '07000000000002', count: 2}], 'x'), h('div'));
  assert.deepEqual(sent.map(({path, headers}) => [path.split('?')[0], headers['GOO-CSRF']]), ['/v1/requests', '/records/v1/plan', '/people/v1/me/password', '/v1/bundles'].map((path) => [path, 'word.of.session']));
});

test('a refusal has the sentence of the service, and a wait its seconds', async () => {
  as(ME);
  answering(() => json({error: 'SUN has 20 open invitations: take some back'}, 429, {'Retry-After': '9'}));
  await assert.rejects(() => changed('users/invite', {}), (fault) => fault.wait === 9 && fault.problem.sentence.includes('SUN has 20 open invitations'));
  answering(() => null);
  await assert.rejects(() => changed('users/invite', {}), (fault) => fault.status === 0);
});

test('a question is asked again where there are too many, a change is not', async () => {
  as(ME);
  const sent = answering((path, words, turn) => turn < 3 ? json({error: 'too often'}, 429) : json({users: []}));
  assert.deepEqual(await asked('users'), {users: []});
  assert.equal(sent.length, 3);
  const once = answering(() => json({error: 'too often'}, 429));
  await assert.rejects(() => changed('rules', {}), (fault) => fault.status === 429);
  assert.equal(once.length, 1);
});

// ------------------------------------------------------------------ what waits

const WAITS = {outcome: 'waiting', number: 12, ends: '2026-12-08T09:00:00Z', why: 'a transfer above 1000'};

test('a request that waits is told by its number and is not kept, as the service keeps it', async () => {
  localStorage.clear();
  as(ME);
  answering(() => json(WAITS, 202));
  const outcome = await submit('SUN', {key: 'w-1', command: 'transfer', path: '/v1/requests', body: '{}', told: 'x'});
  assert.deepEqual([outcome.good, outcome.waits.number, outcome.title, Object.keys(localStorage)], [false, 12, 'It waits for a second user: number 12', []]);
  assert.ok(outcome.sentence.includes('2026-12-08 09:00 UTC') && outcome.sentence.includes('a transfer above 1,000 certificates'), outcome.sentence);
});

test('a bundle that waits is told in the same way', async () => {
  localStorage.clear();
  session.caller = 'SUN';
  answering(() => json(WAITS, 202));
  const outcome = await carry(bundleOf('transfer', {giver: 1, taker: 2}, [{first: '07000000000001', last: '07000000000002', count: 2}], 'x'), h('div'));
  assert.deepEqual([outcome.waits.number, Object.keys(localStorage)], [12, []]);
});

test('why it waits is said in words, an unknown reason as it came', () => {
  assert.deepEqual([whyOf('a withdrawal'), whyOf('an export above 50000'), whyOf('something else'), whyOf('a looser rule above 0'), whyOf('a transfer above 0')],
    ['a withdrawal', 'an export above 50,000 certificates', 'something else', 'a looser rule', 'a transfer above 0 certificates']);
});

test('what a request will do: each field by the label of its form, and the sum of a bundle', () => {
  const one = {command: 'transfer', key: 'k', giver: 1, taker: 2, first: '07000000000001', last: '07000000001200'};
  assert.deepEqual(requestsOf({target: '/v1/requests', body: JSON.stringify(one)}), [one]);
  const all = requestsOf({target: '/v1/bundles?whole=yes', body: `${JSON.stringify(one)}\n${JSON.stringify({...one, last: '07000000000003'})}\nno json\n`});
  assert.deepEqual([all.length, all[2], sum(all)], [3, null, 1203]);
  assert.deepEqual(toldOf(one).map(([label, value]) => [label, value]), [['From your account', '1'], ['To account', '2']]);
  assert.deepEqual(toldOf({command: 'withdraw', key: 'k', first: '', last: '', reason: 'meter', odd: {a: 1}}).map(([label, value]) => [label, value]), [['Reason', 'meter'], ['odd', '{"a":1}']]);
});

test('codes and moments as people write them', () => {
  assert.deepEqual([digitsOf('123 456'), digitsOf('12-34-56')], ['123456', '123456']);
  assert.deepEqual([moment(0), moment(null), moment(1796112000), moment('2026-12-01T08:00:59Z')], ['', '', '2026-12-01 08:00 UTC', '2026-12-01 08:00 UTC']);
});
