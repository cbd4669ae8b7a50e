"""The exchange by its modules: signatures, what is published, what is fetched and what becomes of
it. Our registry and the other one's front door are stand-ins in memory."""
import base64
import json
import subprocess
from collections.abc import Callable
from pathlib import Path
from typing import Any

import pytest
from goo_service.common.client import Answer
from goo_service.exchange import accounts
from goo_service.exchange import agent
from goo_service.exchange import orders
from goo_service.exchange import outbox as outboxes
from goo_service.exchange.accounts import Kept
from goo_service.exchange.common import Again
from goo_service.exchange.common import Notice
from goo_service.exchange.common import Refused
from goo_service.exchange.common import chain_of
from goo_service.exchange.common import compact
from goo_service.exchange.common import parse_notice
from goo_service.exchange.inbox import Inbox
from goo_service.exchange.ours import Ours
from goo_service.exchange.outbox import Outbox
from goo_service.exchange.peer import Peer
from goo_service.exchange.report import peer_of
from goo_service.exchange.report import write_states
from goo_service.exchange.run import run as run_with
from goo_service.exchange.signature import Key
from goo_service.exchange.signature import is_signed
from goo_service.exchange.visit import Visit
from hypothesis import HealthCheck
from hypothesis import given
from hypothesis import settings
from hypothesis import strategies

DEVICE = '500000000000000029'
OCTOBER = {'first_day': '2024-10-01', 'last_day': '2024-10-31'}
OURS, THEIRS = 7, 9


def run(*words: object, check: bool = True) -> subprocess.CompletedProcess[bytes]:
    return subprocess.run([str(word) for word in words], capture_output=True, check=check,
                          timeout=60)


@pytest.fixture(scope='session')
def keys(tmp_path_factory: pytest.TempPathFactory) -> dict[str, Path]:
    """Files of private keys: ours, theirs, and one of another kind."""
    folder = tmp_path_factory.mktemp('keys')
    paths = {name: folder / f'{name}.pem' for name in ('ours', 'theirs', 'other')}
    for name in ('ours', 'theirs'):
        run('openssl', 'genpkey', '-algorithm', 'ed25519', '-out', paths[name])
    run('openssl', 'genpkey', '-algorithm', 'EC', '-pkeyopt', 'ec_paramgen_curve:P-256', '-out',
        paths['other'])
    return paths


def public_of(key: Path) -> str:
    """The public key as docs/OPERATING.md has operators print it."""
    return run('openssl', 'pkey', '-in', key, '-pubout').stdout.decode().splitlines()[1]


# -------------------------------------------------------------------- signatures

TEXTS = ('', 'x', '{"sender":7,"text":"Bäckerei \U0001f600"}', 'a\nb\r\n\0', 'z' * 300_000)


def signed_by_openssl(key: Path, text: str, folder: Path) -> str:
    (folder / 'text').write_bytes(text.encode())
    done = run('openssl', 'pkeyutl', '-sign', '-rawin', '-inkey', key, '-in', folder / 'text')
    return base64.b64encode(done.stdout).decode() + '\n'


@pytest.mark.parametrize('text', TEXTS[1:], ids=len)    # openssl takes no empty file
def test_signatures_are_those_of_openssl(keys: dict[str, Path], tmp_path: Path, text: str) -> None:
    key = Key(keys['ours'])
    assert key.public == public_of(keys['ours'])
    assert key.signature(text) == signed_by_openssl(keys['ours'], text, tmp_path)
    assert is_signed(text, signed_by_openssl(keys['theirs'], text, tmp_path),
                     public_of(keys['theirs']))
    (tmp_path / 'signature').write_bytes(base64.b64decode(key.signature(text)))
    judged = run('openssl', 'pkeyutl', '-verify', '-rawin', '-inkey', keys['ours'], '-in',
                 tmp_path / 'text', '-sigfile', tmp_path / 'signature', check=False)
    assert judged.returncode == 0


@pytest.mark.parametrize('text', TEXTS, ids=len)
def test_a_signature_is_of_one_text_and_one_key(keys: dict[str, Path], text: str) -> None:
    ours, theirs = Key(keys['ours']), Key(keys['theirs'])
    good = ours.signature(text)
    assert is_signed(text, good, ours.public)
    assert is_signed(text, good.strip(), ours.public)
    assert not is_signed(text, good, theirs.public)
    assert not is_signed(text, theirs.signature(text), ours.public)
    assert not is_signed(text + ' ', good, ours.public)
    assert not is_signed(text, good, public_of(keys['other']))
    raw = base64.b64decode(good)
    for wrong in (raw[:-1], raw + b'\0', b'', bytes(64), raw[:63] + bytes([raw[63] ^ 1])):
        assert not is_signed(text, base64.b64encode(wrong).decode(), ours.public)
    for other in ('', 'no base64', f'{good.strip()}!', 'ä' * 88):
        assert not is_signed(text, other, ours.public)
        assert not is_signed(text, good, other)


def test_a_key_that_is_none_is_told(keys: dict[str, Path], tmp_path: Path) -> None:
    (tmp_path / 'empty').write_text('')
    for path in (tmp_path / 'nowhere', tmp_path / 'empty', keys['other']):
        with pytest.raises(ValueError, match=f'^key {path} .*; make one: openssl genpkey'):
            Key(path)


# -------------------------------------------------------------------- stand-ins

def notice_text(number: int, addressee: int, sender: int = OURS,
                spans: tuple[tuple[int, int], ...] = ((1, 2),), **lot: object) -> str:
    """A notice of certificates of its sender, by their serials."""
    of = {'capacity_w': 1_000_000, 'device': DEVICE, 'origin': sender, **OCTOBER, **lot}
    parts = [{'first': f'{of["origin"]:02}{first:012}', 'last': f'{of["origin"]:02}{last:012}',
              'lot': of} for first, last in spans]
    return json.dumps({'account': 1, 'addressee': addressee, 'number': number, 'parts': parts,
                       'sender': sender, 'version': 1})


class Registry:
    """Our registry: its notices, and what it imported. `refuses` gives the refusal of a text."""

    code = OURS

    def __init__(self, *sent: str) -> None:
        self.sent, self.imported = list(sent), list[str]()
        self.refuses: Callable[[Notice], str | None] = lambda notice: None

    def notice(self, number: int) -> str | None:
        return self.sent[number - 1] if number <= len(self.sent) else None

    def certificate(self, number: int) -> dict[str, Any] | None:
        there = any(number == parse_notice(text).parts[0].first for text in self.imported)
        return {'place': 'held', 'account': 1} if there else None

    def has_foreign(self) -> bool:
        return bool(self.imported)

    def import_notice(self, notice: Notice) -> str:
        if name := self.refuses(notice):
            raise Refused(name)
        if notice.text in self.imported:
            return 'repeated'
        self.imported.append(notice.text)
        return 'accepted'


class Door(Peer):
    """The other registry's front door, whose files are in memory."""

    def __init__(self, public: str) -> None:
        super().__init__(THEIRS, {'url': 'https://localhost', 'user': 'x', 'password_file': 'x',
                                  'key': public})
        self.files: dict[str, str] = {}

    def begin(self) -> None:
        """Nothing is read from a file, and no time runs."""

    def fetch(self, name: str) -> str | None:
        return self.files.get(name)

    def show(self, key: Key, name: object, text: str) -> None:
        self.files |= {str(name): text, f'{name}.sig': key.signature(text)}

    def show_notices(self, key: Key, *texts: str, **more: object) -> None:
        """Notices for us, and a state that speaks of them."""
        for position, text in enumerate(texts, 1):
            self.show(key, position, text)
        state = {'sender': THEIRS, 'addressee': OURS, 'generation': 1, 'restoring': False,
                 'outbox': {'highest': len(texts), 'chain': chain_of(texts)},
                 'inbox': {'generation': 0, 'highest': 0, 'chain': '', 'refused': {}}, **more}
        self.show(key, 'state', compact(state))


class Side:
    """Our side, and the door of registry 9."""

    def __init__(self, folder: Path, keys: dict[str, Path], *sent: str) -> None:
        self.folder, self.registry = folder, Registry(*sent)
        self.key, self.theirs = Key(keys['ours']), Key(keys['theirs'])
        self.door = Door(self.theirs.public)

    def visit(self) -> Visit:
        """The visit of a run, whose state is fetched."""
        outbox = Outbox(self.folder / 'outbox', OURS, self.key)
        registry: Any = self.registry
        visit = Visit(Ours(self.folder, registry, self.key, outbox, 1), self.door)
        visit.open()
        if 'state' in self.door.files:
            visit.attempt(visit.fetch_state)
        return visit

    def collect(self) -> Visit:
        visit = self.visit()
        visit.collect()
        return visit

    def numbers(self) -> list[int]:
        """The notices that were imported, in their order."""
        return [parse_notice(text).number for text in self.registry.imported]


@pytest.fixture
def side(tmp_path: Path, keys: dict[str, Path]) -> Side:
    return Side(tmp_path, keys)


def theirs(number: int, first: int = 0, **lot: object) -> str:
    """A notice of registry 9 for us."""
    first = first or 10 * number
    return notice_text(number, OURS, THEIRS, ((first, first + 1),), **lot)


# -------------------------------------------------------------------- what is published

@settings(max_examples=25, deadline=None, suppress_health_check=list(HealthCheck))
@given(strategies.lists(strategies.sampled_from((8, 9, 12)), max_size=8),
       strategies.integers(0, 8))
def test_each_notice_stands_in_its_order_for_its_addressee(
        keys: dict[str, Path], tmp_path_factory: pytest.TempPathFactory, addressees: list[int],
        before: int) -> None:
    """Whether they are published at once or in two runs."""
    folder, key = tmp_path_factory.mktemp('outbox'), Key(keys['ours'])
    texts = [notice_text(number, peer) for number, peer in enumerate(addressees, 1)]
    for count in (before, len(texts)):
        list(Outbox(folder, OURS, key).publish(Registry(*texts[:count])))
    outbox = Outbox(folder, OURS, key)
    assert [notice.text for notice in outbox.sent] == texts
    for peer in (8, 9, 12):
        wanted = [text for text, to in zip(texts, addressees) if to == peer]
        files = [folder / f'{peer:02}/{position}' for position in range(1, len(wanted) + 1)]
        assert [file.read_text() for file in files] == wanted
        assert all(is_signed(file.read_text(), file.with_name(f'{file.name}.sig').read_text(),
                             key.public) for file in files)
        assert outbox.highest(peer) == len(wanted)
        assert outbox.chain(peer, len(wanted)) == chain_of(wanted)
        assert not (folder / f'{peer:02}/{len(wanted) + 1}').exists()


def test_the_signature_is_there_before_its_text(side: Side,
                                                monkeypatch: pytest.MonkeyPatch) -> None:
    names: list[str] = []
    monkeypatch.setattr(outboxes, 'write_whole', lambda path, text: names.append(path.name))
    list(side.visit().ours.outbox.publish(Registry(notice_text(1, 9))))
    assert names == ['1.sig', '1']


def test_what_is_damaged_is_made_anew_from_the_registry(side: Side) -> None:
    registry = Registry(notice_text(1, 9), notice_text(2, 9), notice_text(3, 8))
    list(side.visit().ours.outbox.publish(registry))
    file = side.folder / 'outbox/09/1'
    file.write_text('half a not')
    (side.folder / 'outbox/09/2.sig').unlink()
    outbox = side.visit().ours.outbox
    assert outbox.damaged_files() == [file, file.with_name('2')]
    assert len(list(outbox.publish(registry))) == 2
    assert side.visit().ours.outbox.damaged_files() == []
    assert file.read_text() == registry.sent[0]


def test_a_registry_of_an_older_copy_publishes_nothing_else(side: Side) -> None:
    list(side.visit().ours.outbox.publish(Registry(notice_text(1, 9), notice_text(2, 9))))
    outbox = side.visit().ours.outbox
    assert outbox.is_ahead_of(Registry(notice_text(1, 9))) == 2
    assert outbox.is_ahead_of(Registry(notice_text(1, 9), notice_text(2, 8))) == 2
    assert outbox.is_ahead_of(Registry(notice_text(1, 9), notice_text(2, 9))) is None
    with pytest.raises(Again, match='is not the one that was published'):
        list(outbox.publish(Registry(notice_text(1, 9), notice_text(2, 9, spans=((5, 6),))), True))


def test_a_state_says_what_was_published_and_what_has_come(side: Side) -> None:
    side.registry.sent = [notice_text(1, 9), notice_text(2, 8), notice_text(3, 9)]
    side.registry.refuses = lambda notice: 'Stale' if notice.number == 2 else None
    side.door.show_notices(side.theirs, theirs(1), theirs(2))
    visit = side.collect()
    list(visit.ours.outbox.publish(visit.ours.registry))
    write_states(visit.ours, [visit])
    text = (side.folder / 'outbox/09/state').read_text()
    assert json.loads(text) == {
        'sender': 7, 'addressee': 9, 'generation': 1, 'restoring': False,
        'outbox': {'highest': 2, 'chain': chain_of([notice_text(1, 9), notice_text(3, 9)])},
        'inbox': {'generation': 1, 'highest': 2, 'chain': chain_of([theirs(1), theirs(2)]),
                  'refused': {'2': {'became': 'refused: Stale', 'settled': False}}}}
    signature = (side.folder / 'outbox/09/state.sig').read_text()
    assert is_signed(text, signature, side.key.public)


# -------------------------------------------------------------------- what is fetched

def test_notices_are_imported_in_their_order_and_once(side: Side) -> None:
    side.door.show_notices(side.theirs, *map(theirs, (1, 2, 3)))
    assert side.collect().left == []
    side.door.show_notices(side.theirs, *map(theirs, (1, 2, 3, 4)))
    assert side.collect().left == []
    assert side.numbers() == [1, 2, 3, 4]
    record = json.loads((side.folder / 'inbox/09.json').read_text())
    assert (record['cursor'], record['highest'], record['waiting']) == (4, 4, {})
    kept = side.folder / 'outbox/09/taken-3'
    assert kept.read_text() == theirs(3)
    assert is_signed(theirs(3), kept.with_name('taken-3.sig').read_text(), side.theirs.public)


def test_the_record_of_a_peer_has_its_form(side: Side) -> None:
    """To the byte, as earlier versions wrote it."""
    side.registry.refuses = lambda notice: 'Stale'
    side.door.show_notices(side.theirs, theirs(1))
    side.collect()
    path = side.folder / 'inbox/09.json'
    contact = json.loads(path.read_text())['contact']
    waiting = '"waiting":{"1":{"became":"refused: Stale","number":1,"released":false,"why":""}}'
    told = ('"told":{"chain":"","generation":0,"highest":0,"refused":{},"restoring":false,'
            '"shows":1}')
    assert path.read_text() == (
        f'{{"chain":"{chain_of([theirs(1)])}","changed":"","contact":"{contact}","cursor":1,'
        f'"generation":1,"highest":1,"proved":"","seen":1,"settled":{{}},{told},{waiting}}}\n')
    assert Inbox(side.folder, side.visit().ours.outbox, 9).waiting['1']['number'] == 1


@pytest.mark.parametrize('spoil', ['text', 'signature', 'key', 'none'])
def test_what_is_not_signed_by_its_sender_is_not_imported(side: Side, spoil: str) -> None:
    side.door.show_notices(side.theirs, theirs(1))
    files = side.door.files
    if spoil == 'text':
        files['1'] = theirs(1, 50)
    elif spoil == 'signature':
        files['1.sig'] = files['state.sig']
    elif spoil == 'key':
        files['1.sig'] = side.key.signature(files['1'])
    else:
        del files['1.sig']
    assert side.collect().left == ['1 is not signed by the key of its sender; tried again in the '
                                   'next run']
    assert side.numbers() == []
    side.door.key = None
    assert 'its section has no key' in side.visit().left[0]


def test_a_state_that_is_not_signed_is_not_believed(side: Side) -> None:
    side.door.show_notices(side.theirs, theirs(1))
    side.door.files['state'] = side.door.files['state'].replace('"highest":1', '"highest":0')
    visit = side.collect()
    assert visit.state is None
    assert side.numbers() == []


@pytest.mark.parametrize(('change', 'told'), [
    ({'restoring': True}, 'it has gone back to a copy and is not whole again'),
    ({'generation': 2}, 'it is of generation 2, and we knew generation 1'),
    ({'outbox': {'highest': 1, 'chain': chain_of([theirs(1)])}},
     'it shows 1 notices for us and has shown 2')])
def test_nothing_comes_from_a_peer_that_went_back(side: Side, change: dict[str, Any],
                                                  told: str) -> None:
    side.door.show_notices(side.theirs, *map(theirs, (1, 2)))
    side.collect()
    side.door.show_notices(side.theirs, *map(theirs, (1, 2, 3)), **change)
    assert told in side.collect().left[0]
    assert side.numbers() == [1, 2]


def test_a_text_that_was_changed_since_stops_a_peer(side: Side) -> None:
    side.door.show_notices(side.theirs, *map(theirs, (1, 2)))
    side.collect()
    side.door.show_notices(side.theirs, theirs(1), theirs(2, 99))
    assert 'its notice at position 2 is no more the one that we fetched' in side.collect().left[0]
    side.door.show_notices(side.theirs, *map(theirs, (1, 2, 3)))
    orders.accept_generation([side.visit()], THEIRS, 1)
    assert side.collect().left == []
    assert side.numbers() == [1, 2, 3]


def test_a_notice_that_was_refused_waits_and_does_not_keep_others_waiting(side: Side) -> None:
    refusals = {2: 'Stale', 3: 'UnknownAccount 5'}
    side.registry.refuses = lambda notice: refusals.get(notice.number)
    side.door.show_notices(side.theirs, *map(theirs, (1, 2, 3, 4)))
    assert len(side.collect().left) == 2
    assert (side.numbers(), sorted(path.name for path in (side.folder / 'refused').iterdir())) == (
        [1, 4], ['09-2', '09-3'])
    refusals.clear()
    assert [line[:28] for line in side.collect().left] == ['notice 2 (position 2) waits:']
    assert side.numbers() == [1, 4, 3]          # its reason went away, that of the other stays
    visit = side.visit()
    orders.deliver_refused(visit)
    assert side.numbers() == [1, 4, 3, 2]
    assert visit.inbox.waiting == {}
    assert not any((side.folder / 'refused').iterdir())


def test_a_notice_that_was_settled_never_comes_again(side: Side) -> None:
    side.registry.refuses = lambda notice: 'Stale'
    side.door.show_notices(side.theirs, theirs(1))
    side.collect()
    orders.settle([side.visit()], THEIRS, 1)
    side.registry.refuses = lambda notice: None
    with pytest.raises(ValueError, match='no notice of registry 9 waits at position 1'):
        orders.settle([side.visit()], THEIRS, 1)
    visit = side.visit()
    visit.inbox.begin_anew()
    assert side.collect().left == []
    assert side.numbers() == []


def test_what_another_registry_has_is_held(side: Side) -> None:
    """We sent these certificates to registry 8, and 9 brings them home."""
    side.registry.sent = [notice_text(1, 8)]
    text = notice_text(1, OURS, THEIRS, ((1, 2),), origin=OURS)
    side.door.show_notices(side.theirs, text)
    assert 'certificate 07000000000001 was last sent to registry 8' in side.collect().left[0]
    foreign = notice_text(2, OURS, THEIRS, ((1, 2),), origin=12)
    side.door.show_notices(side.theirs, text, foreign)
    assert ('certificate 12000000000001 of registry 12 was never sent to registry 9 by us'
            in side.collect().left[1])
    assert side.numbers() == []
    orders.release([side.visit()], THEIRS, 1)
    assert side.numbers() == [1]


def test_a_registry_that_lost_what_it_imported_gets_it_again(side: Side) -> None:
    side.door.show_notices(side.theirs, *map(theirs, (1, 2)))
    side.collect()
    side.registry.imported.clear()
    side.registry.refuses = lambda notice: 'UnknownAccount'
    left = side.collect().left
    assert 'our registry does not have its notice 2, which was imported' in left[0]
    side.registry.refuses = lambda notice: None
    side.collect()
    assert sorted(side.numbers()) == [1, 2]


def test_what_is_no_notice_waits_and_is_bounded(side: Side) -> None:
    side.door.show_notices(side.theirs, *(f'junk {position}' for position in range(1, 151)))
    left = side.collect().left
    assert left[0] == ('100 of its notices wait to be settled; no more are taken until some are')
    assert len(list((side.folder / 'refused').iterdir())) == 100
    assert side.numbers() == []


# -------------------------------------------------------------------- whole runs

def run_of(side: Side, *orders_given: str) -> int:
    """The exit status of a run."""
    words = agent.words().parse_args(list(orders_given))
    registry: Any = side.registry
    outbox = Outbox(side.folder / 'outbox', OURS, side.key)
    return run_with(Ours(side.folder, registry, side.key, outbox), [side.door], words)


def test_a_run_publishes_collects_and_reports(side: Side) -> None:
    side.registry.sent = [notice_text(1, 9)]
    side.door.show_notices(side.theirs, theirs(1))
    assert run_of(side, '--new') == 0
    side.registry.refuses = lambda notice: 'Stale' if notice.number == 2 else None
    side.door.show_notices(side.theirs, *map(theirs, (1, 2)))
    assert run_of(side) == 1
    report = json.loads((side.folder / 'state.json').read_text())
    peer, = report['peers']
    assert (report['registry'], report['generation'], peer['registry']) == (7, 1, 9)
    assert [(of['number'], of['became']) for of in peer['sent']] == [(1, 'published')]
    assert [(of['number'], of['became'], of['settled']) for of in peer['received']] == [
        (1, 'accepted', True), (2, 'refused: Stale', False)]
    assert run_of(side, '--settle', '9', '2') == 0
    with pytest.raises(ValueError, match='registry 8 has no section in the configuration'):
        run_of(side, '--release', '8', '1')


def test_a_new_folder_of_a_registry_that_has_exchanged_begins_nothing(side: Side) -> None:
    side.registry.sent = [notice_text(1, 9)]
    side.door.show_notices(side.theirs, theirs(1))
    assert run_of(side) == 1
    assert not (side.folder / 'generation.json').exists()
    assert not (side.folder / 'outbox/09/1').exists()


@pytest.mark.parametrize('name', ['inbox/09.json', 'generation.json', 'outbox/09/1'])
def test_a_file_that_was_cut_off_is_told(side: Side, name: str,
                                         capsys: pytest.CaptureFixture[str]) -> None:
    side.registry.sent = [notice_text(1, 9)]
    side.door.show_notices(side.theirs, theirs(1))
    assert run_of(side, '--new') == 0
    whole = (side.folder / name).read_text()
    (side.folder / name).write_text(whole[:len(whole) // 2])
    capsys.readouterr()
    if name == 'generation.json':
        with pytest.raises(Again, match='generation.json is damaged: .*; remove it and say'):
            run_of(side)
    else:
        assert run_of(side) == (0 if name.startswith('outbox') else 1)
        assert f'{name} is damaged' in capsys.readouterr().out
    if not name.startswith('outbox'):
        (side.folder / name).write_text(whole)
    assert run_of(side) == 0
    assert side.numbers() == [1]


# -------------------------------------------------------------------- energy

def deliver(side: Side, visit: Visit, position: int, *spans: tuple[int, int],
            **lot: object) -> str:
    """What becomes of a notice of these serials of registry 9."""
    text = notice_text(position, OURS, THEIRS, spans, **lot)
    visit.inbox.write_fetched(position, text, 'signature')
    visit.deliver(position, text)
    of = visit.inbox.waiting.get(str(position))
    return f'{of["became"]}: {of["why"]}' if of else 'accepted'


# October at 1 MW: 31 days of 24 hours and one hour more are 745 MWh; a carry leaves it at 745
@pytest.mark.parametrize(('count', 'is_held'), [(745, False), (746, True)])
def test_a_notice_above_capacity_times_hours_is_held(side: Side, count: int,
                                                     is_held: bool) -> None:
    became = deliver(side, side.visit(), 1, (1, count))
    assert became.startswith('held: ') == is_held, became
    assert len(side.registry.imported) == (not is_held)
    assert not is_held or (DEVICE in became and '745' in became and '746' in became)


def test_energy_counts_what_came_before_in_other_runs(side: Side) -> None:
    assert deliver(side, side.visit(), 1, (1, 400)) == 'accepted'
    later = side.visit()
    assert deliver(side, later, 2, (401, 745)) == 'accepted'
    assert deliver(side, later, 3, (746, 746)).startswith('held: ')
    assert deliver(side, side.visit(), 4, (1, 745)) == 'accepted', 'the same certificates again'


def test_energy_counts_all_parts_and_each_capacity(side: Side) -> None:
    assert deliver(side, side.visit(), 1, (1, 400), (500, 900)).startswith('held: ')
    visit = side.visit()
    assert deliver(side, visit, 2, (1, 700)) == 'accepted'
    assert deliver(side, visit, 3, (701, 1400), capacity_w=999_999).startswith('held: ')


def test_other_months_and_our_own_certificates_are_apart(side: Side) -> None:
    visit = side.visit()
    assert deliver(side, visit, 1, (1, 745)) == 'accepted'
    assert deliver(side, visit, 2, (800, 1500), first_day='2024-09-01',
                   last_day='2024-09-30') == 'accepted'
    assert deliver(side, visit, 3, (1, 2000), origin=7) == 'accepted', 'our own lot'


def test_a_released_notice_is_imported(side: Side) -> None:
    visit = side.visit()
    assert deliver(side, visit, 1, (1, 2000)).startswith('held: ')
    orders.release([visit], THEIRS, 1)
    assert len(side.registry.imported) == 1 and not visit.inbox.waiting


@pytest.mark.parametrize('lot', [{'capacity_w': '5'}, {'device': 'x\n'}, {'first_day': 5},
                                 {'last_day': '2024-99-99'}, {'capacity_w': -1},
                                 {'capacity_w': 10 ** 30}])
def test_values_of_another_form_are_left_to_the_registry(side: Side,
                                                         lot: dict[str, object]) -> None:
    assert deliver(side, side.visit(), 1, (1, 9000), **lot) == 'accepted'


# -------------------------------------------------------------------- accounts

ACCOUNTS = [{'account': 1, 'holder': 'NORD', 'name': 'Nord Åland'},
            {'account': 3, 'holder': 'SYD', 'name': 'Syd'}]


def accounts_text(found: object = ACCOUNTS, sender: int = THEIRS, addressee: int = OURS) -> str:
    return compact({'sender': sender, 'addressee': addressee, 'accounts': found})


def test_accounts_that_a_peer_publishes_are_kept_until_it_does_not(side: Side) -> None:
    side.door.show_notices(side.theirs)
    side.door.show(side.theirs, 'accounts', accounts_text())
    visit = side.collect()
    assert visit.left == []
    assert Kept(side.folder, THEIRS).read() == ACCOUNTS
    assert peer_of(visit.ours, THEIRS, visit)['accounts'] == ACCOUNTS
    del side.door.files['accounts']
    assert side.collect().left == []
    assert Kept(side.folder, THEIRS).read() is None


@pytest.mark.parametrize('text', [
    accounts_text(sender=8), accounts_text(addressee=8), accounts_text({'account': 1}), 'nothing',
    accounts_text([{'account': 0, 'holder': 'NORD', 'name': 'x'}]),
    accounts_text([{'account': 1, 'holder': 'nord', 'name': 'x'}]),
    accounts_text([{'account': True, 'holder': 'NORD', 'name': 'x'}]),
    accounts_text([{'account': 1, 'holder': 'NORD', 'name': 'x' * 65}]),
    accounts_text([{'account': 1, 'holder': 'NORD', 'name': 'a\nb'}]),
    accounts_text([{'account': 1, 'holder': 'NORD', 'name': 'x', 'more': 1}]),
    accounts_text(ACCOUNTS * 10_001)], ids=range(11))
def test_accounts_of_another_form_are_told_and_those_before_stay(side: Side, text: str) -> None:
    side.door.show_notices(side.theirs)
    side.door.show(side.theirs, 'accounts', accounts_text())
    side.collect()
    side.door.show(side.theirs, 'accounts', text)
    assert 'none of its lists for us' in side.collect().left[0]
    assert Kept(side.folder, THEIRS).read() == ACCOUNTS


def test_accounts_that_are_not_signed_are_not_believed(side: Side) -> None:
    side.door.show_notices(side.theirs)
    side.door.show(side.key, 'accounts', accounts_text())
    assert 'accounts is not signed' in side.collect().left[0]
    assert Kept(side.folder, THEIRS).read() is None


class Pages:
    """Our records, page by page."""

    def __init__(self, *pages: object) -> None:
        self.pages = [Answer(200, {}, compact(page).encode()) for page in pages]

    def get(self, route: str) -> Answer:
        assert route.startswith('/records/v1/directory?limit=1000&offset=')
        return self.pages.pop(0)


def test_our_accounts_are_published_signed_for_each_peer_and_taken_away(side: Side) -> None:
    outbox = side.visit().ours.outbox
    pages: Any = Pages({'items': ACCOUNTS[:1], 'next': 1000}, {'items': ACCOUNTS[1:], 'next': None})
    assert accounts.publish(accounts.Directory(pages), outbox, [8, 9]) == []
    for peer in (8, 9):
        text = outbox.place(peer, 'accounts').read_text()
        assert text == accounts_text(sender=OURS, addressee=peer)
        assert is_signed(text, outbox.place(peer, 'accounts.sig').read_text(), side.key.public)
    assert Outbox(side.folder / 'outbox', OURS, side.key).damaged_files() == []
    assert accounts.publish(None, outbox, [8, 9]) == []
    assert not list((side.folder / 'outbox').glob('*/accounts*'))


def test_accounts_that_the_records_do_not_tell_are_left(side: Side) -> None:
    outbox = side.visit().ours.outbox
    nowhere = accounts.Directory.of({'publish_accounts': 'yes', 'records': 'unix:/nowhere/socket'})
    assert 'our records: no answer' in accounts.publish(nowhere, outbox, [9])[0]
    assert accounts.Directory.of({}) is None
    for wrong in ({'publish_accounts': 'maybe'},
                  {'publish_accounts': 'yes', 'records': 'http://x'}):
        with pytest.raises(ValueError):
            accounts.Directory.of(wrong)
