"""What goo-setup and restore plan, as values: installed by hand, three hosts, words, copies."""
import argparse
import io
import os
import re
from collections.abc import Iterator
from pathlib import Path

import pytest
from hypothesis import given
from hypothesis import strategies

from goo_service.copies import contents
from goo_service.copies import going_back
from goo_service.copies import host
from goo_service.copies import new_log
from goo_service.copies import restore
from goo_service.copies.places import Place
from goo_service.copies.places import read_place
from goo_service.copies.places import write_place
from goo_service.records.body import Body
from goo_service.records.body import read_body
from goo_service.setup import by_hand
from goo_service.setup import choices
from goo_service.setup import command
from goo_service.setup import people
from goo_service.setup import registry
from goo_service.setup import running
from goo_service.setup import three
from goo_service.setup.choices import Beginning
from goo_service.setup.common import File
from goo_service.setup.common import Refused

TOP = Path(__file__).resolve().parents[2]
SHARE = TOP / 'service/etc'
ADDRESSES = ('10.0.0.11', '10.0.0.12', '10.0.0.13')


# ------------------------------------------------------------------ by hand

HAND = ('etc/systemd/system/goo.service', 'etc/systemd/system/goo-door.socket',
        'etc/systemd/system/goo-backup.timer', 'etc/systemd/system/goo-backup.service',
        'etc/systemd/system/goo-alarm@.service', 'etc/systemd/system/goo-port.service',
        'etc/systemd/system/goo.service.d/replica.conf',
        'etc/systemd/system/goo-watch.service.d/alarm.conf',
        'etc/systemd/system/nginx.service.d/goo.conf', 'etc/nginx/sites-enabled/goo.conf',
        'etc/nginx/modules-enabled/90-goo.conf', 'usr/lib/goo/backup', 'usr/lib/goo/old/entries.py')
STAYS = ('etc/systemd/system/goo.service.d/override.conf', 'etc/goo/users', 'etc/goo/replica.key',
         'etc/systemd/system/goo-door.socket.d/closed.conf', 'etc/nginx/sites-enabled/other.conf',
         'etc/systemd/system/goo-replica.service.d/etcd.conf', 'etc/nginx/sites-available/goo.conf',
         'etc/systemd/system/google.service', 'usr/lib/goo/goo.before', 'usr/lib/goo/alarm',
         'var/lib/goo/registry.db', 'etc/systemd/system/nginx.service.d/own.conf')
OF_PACKAGE = frozenset({Path('/usr/lib/goo/alarm')})


@pytest.fixture
def by_hand_host(tmp_path: Path) -> Path:
    for name in (*HAND, *STAYS):
        (tmp_path / name).parent.mkdir(parents=True, exist_ok=True)
        (tmp_path / name).write_text('x')
    return tmp_path


def names_in(found: by_hand.Found, root: Path) -> set[str]:
    return {str(path.relative_to(root)) for path in found.files}


def test_what_was_installed_by_hand_is_found_and_nothing_else(by_hand_host: Path) -> None:
    found = by_hand.find_below(by_hand_host, OF_PACKAGE)
    assert names_in(found, by_hand_host) == set(HAND)


def test_links_are_the_packages_or_mask_a_unit(by_hand_host: Path) -> None:
    for name in HAND:
        (by_hand_host / name).unlink()
        (by_hand_host / name).symlink_to('/dev/null')
    assert not by_hand.find_below(by_hand_host, OF_PACKAGE).files


def test_programs_stay_where_dpkg_knows_no_package(by_hand_host: Path) -> None:
    found = names_in(by_hand.find_below(by_hand_host, frozenset()), by_hand_host)
    assert not any(name.startswith('usr/') for name in found) and len(found) == len(HAND) - 2


def test_a_copy_under_way_is_stopped_before_the_registry(by_hand_host: Path) -> None:
    first, rest = by_hand.find_below(by_hand_host, OF_PACKAGE).stops()
    assert set(first) == {'goo-backup.timer', 'goo-backup.service'}
    assert set(rest) == {'goo.service', 'goo-door.socket', 'goo-port.service'}, 'no form of a unit'


def test_nothing_by_hand_stops_nothing(tmp_path: Path) -> None:
    found = by_hand.find_below(tmp_path, OF_PACKAGE)
    assert found.stops() == [] and found.units() == []


@pytest.mark.parametrize(('old', 'new', 'is_refused'), [
    ('ssl_verify_client on;', '', True), ('  ssl_verify_client optional;', '', True),
    ('ssl_verify_client on;', 'ssl_verify_client on;', False),
    ('# ssl_verify_client on;', '', False)])
def test_a_door_by_certificates_is_not_opened_by_passwords(
        tmp_path: Path, monkeypatch: pytest.MonkeyPatch, old: str, new: str,
        is_refused: bool) -> None:
    front, ours = tmp_path / 'sites-enabled/goo.conf', tmp_path / 'sites-available/goo.conf'
    for path, text in ((front, old), (ours, new)):
        path.parent.mkdir()
        path.write_text(f'server {{\n{text}\n}}\n')
    monkeypatch.setattr(by_hand, 'NGINX', tmp_path)
    monkeypatch.setattr(by_hand, 'FRONT', front)
    if is_refused:
        with pytest.raises(Refused, match='certificates'):
            by_hand.verify(by_hand.Found((front,)))
    else:
        by_hand.verify(by_hand.Found((front,)))


def test_what_is_refused_is_refused_before_aside(tmp_path: Path,
                                                 monkeypatch: pytest.MonkeyPatch) -> None:
    found = by_hand.Found((tmp_path / 'goo.service',))

    def refuse(_: by_hand.Found) -> None:
        raise Refused('by certificates')

    monkeypatch.setattr(by_hand, 'find_below', lambda *_: found)
    monkeypatch.setattr(by_hand, 'verify', refuse)
    monkeypatch.setattr(by_hand, 'ASIDE', tmp_path / 'aside')
    monkeypatch.setattr(by_hand, 'run', lambda *_: pytest.fail('a command is run'))
    with pytest.raises(Refused, match='by certificates'):
        by_hand.set_aside()
    assert not (tmp_path / 'aside').exists()


# ------------------------------------------------------------------ three hosts

@pytest.fixture
def goods(tmp_path: Path) -> Path:
    """What the first host has made: each text is its name."""
    names = ('ca.pem', *(f'{kind}-{name}.{end}' for kind in ('member', 'replica')
                         for name in three.NAMES for end in ('pem', 'key')))
    for name in names:
        (tmp_path / name).write_text(name)
    return tmp_path


def files_of(at: int, goods: Path, balancer: str | None = None) -> dict[str, File]:
    hosts = three.Hosts(ADDRESSES, 42, balancer)
    return {str(file.path): file for file in hosts.files(at, SHARE, goods)}


@pytest.mark.parametrize('at', [0, 1, 2])
def test_each_host_has_its_own_name_and_address(goods: Path, at: int) -> None:
    files = files_of(at, goods)
    conf = files['/etc/goo/etcd/etcd.yaml'].text
    assert f'name: h{at + 1}\n' in conf and 'initial-cluster-token: goo-42' in conf
    own = [line for line in conf.splitlines() if line.startswith(('listen-', 'advertise-'))]
    assert own and all(ADDRESSES[at] in line or '127.0.0.1' in line for line in own), own
    cluster = next(line for line in conf.splitlines() if line.startswith('initial-cluster:'))
    members = (f'h{number}=https://{one}:2380' for number, one in enumerate(ADDRESSES, 1))
    assert all(member in cluster for member in members)
    assert not any('192.0.2.' in line for file in files.values()
                   for line in file.text.splitlines() if not line.startswith('#'))


@pytest.mark.parametrize('at', [0, 1, 2])
def test_keys_are_for_their_own_user_alone(goods: Path, at: int) -> None:
    files = files_of(at, goods)
    keys = {path: file for path, file in files.items() if path.endswith('.key')}
    assert {file.owner for file in keys.values()} == {'goo-etcd', 'goo-replica'}
    assert all(file.mode == 0o400 and f'-h{at + 1}.' in file.text for file in keys.values())


def test_the_balancer_alone_is_believed(goods: Path) -> None:
    assert not any('nginx' in path for path in files_of(0, goods))
    files = files_of(0, goods, '10.0.0.99')
    conf = files['/etc/nginx/sites-enabled/goo-health.conf'].text
    assert '10.0.0.99' in conf and '192.0.2.10' not in conf


def test_a_host_asks_its_own_etcd_first() -> None:
    words = three.Hosts(ADDRESSES, 7).replica_words(1)
    assert words.path == Path('/etc/goo/replica.env')
    assert ('--etcd https://10.0.0.12:2379,https://10.0.0.13:2379,https://10.0.0.11:2379 '
            in words.text) and '--name h2 --code 7 ' in words.text


@pytest.mark.parametrize('text', ['', '10.0.0.1', '10.0.0.1,10.0.0.2',
                                  '10.0.0.1,10.0.0.1,10.0.0.2',
                                  '10.0.0.1,10.0.0.2,127.0.0.1', '10.0.0.1,10.0.0.2,a',
                                  '10.0.0.1,10.0.0.2,10.0.0.3,10.0.0.4',
                                  '10.0.0.1,10.0.0.2,10.0.0.3,10.0.0.1'])
def test_three_different_addresses_are_wanted(text: str) -> None:
    with pytest.raises(Refused):
        three.three_addresses(text)


def test_a_file_keeps_its_mode_below_another_root(tmp_path: Path) -> None:
    file = File(Path('/etc/goo/x'), 'text', 0o400, 'goo').below(tmp_path)
    assert file == File(tmp_path / 'etc/goo/x', 'text', 0o400, 'goo')


# ------------------------------------------------------------------ words

@pytest.mark.parametrize(('words', 'why'), [
    (['--certificate', 'a'], 'belong together'), (['--date', '1.3.2026'], 'a day is written'),
    (['--date', '20260301'], 'a day is written'),
    (['--balancer', '10.0.0.9'], 'belongs to --hosts'),
    (['--hosts', '10.0.0.1,10.0.0.2'], 'three different addresses')])
def test_words_that_cannot_be_begun_are_refused_before_anything(words: list[str], why: str) -> None:
    with pytest.raises(Refused, match=why):
        Beginning.of(command.parser().parse_args(words)).verify(True)


def test_nobody_but_root_begins() -> None:
    with pytest.raises(Refused, match='as root'):
        Beginning().verify(False)


def test_the_words_of_users_and_peers_become_values() -> None:
    def parsed(*words: str) -> argparse.Namespace:
        return command.parser().parse_args(words)

    assert choices.user_work(parsed('user', 'add', 'anna', 'SUN', 'reads')) == choices.UserWork(
        'add', 'anna', 'SUN', ('reads',))
    assert choices.user_work(parsed('user', 'remove', 'anna')) == choices.UserWork('remove', 'anna')
    work = choices.peer_work(parsed('peer', 'add', '9', 'https://x', 'registry07', 'KEY'))
    assert work == choices.PeerWork('add', '9', 'https://x', 'registry07', 'KEY')
    assert people.section_of(work, '/p').splitlines()[2:] == [
        '[peer 9]', 'url           = https://x', 'user          = registry07',
        'password_file = /p', 'key           = KEY']


@given(strategies.text(max_size=12))
def test_a_code_is_a_number_from_1_to_99(text: str) -> None:
    wanted = text in {*map(str, range(1, 100)), *(f'{number:02}' for number in range(1, 10))}
    if text.lstrip('0') == text or len(text) <= 2:
        assert choices.is_code(text) == wanted


@pytest.mark.parametrize(('name', 'is_one'), [
    ('registry.example', True), ('a', True), ('a-b.example', True), ('-a.example', False),
    ('a..example', False), ('a.example;', False), ('a b', False), ('a' * 64, False), ('', False),
    ('a\n', False), ('.'.join(['a' * 60] * 5), False)])
def test_the_name_of_a_host_is_a_name(name: str, is_one: bool) -> None:
    assert choices.is_name(name) == is_one


def test_nginx_gets_its_connections() -> None:
    conf = 'events {\n\tworker_connections 768;\n\t# multi_accept on;\n}\n'
    assert running.with_connections(conf) == conf.replace('768', '16384')


def test_the_users_of_the_package_can_be_made() -> None:
    """A colon ends a field of /etc/passwd: systemd-sysusers refuses the file that has one."""
    texts = [path.read_text(encoding='utf-8') for path in (SHARE / 'sysusers').iterdir()]
    described = re.findall(r'(?m)^u +\S+ +- +"([^"]*)"', '\n'.join(texts))
    assert len(described) > 5 and not [text for text in described if ':' in text]


# ------------------------------------------------------------------ back to a copy

@pytest.fixture
def copies(tmp_path: Path, monkeypatch: pytest.MonkeyPatch) -> Iterator[Path]:
    """Copies of entries 10, 20 and 30, and one from before the log."""
    folder = tmp_path / 'copies'
    for day, n in ((1, 10), (2, 20), (3, 30), (4, None)):
        copy = folder / f'2026-03-0{day}T020000Z'
        copy.mkdir(parents=True)
        (copy / 'registry.db').write_text('x')
        if n:
            write_place(copy, Place(n, 'a', 'b', 'c'))
        contents.write_list(copy)
    monkeypatch.setattr(host, 'COPIES', folder)
    monkeypatch.setattr(host, 'WORDS', tmp_path / 'replica.env')
    monkeypatch.setattr(host, 'STATE', tmp_path / 'state')
    (tmp_path / 'state').mkdir()
    yield folder


@pytest.mark.parametrize(('before', 'day'), [(None, 3), (31, 3), (30, 2), (11, 1)])
def test_the_last_copy_is_the_newest_that_serves(
        copies: Path, before: int | None, day: int) -> None:
    assert going_back.folder_of('last', before).name == f'2026-03-0{day}T020000Z'


def test_no_copy_serves_an_entry_that_all_of_them_have(copies: Path) -> None:
    with pytest.raises(contents.Unfit, match='before entry 10'):
        going_back.folder_of('last', 10)
    with pytest.raises(contents.Unfit, match='no copy of a registry'):
        going_back.folder_of('2026-01-01T020000Z')


def test_a_copy_from_before_the_log_wants_a_new_log(copies: Path) -> None:
    copy = going_back.folder_of('2026-03-04T020000Z')
    with pytest.raises(contents.Unfit, match='--new-log'):
        restore.Plan(copy).verify()
    restore.Plan(copy, new_log=True).verify()


def test_a_changed_copy_is_refused(copies: Path) -> None:
    copy = going_back.folder_of('last')
    restore.Plan(copy).verify()
    (copy / 'registry.db').write_text('y')
    with pytest.raises(contents.Unfit, match='not the copy that was made'):
        restore.Plan(copy).verify()


@pytest.mark.parametrize('plan', [restore.Plan(Path(), before=25),
                                  restore.Plan(Path(), new_log=True)])
def test_over_etcd_no_entry_is_undone_and_no_log_begun(copies: Path, plan: restore.Plan) -> None:
    host.WORDS.write_text('REPLICA_WORDS=--name h1 --etcd https://192.0.2.1:2379\n')
    over = restore.Plan(going_back.folder_of('last', 25), plan.before, plan.new_log)
    with pytest.raises(contents.Unfit, match='over etcd.*THREE-HOSTS.md'):
        over.verify()


def test_what_is_left_to_do_follows_from_the_plan() -> None:
    plain, undone = restore.Plan(Path('c')), restore.Plan(Path('c'), before=5)
    anew = restore.Plan(Path('c'), new_log=True)
    assert [plan.loses() for plan in (plain, undone, anew)] == [False, True, True]
    assert restore.LOOK in undone.steps_left(2, []) and restore.SETTLE in undone.steps_left(2, [])
    assert restore.SETTLE not in anew.steps_left(None, ['x']), 'no exchange, nothing to settle'
    steps = anew.steps_left(3, ['x'])
    assert steps[0] == 'x' and steps[-2].startswith('goo-copies restore --open')
    assert steps.index(restore.SETTLE) < steps.index(restore.SEND_AGAIN)
    back = restore.Plan(Path('c'), new_log=True, as_copied=True)
    assert restore.SEND_AGAIN not in back.steps_left(3, []), 'what was undone is not sent again'


@pytest.mark.parametrize(('as_copied', 'n'), [(True, 20), (False, 27)])
def test_a_copy_may_stay_as_it_was_copied(copies: Path, monkeypatch: pytest.MonkeyPatch,
                                          as_copied: bool, n: int) -> None:
    """With an archive that has entries up to 27: of which nothing is applied, or all."""
    def bring_up(*given: object) -> Place:
        return Place(27, 'd', 'e', 'c')

    (host.STATE / 'archive').mkdir()
    monkeypatch.setattr(host, 'KEY', copies / 'key')
    (copies / 'key').write_text('a key of the log')
    monkeypatch.setattr(new_log, 'readable_end', lambda *_: (27, 'the archive ends there'))
    monkeypatch.setattr(new_log, 'bring_up', bring_up)
    placed = new_log.brought_up(copies, going_back.folder_of('2026-03-02T020000Z'), as_copied)
    assert placed and read_place(placed).n == n


def test_what_there_was_of_a_log_is_kept_also_where_it_was_cut_off(copies: Path) -> None:
    state = host.STATE
    for name in ('log', 'archive'):
        (state / name).mkdir()
        (state / name / 'old').write_text(name)
    (state / 'place').write_text('old')
    kept = Path(new_log.set_log_aside().decode())
    assert (kept / 'log/old').read_text() == 'log' and (kept / 'place').read_text() == 'old'
    assert new_log.archive_path() == os.fsencode(kept / 'archive'), 'the same call reads it there'
    (state / 'log').mkdir()
    (state / 'place').write_text('new')
    assert Path(new_log.set_log_aside().decode()) == kept
    assert not (state / 'log').exists() and (kept / 'place').read_text() == 'old'
    (kept / 'done').touch()
    assert new_log.lost_folder(state) is None and new_log.archive_path() == b''


# ------------------------------------------------------------------ the issuing body, its keys

@pytest.fixture
def etc(tmp_path: Path, monkeypatch: pytest.MonkeyPatch) -> Path:
    """A folder in the place of /etc/goo."""
    monkeypatch.setattr(registry, 'ETC', tmp_path)
    return tmp_path


def test_the_body_is_written_once_as_it_was_given(etc: Path) -> None:
    given = Beginning(body_name='Umweltamt "Süd" 100 %', body_address='Straße 1, 12345 Łódź')
    registry.place_body(given)
    assert read_body(etc) == Body('Umweltamt "Süd" 100 %', 'Straße 1, 12345 Łódź')
    registry.place_body(Beginning(body_name='Other'))
    assert read_body(etc).name == 'Umweltamt "Süd" 100 %'


def test_a_body_that_nobody_names_is_empty(etc: Path, monkeypatch: pytest.MonkeyPatch) -> None:
    monkeypatch.setattr('sys.stdin', io.StringIO(''))
    registry.place_body(Beginning())
    assert read_body(etc) == Body()


@pytest.mark.parametrize('name', ['a\nb', 'x' * 201, 'a\x1b[2J', ' a'])
def test_a_name_that_is_no_line_is_refused(etc: Path, name: str) -> None:
    with pytest.raises(Refused, match='cannot be used'):
        registry.place_body(Beginning(body_name=name))
    assert not (etc / 'body.conf').exists()


@pytest.mark.parametrize(('earlier', 'is_kept'), [
    ('ab' * 32, True), ('', False), ('ab' * 31, False), ('x' * 64, False), ('ab' * 200, False)])
def test_codes_of_before_keep_their_key(monkeypatch: pytest.MonkeyPatch, earlier: str,
                                        is_kept: bool) -> None:
    """What a user of the service may have put there is no key of ours."""
    monkeypatch.setattr(registry, 'read_as', lambda user, path: f'{earlier}\n')
    made = registry.key_of_codes()
    assert (made == f'{earlier}\n') == is_kept and len(made) >= 65
