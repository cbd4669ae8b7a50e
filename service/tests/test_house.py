"""The house itself: its four parts stand together, each part starts anew, and nothing is left."""
import os
import subprocess
import sys
import time
from pathlib import Path

import client
import pytest
from house import PARTS
from house import House


def test_a_request_passes_all_parts(house: House) -> None:
    country = house.make_country()
    assert country.last - country.first == 99
    answer = house.ask('anna', 'GET', f'/v1/accounts/{country.sun}/statement')
    assert answer.status == 200
    assert answer.text.startswith('STATEMENT\n')
    house.wait_for_book(answer.entry)
    acts = house.ask('anna', 'GET', '/records/v1/acts')
    assert acts.status == 200
    assert 'issue' in {act['kind'] for act in acts.json['items']}


def test_who_is_signed_in_as_whom(house: House) -> None:
    house.make_country()
    statuses = {user: house.ask(user, 'GET', '/v1/audit').status for user in house.users}
    assert statuses['office'] == statuses['audit'] == 200
    assert {statuses[user] for user in ('anna', 'bela', 'meter', 'nemo')} == {403}
    assert house.ask(None, 'GET', '/v1/audit').status == 401
    assert house.ask('office', 'GET', '/v1/audit', password='another').status == 401


def test_each_part_starts_anew(own_house: House) -> None:
    own_house.make_country()
    for part in PARTS:
        own_house.restart(part)
        own_house.kill(part)
        own_house.start(part)
        assert own_house.must('office', 'open_account', holder='SUN')['account'] > 2
        own_house.wait_for_book()


def test_the_log_and_its_copies(own_house: House) -> None:
    own_house.make_country()
    for words in (('copy',), ('verify',)):
        done = own_house.log_words(*words)
        assert done.returncode == 0, done
    assert len(list(own_house.copies.iterdir())) == 2


def test_a_house_is_there_soon_and_leaves_nothing() -> None:
    begun = time.monotonic()
    with House() as first, House() as second:
        assert time.monotonic() - begun < 30
        folders: list[Path] = [first.folder, second.folder]
        ports = [first.port, second.port]
        assert first.send('office', 'open_holder', holder='A', name='A').status == 200
        assert second.ask('office', 'GET', '/v1/audit').entry == 1
    assert not any(folder.exists() for folder in folders)
    assert not any(client.is_open(port) for port in ports)


STANDS = """
import signal, sys, time
sys.path[:0] = sys.argv[1:]
from house import House
with House() as house:
    print(house.folder, house.first, house.port, house.registry_port, flush=True)
    time.sleep(600)
"""


@pytest.mark.parametrize('number', [9, 15])
def test_a_house_goes_with_whoever_made_it(number: int) -> None:
    stands = subprocess.Popen([sys.executable, '-B', '-c', STANDS, *sys.path],
                              stdout=subprocess.PIPE, text=True)
    assert stands.stdout
    folder, first, *ports = stands.stdout.readline().split()
    assert all(client.is_open(int(port)) for port in ports)
    os.kill(stands.pid, number)
    stands.wait(60)
    stands.stdout.close()
    assert client.comes(lambda: not Path(folder).exists() and not Path(first).exists(), 30)
    assert not any(client.is_open(int(port)) for port in ports)
