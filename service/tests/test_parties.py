"""Whose account it is: pairs of account and holder, the directory and its switch, the accounts that
other registries publish, and few wrong pairs of a user."""
import json
from pathlib import Path
from typing import Any

import pytest
from goo_service.records import settings
from goo_service.records import web
from goo_service.records.parties import Tries
from goo_service.records.parties import TooMany
from goo_service.rules.commands import ISSUER
from made_book import Made

PEERS = {'peers': [{'registry': 9, 'accounts': [{'account': 5, 'holder': 'NORD', 'name': 'Nord'}]},
                   {'registry': 8, 'accounts': None}]}


@pytest.fixture
def made(tmp_path: Path) -> Made:
    """SUN with account 1 and VOLT with account 2; registry 9 publishes an account, 8 none."""
    begun = Made(tmp_path)
    begun.country()
    (tmp_path / 'exchange.json').write_text(json.dumps(PEERS))
    return begun


class Asked:
    """A service that shows the directory, or does not."""

    def __init__(self, made: Made, word: str, monkeypatch: pytest.MonkeyPatch) -> None:
        monkeypatch.setenv(settings.DIRECTORY, word)
        made.book().close()
        self.app = web.application(made.folder, made.folder / 'exchange.json')
        self.client = self.app.test_client()

    def get(self, name: str, caller: str = 'SUN', user: str = 'anna', **given: Any) -> Any:
        return self.client.get(f'/records/v1/{name}', query_string=given,
                               headers={'GOO-Caller': caller, 'GOO-User': user})

    def party(self, **given: Any) -> tuple[Any, Any]:
        told = self.get('party', **given).get_json()
        return told['fits'], told['name']


@pytest.fixture
def shown(made: Made, monkeypatch: pytest.MonkeyPatch) -> Asked:
    return Asked(made, 'shown', monkeypatch)


@pytest.fixture
def hidden(made: Made, monkeypatch: pytest.MonkeyPatch) -> Asked:
    return Asked(made, 'hidden', monkeypatch)


def test_a_pair_that_fits_has_a_name_and_a_wrong_one_has_none(shown: Asked) -> None:
    assert shown.party(account=2, holder='VOLT') == (True, 'Volt')
    assert shown.party(account=2, holder=' vo lt ') == (True, 'Volt')
    assert shown.party(account=2, holder='SUN') == (False, None)
    assert shown.party(account=9, holder='VOLT') == (False, None)


def test_where_the_directory_is_switched_off_pairs_are_looked_at(hidden: Asked) -> None:
    assert hidden.party(account=2, holder='VOLT') == (True, None)
    assert hidden.party(account=2, holder='SUN') == (False, None)
    assert hidden.party(account=1, holder='SUN') == (True, 'Sun')          # his own
    assert hidden.party(account=2, holder='VOLT', caller=ISSUER) == (True, 'Volt')


def test_the_directory_and_its_switch(shown: Asked, hidden: Asked) -> None:
    wanted = [{'account': 1, 'holder': 'SUN', 'name': 'Sun'},
              {'account': 2, 'holder': 'VOLT', 'name': 'Volt'}]
    assert shown.get('directory').get_json()['items'] == wanted
    assert shown.get('status').get_json()['directory'] is True
    told = hidden.get('directory')
    assert told.status_code == 404 and 'no directory' in told.get_json()['error']
    assert hidden.get('status').get_json()['directory'] is False
    assert hidden.get('directory', caller=ISSUER).get_json()['items'] == wanted
    assert hidden.get('status', caller=ISSUER).get_json()['directory'] is True


def test_a_closed_account_is_in_no_directory_and_told(made: Made,
                                                      monkeypatch: pytest.MonkeyPatch) -> None:
    made.must(ISSUER, 'open_account', holder='VOLT')
    made.must('VOLT', 'close_account', account=3)
    shown = Asked(made, 'shown', monkeypatch)
    assert [of['account'] for of in shown.get('directory').get_json()['items']] == [1, 2]
    assert shown.get('party', account=3, holder='VOLT').get_json()['closed'] is True
    assert shown.get('party', account=2, holder='VOLT').get_json()['closed'] is False


def test_accounts_of_other_registries(shown: Asked, hidden: Asked) -> None:
    for asked in (shown, hidden):           # the peer chose to publish them
        assert asked.party(account=5, holder='NORD', peer=9) == (True, 'Nord')
        assert asked.party(account=6, holder='NORD', peer=9) == (False, None)
        assert asked.party(account=5, holder='NORD', peer=8) == (None, None)
        assert asked.party(account=5, holder='NORD', peer=3) == (None, None)


def test_few_wrong_pairs_of_a_user_are_answered(shown: Asked) -> None:
    """Three; then no pair is looked at, not even a right one. Another user goes on."""
    for account in (3, 4, 5):
        assert shown.get('party', account=account, holder='VOLT').status_code == 200
    told = shown.get('party', account=2, holder='VOLT')
    assert told.status_code == 429 and 1 <= int(told.headers['Retry-After']) <= 60
    assert 'wrong pairs' in told.get_json()['error']
    assert shown.get('party', user='bela', account=2, holder='VOLT').status_code == 200
    assert shown.get('directory').status_code == 200


def test_right_pairs_and_those_that_nobody_knows_count_for_nothing(shown: Asked) -> None:
    for _ in range(9):
        assert shown.party(account=2, holder='VOLT')[0] is True
        assert shown.party(account=5, holder='NORD', peer=8)[0] is None


def test_a_minute_later_pairs_are_looked_at_again() -> None:
    now = [100.0]
    tries = Tries(lambda: now[0])
    for _ in range(3):
        tries.check('anna')
        tries.note('anna')
        now[0] += 10
    with pytest.raises(TooMany) as fault:
        tries.check('anna')
    assert fault.value.wait == 31
    now[0] = 160.0
    tries.check('anna')
    tries.note('anna')
    with pytest.raises(TooMany):
        tries.check('anna')


def test_what_is_kept_of_users_is_bounded(monkeypatch: pytest.MonkeyPatch) -> None:
    monkeypatch.setattr('goo_service.records.parties.USERS', 5)
    now = [0.0]
    tries = Tries(lambda: now[0])
    for number in range(50):
        tries.note(f'user-{number}')
        now[0] += 61
    assert len(tries.times) <= 5


@pytest.mark.parametrize('given', [
    {}, {'account': 1}, {'holder': 'SUN'}, {'account': 0, 'holder': 'SUN'},
    {'account': 'x', 'holder': 'SUN'}, {'account': 1, 'holder': 'S_N'},
    {'account': 1, 'holder': 'S' * 17}, {'account': 1, 'holder': 'SUN', 'peer': 100}])
def test_a_pair_that_cannot_be_read_is_told(shown: Asked, given: dict[str, Any]) -> None:
    assert shown.get('party', **given).status_code == 400


def test_a_word_of_the_setting_that_is_none_stops_the_service(
        made: Made, monkeypatch: pytest.MonkeyPatch) -> None:
    with pytest.raises(SystemExit, match='GOO_RECORDS_DIRECTORY'):
        Asked(made, 'off', monkeypatch)


def test_a_setting_is_changed_and_the_others_stay() -> None:
    text = settings.with_setting('', settings.BEGIN, '--begun 7 2025-03-01 1')
    text = settings.with_setting(text, settings.DIRECTORY, 'hidden')
    text = settings.with_setting(text, settings.BEGIN, '--copy /x --after 3')
    assert settings.value_of(text, settings.DIRECTORY) == 'hidden'
    assert settings.value_of(text, settings.BEGIN) == '--copy /x --after 3'
    assert text.count('GOO_') == 2
    assert settings.value_of('', settings.BEGIN) is None
