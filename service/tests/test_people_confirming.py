"""What waits for a second user: confirmed, refused, withdrawn, lapsed, and by whom."""
import threading
from pathlib import Path
from typing import Any

import pytest
from gate_stage import BUNDLES
from gate_stage import GateStage
from gate_stage import cancel
from gate_stage import open_holder
from gate_stage import transfer
from goo_service.people import confirming
from goo_service.people import sessions
from goo_service.people import store
from goo_service.people import waiting
from goo_service.people.acts import Doer
from goo_service.people.confirming import Conflict
from goo_service.people.confirming import NotAllowed
from goo_service.people.confirming import NotFound
from goo_service.people.judge import Waiting
from goo_service.people.waiting import Waits


@pytest.fixture
def stage(tmp_path: Path) -> GateStage:
    made = GateStage(tmp_path / 'people' / 'people.db')
    made.user('anna')
    made.user('ben')
    made.user('carl', rows=((1, 'rt'),))
    made.user('dora', rows=((1, 'rc'), (2, 'rtc')))
    made.user('reader', rows=((0, 'r'),))
    made.user('vera', 'VOLT')
    for name, role in (('olga', 'officer'), ('oleg', 'officer'), ('otto', 'second'),
                       ('audit', 'auditor'), ('meter', 'meters')):
        made.user(name, 'ISSUER', role)
    for command in ('transfer', 'cancel', 'export'):
        made.rule('*', command, 10)
    made.rule('ISSUER', 'open_holder')
    return made


def ask(stage: GateStage, user: str, *requests: dict[str, Any], hold: str = 's1') -> int:
    verdict = stage.ask(user, *requests, hold=hold)
    assert isinstance(verdict, Waiting), verdict
    return verdict.waits.id


def doer(stage: GateStage, user: str) -> Doer:
    caller = stage.rows('SELECT caller FROM user WHERE name = ?', user)[0]['caller']
    return Doer(user, 'session', '192.0.2.8', caller)


def confirm(stage: GateStage, user: str, number: int) -> Waits:
    with stage.open() as db:
        return confirming.confirm(db, stage.users[user], doer(stage, user), number)


def state(stage: GateStage, number: int) -> str:
    return str(stage.rows('SELECT state FROM waiting WHERE id = ?', number)[0]['state'])


def acts(stage: GateStage, number: int) -> list[tuple[str, str]]:
    return [(row['kind'], row['user']) for row in stage.rows(
        'SELECT kind, user FROM act WHERE about = ? ORDER BY id', str(number))]


# ------------------------------------------------------------------ who confirms

def test_nobody_confirms_what_he_asked(stage: GateStage) -> None:
    number = ask(stage, 'anna', transfer('k', 11))
    with pytest.raises(NotAllowed, match='is yours'):
        confirm(stage, 'anna', number)
    assert state(stage, number) == 'waiting'
    confirm(stage, 'ben', number)
    assert state(stage, number) == 'sending'
    assert acts(stage, number) == [('waiting', 'anna'), ('confirmed', 'ben')]


@pytest.mark.parametrize(('request_', 'may'), [
    (transfer('k', 11), 'ben carl'), (transfer('k', 11, giver=2, taker=1), 'ben dora'),
    (cancel('k', 11), 'ben dora'), (cancel('k', 11, account=2), 'ben dora'),
    (transfer('k', 11, giver=3), 'ben')])
def test_who_confirms_has_the_right_himself(stage: GateStage, request_: dict[str, Any],
                                            may: str) -> None:
    for user in ('ben', 'carl', 'dora', 'reader'):
        number = ask(stage, 'anna', {**request_, 'key': f'of-{user}'})
        if user in may.split():
            assert confirm(stage, user, number).id == number
        else:
            with pytest.raises(NotAllowed):
                confirm(stage, user, number)
            assert state(stage, number) == 'waiting'
    number = ask(stage, 'anna', request_)
    for user in ('vera', 'olga', 'otto', 'audit'):          # of others it is as if it weren't there
        with pytest.raises(NotFound):
            confirm(stage, user, number)


def test_who_confirms_a_bundle_has_the_right_to_each_line(stage: GateStage) -> None:
    lines = [transfer('a', 11), cancel('b', 1)]
    for user in ('carl', 'dora'):
        with pytest.raises(NotAllowed):
            confirm(stage, user, ask(stage, 'anna', *lines))
    confirm(stage, 'ben', ask(stage, 'anna', *lines))


def test_an_act_of_the_body_is_confirmed_by_another_officer_or_a_second_one(
        stage: GateStage) -> None:
    for user in ('oleg', 'otto'):
        confirm(stage, user, ask(stage, 'olga', open_holder(f'k-{user}')))
    number = ask(stage, 'olga', open_holder('k'))
    for user in ('audit', 'meter', 'olga'):
        with pytest.raises(NotAllowed):
            confirm(stage, user, number)
    with pytest.raises(NotFound):
        confirm(stage, 'ben', number)


def test_it_is_confirmed_once(stage: GateStage) -> None:
    number = ask(stage, 'anna', transfer('k', 11))
    confirm(stage, 'ben', number)
    for user in ('ben', 'carl'):
        with pytest.raises(Conflict, match='is being sent'):
            confirm(stage, user, number)
    with stage.change() as db:
        waiting.finish(db, number, 200, b'{}', True)
    with pytest.raises(Conflict, match='was sent'):
        confirm(stage, 'carl', number)
    assert [kind for kind, _ in acts(stage, number)] == ['waiting', 'confirmed']


def test_two_at_once_confirm_it_once(stage: GateStage) -> None:
    number = ask(stage, 'anna', transfer('k', 11))
    came: list[object] = []
    start = threading.Barrier(8)

    def run(user: str) -> None:
        start.wait()
        try:
            came.append(confirm(stage, user, number).id)
        except Conflict as fault:
            came.append(str(fault))

    threads = [threading.Thread(target=run, args=(user,)) for user in 4 * ('ben', 'carl')]
    for thread in threads:
        thread.start()
    for thread in threads:
        thread.join()
    assert came.count(number) == 1 and len(came) == 8
    assert [kind for kind, _ in acts(stage, number)] == ['waiting', 'confirmed']


# ------------------------------------------------------------------ what ends meanwhile

def test_what_lapsed_is_not_sent(stage: GateStage, monkeypatch: pytest.MonkeyPatch) -> None:
    number = ask(stage, 'anna', transfer('k', 11))
    ends = stage.rows('SELECT ends FROM waiting')[0]['ends']
    for at, wanted in ((ends - 1, 'waiting'), (ends, 'lapsed')):
        monkeypatch.setattr(waiting, 'now', lambda at=at: at)
        with stage.change() as db:
            waiting.lapse(db)
        assert state(stage, number) == wanted
    with pytest.raises(Conflict, match='has lapsed'):
        confirm(stage, 'ben', number)
    assert acts(stage, number)[-1] == ('lapsed', '')
    assert stage.rows('SELECT body FROM waiting')[0]['body'] == b''
    assert not stage.rows('SELECT * FROM waiting_key')


def test_it_lapses_at_its_moment_though_nobody_swept(stage: GateStage,
                                                     monkeypatch: pytest.MonkeyPatch) -> None:
    number = ask(stage, 'anna', transfer('k', 11))
    ends = stage.rows('SELECT ends FROM waiting')[0]['ends']
    monkeypatch.setattr(confirming, 'now', lambda: ends)
    with pytest.raises(Conflict, match='its time is over'):
        confirm(stage, 'ben', number)
    assert state(stage, number) == 'lapsed'


def test_the_asker_withdraws_and_a_second_user_refuses(stage: GateStage) -> None:
    for act, user, wanted, who in ((confirming.withdraw, 'anna', 'withdrawn', 'ben'),
                                   (confirming.refuse, 'ben', 'refused', 'anna')):
        number = ask(stage, 'anna', transfer('k', 11))
        with stage.open() as db:
            with pytest.raises(NotAllowed):
                act(db, stage.users[who], doer(stage, who), number)
            for stranger in ('vera', 'otto'):
                with pytest.raises(NotFound):
                    act(db, stage.users[stranger], doer(stage, stranger), number)
            act(db, stage.users[user], doer(stage, user), number)
            with pytest.raises(Conflict):
                act(db, stage.users[user], doer(stage, user), number)
        assert state(stage, number) == wanted and acts(stage, number)[-1] == (wanted, user)
        with pytest.raises(Conflict, match=f'was {wanted}'):
            confirm(stage, 'ben', number)
        assert not stage.rows('SELECT * FROM waiting_key')      # the key is free again
    with stage.open() as db, pytest.raises(NotAllowed):
        confirming.refuse(db, stage.users['reader'], doer(stage, 'reader'),
                          ask(stage, 'anna', transfer('k', 11)))


def test_an_asker_who_lost_the_right_has_nothing_sent(stage: GateStage) -> None:
    taken, ended = ask(stage, 'carl', transfer('a', 11)), ask(stage, 'dora', cancel('b', 11))
    stage.take_access('carl')
    stage.end_user('dora')
    for number, why in ((taken, 'carl may not ask this any more'), (ended, 'dora has ended')):
        with pytest.raises(Conflict, match=why):
            confirm(stage, 'ben', number)
        assert state(stage, number) == 'lapsed'


def test_a_session_that_ended_takes_nothing_back(stage: GateStage) -> None:
    """The user asked, and not his session: only where he has ended it is not sent."""
    with stage.change() as db:
        number, _ = sessions.begin(db, stage.users['anna'], '192.0.2.7', 'Browser', 'totp')
    kept, gone = (ask(stage, 'anna', transfer(key, 11), hold=f's{number}') for key in 'ab')
    with stage.change() as db:
        assert sessions.end_all(db, stage.users['anna']) == 1
    assert confirm(stage, 'ben', kept).state == 'waiting' and state(stage, kept) == 'sending'
    stage.end_user('anna')
    with pytest.raises(Conflict, match='anna has ended'):
        confirm(stage, 'ben', gone)
    assert state(stage, gone) == 'lapsed'


def test_a_confirmer_who_lost_the_right_confirms_nothing(stage: GateStage) -> None:
    number = ask(stage, 'anna', transfer('k', 11))
    stage.take_access('carl')
    with pytest.raises(NotAllowed):
        confirm(stage, 'carl', number)
    stage.end_user('ben')
    with pytest.raises(NotFound):
        confirm(stage, 'ben', number)
    assert state(stage, number) == 'waiting'


@pytest.mark.parametrize('change', ['revoked = 1', 'ends = 1', 'trades = 0', 'account = 2'])
def test_what_a_token_asked_is_not_sent_once_it_may_not_ask_it(stage: GateStage,
                                                               change: str) -> None:
    hold = stage.token('anna', scope='t')
    number, sent = (ask(stage, 'anna', transfer(key, 11), hold=hold) for key in 'ab')
    confirm(stage, 'ben', sent)
    with stage.change() as db:
        db.execute(f'UPDATE token SET {change}')
    with pytest.raises(Conflict, match='the token nightly of anna may not ask this any more'):
        confirm(stage, 'ben', number)
    assert state(stage, number) == 'lapsed'


def test_a_bundle_waits_and_is_confirmed_whole(stage: GateStage) -> None:
    number = ask(stage, 'anna', transfer('a', 1), transfer('b', 11))
    waits = confirm(stage, 'ben', number)
    assert waits.target == BUNDLES and waits.body.count(b'\n') == 1


def test_old_rows_go_and_what_waits_stays(stage: GateStage,
                                          monkeypatch: pytest.MonkeyPatch) -> None:
    number, open_one = (ask(stage, 'anna', transfer(key, 11)) for key in 'ab')
    with stage.change() as db:
        waits = waiting.find(db, number)
        assert waits
        waiting.end(db, waits, doer(stage, 'ben'), 'refused', stage.users['ben'])
        db.execute('UPDATE waiting SET ends = ends + 1000000000 WHERE id = ?', (open_one,))
    late = store.now() + waiting.KEPT
    for at, left in ((late, {number, open_one}), (late + 60, {open_one})):
        monkeypatch.setattr(waiting, 'now', lambda at=at: at)
        with stage.change() as db:
            waiting.lapse(db)
        assert {row['id'] for row in stage.rows('SELECT id FROM waiting')} == left
