"""The acts of people: who did what to whom, and from where.

An act is never changed nor taken away.
"""
import json
import sqlite3
from collections.abc import Mapping
from dataclasses import dataclass

from goo_service.people.store import now

KINDS = frozenset((
    'sign_in', 'sign_in_refused', 'sign_out', 'session_ended', 'password_set', 'factor_added',
    'factor_removed', 'factors_reset', 'token_made', 'token_revoked', 'invited',
    'invitation_revoked', 'user_made', 'user_ended', 'access_given', 'administrator_set',
    'rule_set', 'waiting', 'confirmed', 'refused', 'withdrawn', 'lapsed', 'hook_made',
    'hook_revoked', 'mail_set', 'taken_over'))


@dataclass(frozen=True)
class Doer:
    """Who does an act, by which way of signing in, from where, for which caller."""

    user: str
    way: str
    address: str
    caller: str


ROOT = Doer('root', 'host', '', 'ISSUER')
"""Whoever gives a command on the host."""
SERVICE = Doer('', 'service', '', 'ISSUER')
"""The service itself: what ended by time."""


def add(db: sqlite3.Connection, doer: Doer, kind: str, about: str,
        detail: Mapping[str, object] | None = None) -> None:
    """Adds an act, inside the transaction of the change that it tells of.

    `about` is the name of a user, token, rule or number. `detail` holds no secret.
    """
    assert kind in KINDS, kind
    text = json.dumps(detail or {}, ensure_ascii=False, separators=(',', ':'), sort_keys=True)
    db.execute(
        'INSERT INTO act (time, user, way, address, caller, kind, about, detail) '
        'VALUES (?, ?, ?, ?, ?, ?, ?, ?)',
        (now(), doer.user, doer.way, doer.address[:64], doer.caller, kind, about[:200],
         text[:4000]))
