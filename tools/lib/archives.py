"""Makes an archive of requests and their outcomes, as service/goo_service/log/replica.py writes one. For tests of what reads archives.

usage: from archives import make_archive
       make_archive(goo, folder, [("office", "ISSUER", "/v1/requests", b'{"command":..}'), ..])
"""
import datetime
import os
import pathlib
import secrets
import subprocess
import sys

sys.path.insert(0, os.environ.get('GOO_SERVICE', str(pathlib.Path(__file__).resolve().parents[2] / 'service')))
sys.dont_write_bytecode = True
from goo_service.log import entries
from goo_service.log.archive import Archive
from goo_service.log import roles
from client import Answer, answered, listening, post

KEY = b'the key of a trial'
FORBIDDEN = Answer(403, None, b'Forbidden\n')
"""What a replica answers to a write that its user's role does not allow."""


def make_archive(goo, folder, requests, code=7, today='2025-03-01', begin='2025-02-28T23:59:55', step=1.0, key=KEY, then=None):
    """Sends each (user, caller, route, body) to a registry in memory and archives it. A fifth member is the user's role: what it does not allow is archived as 403, and not sent.

    Entry k has the time `begin` + k * `step`.

    `then` is called with the port of the registry before it ends.
    """
    words = [goo, 'serve', '--memory', '--code', str(code), '--today', today, '--count', '1000000', '--port']
    port, registry, _ = listening(lambda port: subprocess.Popen([*words, str(port)], stdout=subprocess.PIPE))
    try:
        archive, origin = Archive(folder), secrets.token_hex(32)
        for count, (user, caller, route, body, *given) in enumerate(requests):
            role = given[0] if given else 'full'
            took = datetime.datetime.fromisoformat(begin) + datetime.timedelta(seconds=count * step)
            before, chain = (archive.last.hash, archive.last.outcome.chain) if archive.last else (origin, entries.NO_CHAIN)
            entry = entries.Entry(n=count + 1, prev=before, time=took.strftime('%Y-%m-%dT%H:%M:%S.%fZ'), host='h1', user=user, address='127.0.0.1' if user else '',
                                  role=role, caller=caller, method='POST', route=route, version='trial', id=secrets.token_hex(8), body=body)
            status, _, answer = answered(port, post(body, caller, route)) if roles.allows(role, 'POST', route, body) else FORBIDDEN
            archive.add(entries.entry_line(entry, key), entry, entries.outcome_after(route, status, answer, chain))
        archive.sync()
        if then:
            then(port)
    finally:
        registry.terminate()
        registry.wait()
        registry.stdout.close()
    return archive
