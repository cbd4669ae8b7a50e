"""goo-people-web: sign-in, and what users do with their own and their colleagues' rights.

gunicorn runs `application()`. GOO_PEOPLE names the file of people. Each route is in a blueprint of
a module web_NAME. docs/PEOPLE.md has the routes.
"""
import importlib
import os
import pkgutil
import sqlite3
import sys
from pathlib import Path

import flask
from flask import Flask
from flask import Response
from werkzeug.exceptions import HTTPException

import goo_service.people
from goo_service.people import passwords
from goo_service.people import store
from goo_service.people import viewer
from goo_service.people.passwords import Passwords
from goo_service.people.replies import Refused
from goo_service.people.replies import refusal
from goo_service.people.users import WrongUser

PREFIX = '/people/v1'
SENTENCES = {
    400: 'this is no request that can be read', 404: 'there is nothing here',
    405: 'this method is not allowed here'}


def blueprints() -> list[flask.Blueprint]:
    """Those of each module whose name begins with web_."""
    names = sorted(of.name for of in pkgutil.iter_modules(goo_service.people.__path__))
    modules = [importlib.import_module(f'goo_service.people.{name}')
               for name in names if name.startswith('web_')]
    return [module.blueprint() for module in modules]


def application(path: Path | None = None, of: Passwords | None = None) -> Flask:
    """The service over a file of people."""
    made = Flask('goo-people')
    made.config[viewer.PATH] = path or Path(os.environ.get('GOO_PEOPLE') or store.FILE)
    made.config[viewer.PASSWORDS] = of or Passwords()
    made.teardown_appcontext(viewer.close_database)
    made.register_error_handler(Exception, answer_to)
    for one in blueprints():
        made.register_blueprint(one, url_prefix=PREFIX)
    return made


def answer_to(fault: Exception) -> Response:
    """What a request comes to that is not answered otherwise."""
    if isinstance(fault, Refused):
        return refusal(fault)
    if isinstance(fault, WrongUser):
        return refusal(Refused(400, str(fault)))
    if isinstance(fault, passwords.Busy):
        return refusal(Refused(429, 'too many sign-ins at once', 5))
    if isinstance(fault, HTTPException):
        code = fault.code or 500
        return refusal(Refused(code, SENTENCES.get(code, 'this could not be answered')))
    print(f'people: {type(fault).__name__}: {fault}', file=sys.stderr, flush=True)
    if isinstance(fault, store.Fault | sqlite3.Error | OSError):
        return refusal(Refused(503, 'the file of people cannot be written now', 10))
    return refusal(Refused(500, 'goo-people has a fault'))
