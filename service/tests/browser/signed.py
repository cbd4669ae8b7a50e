"""Browsers of people: signed in by the page, with codes of an app that the test has.

`Signed(browser, house).sign_in('anna')` types name, password and code, as anna would.
"""
from dataclasses import dataclass

import pyotp
from browser.chromium import Browser
from goo_service.people import store
from goo_service.people.store import changing
from house import House
from house_people import word_of

AUTHENTICATOR = {'protocol': 'ctap2', 'transport': 'usb', 'hasResidentKey': False,
                 'hasUserVerification': False, 'automaticPresenceSimulation': True}
"""A security key that is touched at once."""


@dataclass
class Signed:
    """A browser at a house with goo-people in front."""

    page: Browser
    house: House

    def begin(self) -> 'Signed':
        """With nothing of before, and the host's own clock: tokens and invitations end by it."""
        self.page.visit(self.house)
        self.page.cdp('Network.clearBrowserCookies')
        self.page.set_clock(None)
        return self

    def type_password(self, name: str, password: str = '', path: str = '/sign-in.html') -> None:
        """The first step. What comes after it is waited for by whoever calls."""
        self.page.load_path(path, 'form.sign-in')
        self.page.fill('sign-in', user=name, password=password or word_of(name))
        self.page.click('form.sign-in button.main')

    def type_code(self, name: str) -> None:
        """The second step, by the app that each user of a house has."""
        self.page.fill('sign-in', code=self.house.people.code(name))
        self.page.click('form.sign-in button.main')

    def sign_in(self, name: str, page: str = '', wait: str = 'nav a') -> Browser:
        """Both steps, and the page that comes then."""
        self.type_password(name, path=f'/sign-in.html#{page}')
        self.page.see('form.sign-in [name=code]')
        self.type_code(name)
        self.page.see(wait)
        return self.page

    def add_app(self, shown: str = 'main') -> str:
        """Adds a telephone: the secret that it was given, once its first code was right."""
        self.page.forget('.enrol, form.first-code')
        self.page.click('form.add-app button.main')
        secret = self.page.text(f'{shown} .secret').replace(' ', '')
        self.page.see(f'{shown} svg.qr')
        self.page.fill('first-code', code=pyotp.TOTP(secret).at(store.now()))
        self.page.click('form.first-code button.main')
        return secret

    def confirm_code(self, name: str) -> None:
        """Answers the question for a code of now."""
        self.page.see('dialog[open] form.fresh')
        self.page.fill('fresh', code=self.house.people.code(name))
        self.page.click('dialog[open] form.fresh button.main')

    def add_key(self) -> None:
        """Puts a security key into the browser, in the place of one of before."""
        self.page.cdp('WebAuthn.disable')
        self.page.cdp('WebAuthn.enable')
        self.page.cdp('WebAuthn.addVirtualAuthenticator', options=AUTHENTICATOR)

    def age(self) -> None:
        """Makes all sessions so old that a second factor of now is asked for."""
        with self.house.people.open() as db, changing(db):
            db.execute('UPDATE session SET begun = begun - 600')
