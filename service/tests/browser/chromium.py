"""A headless Chromium that a user has signed in with, at the front door of a house."""
import base64
import os
import shutil
import subprocess
import time
from collections.abc import Callable
from collections.abc import Sequence
from pathlib import Path
from typing import Any

from house import House
from selenium import webdriver
from selenium.common.exceptions import JavascriptException
from selenium.common.exceptions import StaleElementReferenceException
from selenium.webdriver.chrome.service import Service
from selenium.webdriver.common.action_chains import ActionChains
from selenium.webdriver.common.by import By
from selenium.webdriver.common.keys import Keys
from selenium.webdriver.remote.webelement import WebElement

SECONDS = 60
"""Most that anything may take to come: far more than it takes, on a machine that does much else."""
SCRIPTS = Path(__file__).parent
WIDE, NARROW = 1440, 360
BETWEEN = (320, 700, 1024, 1240)
"""Widths of which there are no pictures."""
FLAGS = (
    '--headless=new', '--no-sandbox', '--disable-dev-shm-usage', '--disable-gpu', '--lang=en-GB',
    '--ignore-certificate-errors', '--force-prefers-reduced-motion', '--no-first-run',
    '--disable-background-networking', '--disable-component-update', '--disable-extensions',
    '--host-resolver-rules=MAP * ~NOTFOUND, EXCLUDE localhost')
CLOCK = """const get = Headers.prototype.get;
Headers.prototype.get = function (name) {
  return name === 'Date' ? '%s' : get.call(this, name);
};"""
FIND = """const [css, text, milliseconds, done] = arguments, end = Date.now() + milliseconds;
const words = e => (e.innerText ?? e.textContent).replaceAll('\\u00a0', ' ').trim();
const shown = e => e.checkVisibility() ? words(e) : '';
(function look() {
  const e = [...document.querySelectorAll(css)].find(one => shown(one).includes(text));
  if (e || Date.now() > end) done(e ? [e, shown(e)] : null); else setTimeout(look, 25);
})();"""
"""The first element of this kind that has this text, with its text; null where none comes."""
GO = """const at = new URL(`#${arguments[0]}`, location).hash, same = at === location.hash;
document.querySelector('dialog[open]')?.close();
document.getElementById('view').replaceChildren();
if (same) dispatchEvent(new HashChangeEvent('hashchange')); else location.hash = at;"""
"""The way to another page as a link has it. What stood there goes first."""
CELLS = """return [...document.querySelectorAll(arguments[0])].map(row =>
  [...row.querySelectorAll('td')].map(cell => cell.innerText.replace(/\\s+/g, ' ').trim()))"""
COLUMN = """return [...document.querySelectorAll('main tbody td')]
  .filter(cell => cell.dataset.name === arguments[0]).map(cell => cell.innerText.trim())"""
SET_DAY = """arguments[0].value = arguments[1];
arguments[0].dispatchEvent(new Event('change'))"""
ASYNC = """const words = [...arguments], done = words.pop();
(async () => { %s })().then(done, e => done('threw ' + e))"""


def home_with(certificate: Path, home: Path) -> Path:
    """A home whose store has the certificate of two files, NAME.pem and NAME.key."""
    store, packed = home / '.pki/nssdb', home / 'certificate.p12'
    if store.exists():
        return home
    store.mkdir(parents=True)
    for words in (
            ['certutil', '-N', '-d', f'sql:{store}', '--empty-password'],
            ['openssl', 'pkcs12', '-export', '-in', f'{certificate}.pem', '-inkey',
             f'{certificate}.key', '-out', str(packed), '-passout', 'pass:'],
            ['pk12util', '-i', str(packed), '-d', f'sql:{store}', '-W', '']):
        subprocess.run(words, check=True, capture_output=True)
    return home


class Browser:
    """A Chromium of one user, with a profile of its own in a folder.

    `certificate` is a house whose user has a certificate there, by which he signs in.
    """

    def __init__(self, user: str, folder: Path, pictures: Path | None = None,
                 certificate: House | None = None) -> None:
        self.user, self.pictures, self.downloads = user, pictures, folder / 'downloads'
        self.clock = ''
        options, env = webdriver.ChromeOptions(), {**os.environ, 'LANGUAGE': 'en_GB'}
        prefs: dict[str, Any] = {'download.default_directory': str(self.downloads),
                                 'download.prompt_for_download': False}
        if certificate:
            env['HOME'] = str(home_with(certificate.folder / user, folder / 'home'))
            prefs['profile.content_settings.exceptions.auto_select_certificate'] = {
                f'https://localhost:{certificate.port},*': {'setting': {'filters': [{}]}}}
        for flag in (*FLAGS, f'--user-data-dir={folder}/profile'):
            options.add_argument(flag)
        options.set_capability('goog:loggingPrefs', {'browser': 'ALL'})
        options.add_experimental_option('prefs', prefs)
        self.driver = webdriver.Chrome(service=Service('/usr/bin/chromedriver', env=env),
                                       options=options)
        self.driver.set_page_load_timeout(SECONDS)
        self.driver.set_script_timeout(SECONDS)

    def cdp(self, name: str, **words: Any) -> Any:
        """A command of Chromium's own."""
        return self.driver.execute_cdp_cmd(name, words)

    # ---------------------------------------------------------------- a visit

    def visit(self, house: House) -> None:
        """Begins at a house with nothing of before. Its registry's day is today."""
        self.house, self.origin = house, f'https://localhost:{house.port}'
        self.leave()
        self.set_clock(house.day)
        self.set_blocked()
        self.set_size(WIDE)
        self.set_media()
        self.cdp('Storage.clearDataForOrigin', origin=self.origin, storageTypes='local_storage')
        shutil.rmtree(self.downloads, ignore_errors=True)

    def sign_in(self, page: str = '', wait: str = 'h1') -> None:
        """With the password in its address a page may not fetch; it only has to be there once."""
        host = self.origin.removeprefix('https://')
        self.driver.get(f'https://{self.user}:{self.house.users[self.user]}@{host}/acts.js')
        self.load(page, wait)

    def set_clock(self, day: str | None) -> None:
        """From the next load on the front door tells this day, or the host's."""
        if self.clock:
            self.cdp('Page.removeScriptToEvaluateOnNewDocument', identifier=self.clock)
        self.clock = ''
        if day:
            date = time.strftime('%a, %d %b %Y 10:00:00 GMT', time.strptime(day, '%Y-%m-%d'))
            source = {'source': CLOCK % date}
            self.clock = self.cdp('Page.addScriptToEvaluateOnNewDocument', **source)['identifier']

    def set_blocked(self, *forms: str) -> None:
        """From the next load on these addresses do not come."""
        self.cdp('Network.enable')
        self.cdp('Network.setBlockedURLs', urls=list(forms))

    def errors(self) -> list[str]:
        """What the browser has logged of scripts and of the security policy since it was asked."""
        return [entry['message'] for entry in self.driver.get_log('browser')
                if entry['level'] == 'SEVERE' and 'status of' not in entry['message']]

    def leave(self) -> None:
        """Nothing of the house is asked any more; what that does to the console is no error."""
        self.driver.get('about:blank')
        self.errors()

    def quit(self) -> None:
        self.driver.quit()

    # ---------------------------------------------------------------- ways

    def load(self, page: str = '', wait: str = 'h1') -> WebElement:
        """A page loaded anew, with nothing of before but what the browser keeps."""
        return self.load_path(f'/#{page}', wait)

    def load_path(self, path: str, wait: str = 'h1') -> WebElement:
        self.driver.get('about:blank')
        self.driver.get(f'{self.origin}{path}')
        return self.see(wait)

    def go(self, page: str, wait: str = 'h1') -> WebElement:
        """The way to a page as a link has it; what stood there goes first."""
        self.driver.execute_script(GO, page)
        return self.see(wait)

    def set_language(self, language: str, page: str = '', wait: str = 'h1') -> None:
        """A page in a language that was chosen in this browser before."""
        self.run(f"localStorage.setItem('goo/language', '{language}')")
        self.load(page, wait)

    # ---------------------------------------------------------------- what is seen

    def find(self, css: str, text: str = '') -> tuple[WebElement, str]:
        """An element and its text, once it is there with this text in it."""
        end = time.monotonic() + SECONDS
        while (left := end - time.monotonic()) > 0:
            try:
                wait = min(1000, 1000 * left)
                if found := self.driver.execute_async_script(FIND, css, text, wait):
                    return found[0], found[1]
            except (JavascriptException, StaleElementReferenceException):
                continue                            # another page has come meanwhile
        body = self.driver.find_element(By.TAG_NAME, 'body').text
        raise AssertionError(f'{css} with {text!r} does not come; there is: {body[:800]}')

    def see(self, css: str, text: str = '') -> WebElement:
        return self.find(css, text)[0]

    def text(self, css: str, text: str = '') -> str:
        """Its text at the moment at which it was there."""
        return self.find(css, text)[1]

    def value(self, css: str) -> str:
        """What a field has in it."""
        return self.see(css).get_attribute('value') or ''

    def all(self, css: str) -> list[WebElement]:
        """What is there now."""
        return self.driver.find_elements(By.CSS_SELECTOR, css)

    def texts(self, css: str) -> list[str]:
        return [element.text for element in self.all(css)]

    def cells(self, css: str = 'main tbody tr') -> list[list[str]]:
        """The texts of a table's cells, row by row, all read at one moment."""
        rows: list[list[str]] = self.driver.execute_script(CELLS, css)
        return rows

    def column(self, name: str) -> list[str]:
        """The texts of a column by its heading, all read at one moment."""
        texts: list[str] = self.run(COLUMN, name)
        return texts

    def cells_when(self, holds: Callable[[list[list[str]]], bool]) -> list[list[str]]:
        """The same once they are as wanted."""
        rows: list[list[str]] = self.wait(self.cells, holds)
        return rows

    def wait(self, read: Callable[[], Any], holds: Callable[[Any], bool] = bool) -> Any:
        """What is read, once it is as wanted."""
        end = time.monotonic() + SECONDS
        while not holds(value := read()):
            if time.monotonic() > end:
                raise AssertionError(f'it does not come; there is: {str(value)[:800]}')
            time.sleep(0.05)
        return value

    def gone(self, css: str) -> None:
        """Waits until there is none of these."""
        self.wait(lambda: self.all(css), lambda found: not found)

    def saved(self, name: str) -> str:
        """The text of a file that the browser saves, once it is there."""
        path = self.downloads / name
        self.wait(path.exists)
        return path.read_bytes().decode()

    # ---------------------------------------------------------------- acts

    def forget(self, css: str) -> None:
        """Takes away what stands there, so that what is waited for afterwards is new."""
        self.run('document.querySelectorAll(arguments[0]).forEach(e => e.remove())', css)

    def click(self, css: str, text: str = '') -> None:
        """Clicks it; once more where the page has drawn it anew meanwhile."""
        for last in (False, False, True):
            try:
                element = self.see(css, text)
                self.run("arguments[0].scrollIntoView({block: 'center'})", element)
                self.wait_until_free(element)
                element.click()
                return
            except StaleElementReferenceException:
                if last:
                    raise

    def wait_until_free(self, element: WebElement) -> None:
        """A button whose act is under way takes no press (`busy` of web/dom.js): its end is near
        once what it came to is shown."""
        end = time.monotonic() + SECONDS
        while element.get_attribute('aria-disabled') == 'true' and time.monotonic() < end:
            time.sleep(0.02)

    def type(self, css: str, *words: str) -> None:
        self.see(css).send_keys(*words)

    def filter(self, name: str, *words: str) -> None:
        """Types into a filter of a list, or chooses there; what holds it is opened first."""
        self.run("document.querySelectorAll('.filters details').forEach(e => { e.open = true; })")
        self.type(f'.filters [name={name}]', *words)

    def keys(self, *keys: str) -> None:
        """Keys for whatever has the focus."""
        ActionChains(self.driver).send_keys(*keys).perform()

    def fill(self, form: str, **values: str) -> None:
        for name, value in values.items():
            element = self.see(f'form.{form} [name={name}]')
            if element.get_attribute('type') == 'date':     # typing depends on the language
                self.run(SET_DAY, element, value)
            elif element.tag_name == 'select':
                element.send_keys(value)
            else:                       # in place of what stands there, or comes meanwhile
                element.send_keys(Keys.CONTROL, 'a')
                element.send_keys(value or Keys.BACKSPACE)

    def send(self, form: str, sure: bool = False) -> str:
        """The answer to a form that is sent; `sure` says yes to its question."""
        self.forget(f'form.{form} .result')
        self.click(f'form.{form} button[type=submit]')
        if sure:
            self.click('dialog[open] button.main')
        return self.text(f'form.{form} .result')

    def choose_file(self, name: str, text: str, css: str = '.drop input') -> None:
        """Chooses a file as a person with a folder of them; what a former one showed goes."""
        path = self.downloads / 'chosen' / name
        path.parent.mkdir(parents=True, exist_ok=True)
        path.write_text(text, encoding='utf-8')
        box = self.see(css)
        self.run("document.querySelectorAll('main [aria-live]').forEach(e => e.replaceChildren())")
        box.send_keys(str(path))

    def choose_quantity(self, count: str, act: str, order: str) -> None:
        """Chooses so many of an account's holdings, on their page."""
        self.type('#quantity', count)
        self.type('#quantity-act', act)
        self.type('#quantity-order', order)
        self.click('.quantity button', 'Choose')

    def run(self, text: str, *words: Any) -> Any:
        """What a script in the page returns."""
        return self.driver.execute_script(text, *words)

    def script(self, text: str, *words: Any) -> Any:
        """The same of one that may wait; it has its arguments in `words`."""
        return self.driver.execute_async_script(ASYNC % text, *words)

    # ---------------------------------------------------------------- looks

    def set_size(self, width: int, height: int = 900) -> None:
        self.cdp('Emulation.setDeviceMetricsOverride', width=width, height=height,
                 deviceScaleFactor=1, mobile=width < 600)

    def set_media(self, scheme: str = '', media: str = '') -> None:
        """As the browser has it, or 'dark', or in print."""
        features = [{'name': 'prefers-color-scheme', 'value': scheme}] if scheme else []
        self.cdp('Emulation.setEmulatedMedia', media=media, features=features)

    def unreadable(self) -> list[str]:
        """Texts of little contrast, controls without a name, and more of that kind."""
        found: list[str] = self.run((SCRIPTS / 'seen.js').read_text(encoding='utf-8'))
        return found

    def over(self) -> list[str]:
        """What is wider than the box that it stands in."""
        found: list[str] = self.run((SCRIPTS / 'over.js').read_text(encoding='utf-8'))
        return found

    def look(self, name: str = '', *, widths: Sequence[int] = (WIDE, NARROW), dark: bool = False,
             printed: bool = False) -> None:
        """Fails where something can't be read or runs over a side; keeps pictures under a name.

        Contrast is looked at in light and dark; of dark there are pictures where `dark` says so.
        """
        self.cdp('Input.dispatchMouseEvent', type='mouseMoved', x=0, y=0)    # over nothing
        found = [] if printed else self.unreadable_by_scheme()
        for scheme in ('light', 'dark') if dark and name and self.pictures else ('light',):
            self.set_media(scheme, 'print' if printed else 'screen')
            found += self.over_at(widths, f'{name}-dark' if scheme == 'dark' else name)
        self.set_media('light', 'print' if printed else 'screen')
        found += self.over_at(BETWEEN if len(widths) > 1 else ())
        self.set_size(WIDE)
        self.set_media()
        assert found == [], f'{name}: {found}'

    def unreadable_by_scheme(self) -> list[str]:
        found = []
        for scheme in ('light', 'dark'):
            self.set_media(scheme)
            found += [f'{scheme}: {what}' for what in self.unreadable()]
        return found

    def over_at(self, widths: Sequence[int], name: str = '') -> list[str]:
        """What runs over a side at these widths, with pictures under a name."""
        found = []
        for width in widths:
            self.set_size(width, 900 if width > 600 else 640)
            found += [f'at {width}: {what}' for what in self.over()]
            if name:
                self.picture(f'{name}-{width}')
        return found

    def picture(self, name: str) -> None:
        """A picture of the whole page, of few colours, where pictures are asked for."""
        if not self.pictures:
            return
        # In a picture of the whole page it would stand in the middle.
        self.run("for (const e of document.querySelectorAll('.chosen')) e.style.position='static'")
        width, height = self.run('return [innerWidth, Math.min(4000, Math.max(innerHeight, '
                                 'document.documentElement.scrollHeight))]')
        clip = {'x': 0, 'y': 0, 'width': width, 'height': height, 'scale': 1}
        shot = self.cdp('Page.captureScreenshot', captureBeyondViewport=True, clip=clip)
        path = self.pictures / f'{name}.png'
        path.write_bytes(base64.b64decode(shot['data']))
        if shutil.which('pngquant'):
            subprocess.run(['pngquant', '--force', '--skip-if-larger', '--strip', '--output',
                            str(path), '64', str(path)], check=False)

    def pdf(self) -> bytes:
        """The page as it is printed."""
        return base64.b64decode(self.cdp('Page.printToPDF', preferCSSPageSize=True)['data'])
