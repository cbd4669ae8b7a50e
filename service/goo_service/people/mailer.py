"""Hands mails over to the mailer of the host, by SMTP.

What the mailer says of one mail is about that mail: a refusal for good (5xx) gives it up, any other
one (4xx) has it tried again, and the next mail goes on. What it says before (connection, STARTTLS,
sign-in, sender) is about all mails: they wait.
"""
import email.message
import email.policy
import smtplib
import ssl
from email.utils import formatdate
from typing import Self

from goo_service.people.mail_words import SITE
from goo_service.people.mail_words import Words
from goo_service.people.mails import Letter
from goo_service.people.post_settings import Mailer
from goo_service.people.post_settings import Settings

AWAY = 421
"""Service not available, closing transmission channel (RFC 5321)."""


class Away(Exception):
    """The mailer takes no mail at the moment. The text says why."""


class NotTaken(Exception):
    """The mailer did not take one mail. `is_final` where it never will."""

    def __init__(self, text: str, is_final: bool) -> None:
        super().__init__(text)
        self.is_final = is_final


def message_of(letter: Letter, settings: Settings) -> email.message.EmailMessage:
    """A mail as it is sent."""
    sender = settings.mailer.sender
    message = email.message.EmailMessage(policy=email.policy.SMTP)
    message['From'] = sender
    message['To'] = letter.address
    message['Subject'] = letter.subject
    message['Date'] = formatdate(letter.made)
    message['Message-ID'] = f'<{letter.message_id}@{sender.partition("@")[2]}>'
    message['Auto-Submitted'] = 'auto-generated'
    words = Words(letter.language)
    foot = words.foot(settings.body, settings.site)
    message.set_content(letter.body.replace(SITE, settings.site) + foot)
    message['Content-Language'] = words.name
    return message


class Connection:
    """A connection to the mailer, which takes mails until it is closed."""

    def __init__(self, settings: Settings) -> None:
        self.settings = settings
        self.smtp: smtplib.SMTP | None = None

    def __enter__(self) -> Self:
        return self

    def __exit__(self, *_: object) -> None:
        if self.smtp:
            try:
                self.smtp.quit()
            except (OSError, smtplib.SMTPException):
                self.smtp.close()
            self.smtp = None

    def send(self, letter: Letter) -> None:
        """Hands over one mail. Away or NotTaken where the mailer did not say that it has it."""
        message = message_of(letter, self.settings)
        smtp = self.opened()
        try:
            smtp.send_message(message, self.settings.mailer.sender, [letter.address])
        except smtplib.SMTPRecipientsRefused as fault:
            raise refusal(*fault.recipients[letter.address]) from fault
        except smtplib.SMTPDataError as fault:
            raise refusal(fault.smtp_code, fault.smtp_error) from fault
        except (OSError, smtplib.SMTPException) as fault:
            self.smtp = None
            smtp.close()
            raise Away(told(fault)) from fault

    def opened(self) -> smtplib.SMTP:
        """The connection, made where there is none."""
        if self.smtp is None:
            try:
                self.smtp = connect(self.settings.mailer)
            except (OSError, ValueError, smtplib.SMTPException) as fault:
                raise Away(told(fault)) from fault
        return self.smtp


def connect(mailer: Mailer) -> smtplib.SMTP:
    """A connection that the mailer has taken: with TLS and a sign-in, where they are set."""
    context = ssl.create_default_context(cafile=mailer.authority or None)
    smtp = (smtplib.SMTP_SSL(mailer.host, mailer.port, timeout=mailer.patience, context=context)
            if mailer.security == 'tls' else
            smtplib.SMTP(mailer.host, mailer.port, timeout=mailer.patience))
    try:
        if mailer.security == 'starttls':
            smtp.starttls(context=context)
        if mailer.user:
            smtp.login(mailer.user, mailer.password)
    except BaseException:
        smtp.close()
        raise
    return smtp


def refusal(code: int, said: bytes | str) -> Away | NotTaken:
    """What the mailer said of one mail. By 421 it says that it takes none."""
    text = f'{code} {said.decode(errors="replace") if isinstance(said, bytes) else said}'
    return Away(text) if code == AWAY else NotTaken(text, 500 <= code < 600)


def told(fault: Exception) -> str:
    return str(fault) or type(fault).__name__
