"""The texts of a document, in the languages that it is printed in. {} stands where a value does."""
from collections.abc import Mapping
from dataclasses import dataclass

FOOT = ('Guarantees of origin under Directive (EU) 2018/2001, Article 19. These certificates are '
        'used up: they cannot be transferred or cancelled again. The registry keeps each '
        'cancellation under its number.')
NOTE = ('A name here has characters that cannot be seen, or that change the order of its letters. '
        'Their codes stand in their place: {}.')
CHECKED = ('Anybody can check this document: read the QR code, or open {} and type the number {} '
           'and this code. What is shown there has to be what stands here.')
TYPED = ('Anybody can check this document: open {} and type the numbers {} and this code. What is '
         'shown there has to be what stands here.')
GERMAN: Mapping[str, str] = {
    'Registry of guarantees of origin {}': 'Register für Herkunftsnachweise {}',
    'Document of cancellation {}': 'Entwertungsnachweis {}',
    '{} MWh': '{} MWh',
    ' of energy, used from {} to {} by ': ' Energie, genutzt von {} bis {} durch ',
    ' of energy': ' Energie',
    'Issuing body': 'Ausstellende Stelle',
    'Cancellations': 'Entwertungen',
    'Cancellation': 'Entwertung',
    'Day of cancellation': 'Tag der Entwertung',
    'Holder': 'Inhaber',
    'account {}': 'Konto {}',
    'Beneficiary': 'Begünstigter',
    'Period of use': 'Zeitraum der Nutzung',
    'Certificates': 'Nachweise',
    '{} of 1 MWh each': '{} zu je 1 MWh',
    'By country, technology and month of production':
        'Nach Land, Technologie und Monat der Erzeugung',
    'Country': 'Land',
    'Technology': 'Technologie',
    'Month': 'Monat',
    'MWh': 'MWh',
    'In all': 'Zusammen',
    'Cancellations of this document': 'Entwertungen dieses Nachweises',
    'Day': 'Tag',
    'Count': 'Anzahl',
    'Certificates cancelled': 'Entwertete Nachweise',
    'Produced': 'Erzeugt',
    'Plant': 'Anlage',
    'Technology and source': 'Technologie und Energieträger',
    'Installation': 'Leistung und Förderung',
    'Issued': 'Ausgestellt',
    'since {}': 'seit {}',
    '{}, registry {}': '{}, Register {}',
    'registry {}': 'Register {}',
    'no support': 'keine Förderung',
    'investment support': 'Investitionsförderung',
    'production support': 'Förderung der Erzeugung',
    'investment and production support': 'Förderung von Investition und Erzeugung',
    'electricity': 'Strom',
    'gas': 'Gas',
    'hydrogen': 'Wasserstoff',
    'heating-cooling': 'Wärme und Kälte',
    'Check code': 'Prüfcode',
    CHECKED:
        'Jeder kann diesen Nachweis prüfen: den QR-Code lesen, oder {} öffnen und die Nummer {} '
        'und diesen Code eingeben. Was dort steht, muss auch hier stehen.',
    TYPED:
        'Jeder kann diesen Nachweis prüfen: {} öffnen, die Nummern {} und diesen Code eingeben. '
        'Was dort steht, muss auch hier stehen.',
    FOOT:
        'Herkunftsnachweise nach Richtlinie (EU) 2018/2001, Artikel 19. Diese Nachweise sind '
        'verbraucht: Sie lassen sich weder übertragen noch ein zweites Mal entwerten. Das Register '
        'führt jede Entwertung unter ihrer Nummer.',
    NOTE:
        'Ein Name hat hier Zeichen, die man nicht sieht oder die die Reihenfolge seiner Buchstaben '
        'ändern. An ihrer Stelle stehen ihre Codes: {}.',
    'Document {}, check code {}': 'Entwertungsnachweis {}, Prüfcode {}',
    'page {} of {}': 'Seite {} von {}',
}
SUPPORT = {'none': 'no support', 'investment': 'investment support',
           'production': 'production support', 'both': 'investment and production support'}


@dataclass(frozen=True)
class Words:
    """The texts in one language, and its way to write numbers."""

    language: str

    def __call__(self, text: str, *values: object) -> str:
        said = GERMAN[text] if self.language == 'de' else text
        parts = said.split('{}')
        return ''.join(part + str(value) for part, value in zip(parts, (*values, ''), strict=True))

    def count(self, number: int) -> str:
        text = f'{number:,}'
        return text.replace(',', '.') if self.language == 'de' else text
