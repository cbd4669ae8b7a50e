"""The kinds of fault that tables of an old registry have, and what may be done with a row at fault.

A fault is waived by its name in migration.toml, `KIND TABLE ROW`, or `KIND TABLE` for all rows of a
kind. Without a waiver nothing is sent.
"""
from dataclasses import dataclass

NEVER, LEFT_OUT, AS_IT_IS = 'never', 'left out', 'as it is'
"""What becomes of a row whose fault is waived: that can't be, the row stays behind, or is taken."""
KINDS = {
    'encoding': ('a field is not text of the encoding that the settings name', NEVER),
    'csv': ('the table is no CSV from this row on', NEVER),
    'header': ('a table or a column is missing, or a column stands twice', NEVER),
    'size': ('the table is larger than it may be', NEVER),
    'fields': ('the row has more or fewer fields than the header', LEFT_OUT),
    'empty': ('a field that must be there is empty', LEFT_OUT),
    'holder-twice': ('two rows have one holder', LEFT_OUT),
    'holder-code': ('the code of a holder can not be kept', LEFT_OUT),
    'holder-code-twice': ('two holders come to one code', LEFT_OUT),
    'name': ('a name can not be kept', LEFT_OUT),
    'name-long': ('a name is longer than can be kept, and nothing says how it is shortened',
                  LEFT_OUT),
    'account-twice': ('two rows have one account', LEFT_OUT),
    'account-without-holder': ('the holder of an account is in no table', LEFT_OUT),
    'device-twice': ('two rows have one device', LEFT_OUT),
    'device-number': ('the number of a device is not a GSRN', LEFT_OUT),
    'device-without-account': ('the account of a device is in no table', LEFT_OUT),
    'country': ('a country is unknown', LEFT_OUT),
    'technology': ('a technology is unknown', LEFT_OUT),
    'source': ('an energy source is unknown', LEFT_OUT),
    'carrier': ('an energy carrier is unknown', LEFT_OUT),
    'support': ('a kind of support is unknown', LEFT_OUT),
    'capacity': ('a capacity is none', LEFT_OUT),
    'day': ('a day is none', LEFT_OUT),
    'number': ('the number of a certificate has another form', LEFT_OUT),
    'range': ('the last number is below the first one, or of another series', LEFT_OUT),
    'overlap': ('a certificate stands in two rows', LEFT_OUT),
    'registry': ('a registry has no such code, or the number of a certificate has another one',
                 LEFT_OUT),
    'other-registry': ('certificates of another registry, whose lot no row of lots.csv states',
                       LEFT_OUT),
    'own-registry': ('certificates of the new registry itself, which come back by no notice of '
                     'this plan', LEFT_OUT),
    'lot-twice': ('two rows of lots.csv are one lot', LEFT_OUT),
    'stock-without-device': ('the device of certificates is in no table', LEFT_OUT),
    'stock-without-account': ('the account of certificates is in no table', LEFT_OUT),
    'period': ('a period ends before it begins, or in another month', LEFT_OUT),
    'before-commissioning': ('a period begins before the device was commissioned', LEFT_OUT),
    'issued': ('certificates were issued before their period ended, or after the tables were made',
               LEFT_OUT),
    'lot-differs': ('two rows of one device and first day state different things', LEFT_OUT),
    'periods-overlap': ('two periods of one device share days', LEFT_OUT),
    'deadline': ('the certificates have expired', LEFT_OUT),
    'more-than-made': ('more certificates than the device could have made', AS_IT_IS),
    'carry': ('a carried energy is none, or of no device', LEFT_OUT),
    'carry-twice': ('two rows have the carried energy of one device', LEFT_OUT),
    'document': ('a document is not there, is too large, or stands twice', LEFT_OUT),
}
"""Each kind with what it says, and what a waiver does."""


@dataclass(frozen=True)
class Fault:
    """What is wrong: the table, the row (1 is the first below the header), the field, the reason.

    Row 0 is the table as a whole.
    """

    kind: str
    table: str
    row: int
    field: str
    reason: str

    @property
    def name(self) -> str:
        """The name by which it is waived."""
        return f'{self.kind} {self.table} {self.row}'

    @property
    def text(self) -> str:
        where = f'{self.table}.csv, row {self.row}' if self.row else f'{self.table}.csv'
        return f'{where}, {self.field}: {self.reason} [{self.name}]'

    @property
    def waivers(self) -> set[str]:
        """The texts that waive it: its own name, and the one for all rows of its kind."""
        return {self.name, f'{self.kind} {self.table}'}

    def is_waived(self, waivers: frozenset[str]) -> bool:
        """Whether it is waived, and can be."""
        return KINDS[self.kind][1] != NEVER and bool(waivers & self.waivers)

    def leaves_out(self) -> bool:
        """Whether the row stays behind where the fault is waived."""
        return KINDS[self.kind][1] == LEFT_OUT


def waiver_fault(waiver: str) -> str:
    """What is wrong with the text of a waiver; '' where nothing is."""
    words = waiver.split(' ')
    if len(words) not in (2, 3) or (len(words) == 3 and not words[2].isdecimal()):
        return f'waiver {waiver!r} is not KIND TABLE, or KIND TABLE ROW'
    if words[0] not in KINDS:
        return f'waiver {waiver!r}: there is no fault {words[0]!r}'
    if KINDS[words[0]][1] == NEVER:
        return f'waiver {waiver!r}: this fault can not be waived'
    return ''
