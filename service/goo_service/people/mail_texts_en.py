"""The texts of mails in English: a subject and a body for each. {names} are fields."""

NUMBERS = ',', '.'
"""What separates thousands, and what stands before decimals."""
DAY = '{day} {month} {year}'
MONTHS = ('January', 'February', 'March', 'April', 'May', 'June', 'July', 'August', 'September',
          'October', 'November', 'December')
MOMENT = '{day}, {clock} UTC'
WORDS = {
    'certificate': '1 certificate', 'certificates': '{count} certificates',
    'account': 'account {accounts}', 'accounts': 'accounts {accounts}',
    'many': '{count} accounts', 'number': '{first}', 'numbers': '{first} to {last}'}
FOOT = '\n-- \nRegistry of guarantees of origin, {body}\n{site}\n'
OFF = '\nYou can switch off mails of this kind under "My account".\n'

TEXTS = {
    'came_in': (
        'Came in: {certificates}',
        'Came in on {day}: {certificates}, {accounts}.\n'),
    'sent': (
        'Sent: {certificates}',
        'Sent on {day}: {certificates}, from {accounts}. They cannot be called back.\n'
        'If you know nothing of this transfer, tell the issuing body at once.\n'),
    'document': (
        'A document was made for {certificates}',
        'Cancelled on {day}: {certificates} of {accounts}. The document is in the registry.\n'
        'Number of the cancellation: {numbers}\n'),
    'deadline_trade': (
        'Trade ends on {day}: {certificates}',
        'Can be transferred and exported up to {day} inclusive: {certificates} of {accounts}.\n'
        'After that day they can only be cancelled.\n'),
    'deadline_expiry': (
        'Expiry on {day}: {certificates}',
        'Can be cancelled up to {day} inclusive: {certificates} of {accounts}.\n'
        'After that day they have expired, and nobody can use them.\n'),
    'notice_refused': (
        'Registry {peer} refused an export',
        'Registry {peer} did not take notice {number} with {certificates} from {accounts}.\n'
        'Its answer: {why}\n'
        'The issuing body has to clear it with that registry.\n'),
    'new_place': (
        'Sign-in from a new place',
        '{user} signed in on {time} from an address from which you had not signed in before: '
        '{net}\n'
        'If that was not you, change your password and end all sessions under "My account", and '
        'tell your administrator.\n'),
    'waits': (
        'A request waits for a second user',
        '{user} asked for something that a second user has to confirm: {why}\n'
        'Number {number}. It waits until {time}.\n'),
    'confirmed': (
        'Request {number} was confirmed',
        '{user} confirmed your request number {number} ({why}). The answer of the registry stands '
        'beside it.\n'),
    'refused': (
        'Request {number} was refused',
        '{user} refused your request number {number} ({why}). Nothing was sent to the registry.\n'),
    'lapsed': (
        'Request {number} has lapsed',
        'Nobody confirmed your request number {number} ({why}) in time. Nothing was sent to the '
        'registry.\n'),
    'invitation': (
        'Invitation to the registry of guarantees of origin',
        'You are invited to the registry of guarantees of origin, as a user of {holder}.\n'
        'Open this link to choose a name and a password. It works once, up to {time}:\n\n'
        '{site}/accept.html#{secret}\n\n'
        'Give this link to nobody. If you expect no invitation, do nothing.\n'),
    'reset': (
        'New access to the registry of guarantees of origin',
        'The access of {user} to the registry is set up anew.\n'
        'Open this link to choose a password. It works once, up to {time}:\n\n'
        '{site}/accept.html#{secret}\n\n'
        'Give this link to nobody. If you expect no such mail, tell your administrator.\n'),
    'password': (
        'Your password was changed',
        'The password of {user} was changed on {time}. All other sessions have ended.\n'
        'If that was not you, tell your administrator at once.\n'),
    'factor_added': (
        'A second factor was added',
        'A second factor was added for {user} on {time}.\n'
        'If that was not you, tell your administrator at once.\n'),
    'factor_removed': (
        'A second factor was removed',
        'A second factor of {user} was removed on {time}.\n'
        'If that was not you, tell your administrator at once.\n'),
    'address': (
        'Your mail address was changed',
        'Mails for {user} go to another address since {time}. This is the last mail to this one.\n'
        'If that was not you, tell your administrator at once.\n'),
    'bound': (
        'No more mails today',
        'The registry has sent you {count} mails today, and sends no more until tomorrow (UTC).\n'
        'Whatever else happens stands in the registry.\n'),
}
