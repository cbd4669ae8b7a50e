"""The texts of mails in German: a subject and a body for each. {names} are fields."""

NUMBERS = '.', ','
"""What separates thousands, and what stands before decimals."""
DAY = '{day}. {month} {year}'
MONTHS = ('Januar', 'Februar', 'März', 'April', 'Mai', 'Juni', 'Juli', 'August', 'September',
          'Oktober', 'November', 'Dezember')
MOMENT = '{day}, {clock} UTC'
WORDS = {
    'certificate': '1 Nachweis', 'certificates': '{count} Nachweise',
    'account': 'Konto {accounts}', 'accounts': 'Konten {accounts}',
    'many': '{count} Konten', 'number': '{first}', 'numbers': '{first} bis {last}'}
FOOT = '\n-- \nRegister für Herkunftsnachweise, {body}\n{site}\n'
OFF = '\nE-Mails dieser Art können Sie unter „Mein Zugang“ abschalten.\n'

TEXTS = {
    'came_in': (
        'Eingang: {certificates}',
        'Eingang am {day}: {certificates}, {accounts}.\n'),
    'sent': (
        'Übertragung: {certificates}',
        'Am {day} übertragen: {certificates}, von {accounts}. Das lässt sich nicht zurückholen.\n'
        'Wenn Sie von dieser Übertragung nichts wissen, melden Sie es sofort der ausstellenden '
        'Stelle.\n'),
    'document': (
        'Ein Entwertungsnachweis liegt vor: {certificates}',
        'Am {day} entwertet: {certificates}, {accounts}. Der Entwertungsnachweis liegt im '
        'Register.\n'
        'Nummer der Entwertung: {numbers}\n'),
    'deadline_trade': (
        'Handel endet am {day}: {certificates}',
        'Bis einschließlich {day} übertragbar und exportierbar: {certificates}, {accounts}.\n'
        'Danach ist nur noch die Entwertung möglich.\n'),
    'deadline_expiry': (
        'Verfall am {day}: {certificates}',
        'Bis einschließlich {day} entwertbar: {certificates}, {accounts}.\n'
        'Danach sind sie verfallen und von niemandem mehr nutzbar.\n'),
    'notice_refused': (
        'Register {peer} hat einen Export abgelehnt',
        'Register {peer} hat Mitteilung {number} nicht angenommen: {certificates}, {accounts}.\n'
        'Seine Antwort: {why}\n'
        'Die ausstellende Stelle muss das mit jenem Register klären.\n'),
    'new_place': (
        'Anmeldung von einem neuen Ort',
        '{user} hat sich am {time} von einer Adresse angemeldet, von der Sie sich bisher nicht '
        'angemeldet hatten: {net}\n'
        'Wenn Sie das nicht waren, ändern Sie unter „Mein Zugang“ Ihr Passwort, beenden Sie dort '
        'alle Sitzungen und melden Sie es Ihrem Administrator.\n'),
    'waits': (
        'Ein Antrag wartet auf einen zweiten Benutzer',
        '{user} hat etwas beantragt, das ein zweiter Benutzer bestätigen muss: {why}\n'
        'Nummer {number}. Der Antrag wartet bis {time}.\n'),
    'confirmed': (
        'Antrag {number} wurde bestätigt',
        '{user} hat Ihren Antrag Nummer {number} bestätigt ({why}). Die Antwort des Registers '
        'steht dabei.\n'),
    'refused': (
        'Antrag {number} wurde abgelehnt',
        '{user} hat Ihren Antrag Nummer {number} abgelehnt ({why}). An das Register ging '
        'nichts.\n'),
    'lapsed': (
        'Antrag {number} ist verfallen',
        'Niemand hat Ihren Antrag Nummer {number} ({why}) rechtzeitig bestätigt. An das Register '
        'ging nichts.\n'),
    'invitation': (
        'Einladung in das Register für Herkunftsnachweise',
        'Sie sind in das Register für Herkunftsnachweise eingeladen, als Benutzer von {holder}.\n'
        'Öffnen Sie diesen Link, um einen Namen und ein Passwort zu wählen. Er gilt einmal, bis '
        '{time}:\n\n'
        '{site}/accept.html#{secret}\n\n'
        'Geben Sie diesen Link niemandem. Wenn Sie keine Einladung erwarten, tun Sie nichts.\n'),
    'reset': (
        'Neuer Zugang zum Register für Herkunftsnachweise',
        'Der Zugang von {user} zum Register wird neu eingerichtet.\n'
        'Öffnen Sie diesen Link, um ein Passwort zu wählen. Er gilt einmal, bis {time}:\n\n'
        '{site}/accept.html#{secret}\n\n'
        'Geben Sie diesen Link niemandem. Wenn Sie das nicht erwarten, melden Sie es Ihrem '
        'Administrator.\n'),
    'password': (
        'Ihr Passwort wurde geändert',
        'Das Passwort von {user} wurde am {time} geändert. Alle anderen Sitzungen sind beendet.\n'
        'Wenn Sie das nicht waren, melden Sie es sofort Ihrem Administrator.\n'),
    'factor_added': (
        'Ein zweiter Faktor kam hinzu',
        'Für {user} kam am {time} ein zweiter Faktor hinzu.\n'
        'Wenn Sie das nicht waren, melden Sie es sofort Ihrem Administrator.\n'),
    'factor_removed': (
        'Ein zweiter Faktor wurde entfernt',
        'Ein zweiter Faktor von {user} wurde am {time} entfernt.\n'
        'Wenn Sie das nicht waren, melden Sie es sofort Ihrem Administrator.\n'),
    'address': (
        'Ihre E-Mail-Adresse wurde geändert',
        'E-Mails für {user} gehen seit {time} an eine andere Adresse. Dies ist die letzte an '
        'diese.\n'
        'Wenn Sie das nicht waren, melden Sie es sofort Ihrem Administrator.\n'),
    'bound': (
        'Heute keine weiteren E-Mails',
        'Das Register hat Ihnen heute {count} E-Mails gesendet und sendet bis morgen (UTC) keine '
        'mehr.\n'
        'Was sonst geschieht, steht im Register.\n'),
}
