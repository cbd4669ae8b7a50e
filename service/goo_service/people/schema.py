"""The tables of the file of people.

The file has who may sign in, with what, and what each may do; what waits for a second user; and
mails and webhooks that are still to be sent. No secret stands in it as it was given: passwords are
Argon2id, tokens, sessions and invitations are kept as SHA-256. The seeds of one-time codes and the
secrets of webhooks have to be read again, so whoever copies the file has them (docs/SECURITY.md).
The link of an invitation stands in the body of its mail until that is sent.

Times are whole seconds since 1970, UTC. A name of a user is compared without case.
"""

FORM = 1
"""Of these tables. A file of another form is refused, or brought over by `store.open_file`."""

TABLES = '''
CREATE TABLE meta (id INTEGER PRIMARY KEY CHECK (id = 1), form INTEGER NOT NULL,
    secret BLOB NOT NULL) STRICT;

CREATE TABLE user (
    id INTEGER PRIMARY KEY, name TEXT NOT NULL UNIQUE COLLATE NOCASE, caller TEXT NOT NULL,
    role TEXT NOT NULL, administrator INTEGER NOT NULL DEFAULT 0, mail TEXT, language TEXT,
    password TEXT, password_set INTEGER, basic_until INTEGER, made INTEGER NOT NULL,
    ended INTEGER, source TEXT NOT NULL) STRICT;
CREATE INDEX user_by_caller ON user (caller);

CREATE TABLE access (
    user INTEGER NOT NULL REFERENCES user, account INTEGER NOT NULL, reads INTEGER NOT NULL,
    trades INTEGER NOT NULL, cancels INTEGER NOT NULL, PRIMARY KEY (user, account))
    STRICT, WITHOUT ROWID;

CREATE TABLE factor (
    id INTEGER PRIMARY KEY, user INTEGER NOT NULL REFERENCES user, kind TEXT NOT NULL,
    name TEXT NOT NULL, secret BLOB NOT NULL, credential BLOB UNIQUE, counter INTEGER NOT NULL,
    confirmed INTEGER NOT NULL, made INTEGER NOT NULL, used INTEGER) STRICT;
CREATE INDEX factor_by_user ON factor (user);

CREATE TABLE session (
    id INTEGER PRIMARY KEY, hash BLOB NOT NULL UNIQUE, user INTEGER NOT NULL REFERENCES user,
    begun INTEGER NOT NULL, seen INTEGER NOT NULL, ends INTEGER NOT NULL, address TEXT NOT NULL,
    agent TEXT NOT NULL, way TEXT NOT NULL) STRICT;
CREATE INDEX session_by_user ON session (user);

CREATE TABLE known_place (
    user INTEGER NOT NULL REFERENCES user, net TEXT NOT NULL, seen INTEGER NOT NULL,
    PRIMARY KEY (user, net)) STRICT, WITHOUT ROWID;

CREATE TABLE delay (
    key TEXT PRIMARY KEY, failures INTEGER NOT NULL, until INTEGER NOT NULL,
    seen INTEGER NOT NULL) STRICT, WITHOUT ROWID;

CREATE TABLE spent (
    hash BLOB PRIMARY KEY, until INTEGER NOT NULL) STRICT, WITHOUT ROWID;

CREATE TABLE oidc_link (
    subject BLOB PRIMARY KEY, user INTEGER NOT NULL UNIQUE REFERENCES user,
    made INTEGER NOT NULL) STRICT, WITHOUT ROWID;

CREATE TABLE token (
    id INTEGER PRIMARY KEY, hash BLOB NOT NULL UNIQUE, user INTEGER NOT NULL REFERENCES user,
    name TEXT NOT NULL, reads INTEGER NOT NULL, declares INTEGER NOT NULL,
    trades INTEGER NOT NULL, most INTEGER, account INTEGER, made INTEGER NOT NULL,
    ends INTEGER NOT NULL, used INTEGER, revoked INTEGER) STRICT;
CREATE INDEX token_by_user ON token (user);
CREATE TABLE token_use (
    token INTEGER NOT NULL REFERENCES token, day TEXT NOT NULL, key TEXT NOT NULL,
    quantity INTEGER NOT NULL, PRIMARY KEY (token, day, key)) STRICT, WITHOUT ROWID;

CREATE TABLE invitation (
    id INTEGER PRIMARY KEY, hash BLOB NOT NULL UNIQUE, caller TEXT NOT NULL, role TEXT NOT NULL,
    administrator INTEGER NOT NULL, mail TEXT NOT NULL, language TEXT NOT NULL,
    access TEXT NOT NULL, made_by INTEGER REFERENCES user, made INTEGER NOT NULL,
    ends INTEGER NOT NULL, used INTEGER, revoked INTEGER, for_user INTEGER REFERENCES user) STRICT;

CREATE TABLE rule (
    caller TEXT NOT NULL, command TEXT NOT NULL, above INTEGER NOT NULL, days INTEGER NOT NULL,
    PRIMARY KEY (caller, command)) STRICT, WITHOUT ROWID;
CREATE TABLE waiting (
    id INTEGER PRIMARY KEY, caller TEXT NOT NULL, user INTEGER NOT NULL REFERENCES user,
    way TEXT NOT NULL, hold TEXT NOT NULL, address TEXT NOT NULL, role TEXT NOT NULL,
    target TEXT NOT NULL, keys TEXT NOT NULL, body BLOB NOT NULL, digest BLOB NOT NULL,
    why TEXT NOT NULL, asked INTEGER NOT NULL, ends INTEGER NOT NULL, state TEXT NOT NULL,
    decided_by INTEGER REFERENCES user, decided_way TEXT, decided INTEGER, status INTEGER,
    answer BLOB, is_done INTEGER NOT NULL DEFAULT 0) STRICT;
CREATE INDEX waiting_by_caller ON waiting (caller, state);
CREATE INDEX waiting_by_digest ON waiting (caller, digest);
CREATE TABLE waiting_key (
    caller TEXT NOT NULL, key TEXT NOT NULL, waiting INTEGER NOT NULL REFERENCES waiting,
    PRIMARY KEY (caller, key)) STRICT, WITHOUT ROWID;
CREATE INDEX waiting_key_by_number ON waiting_key (waiting);

CREATE TABLE mail (
    id INTEGER PRIMARY KEY, user INTEGER REFERENCES user, address TEXT NOT NULL,
    kind TEXT NOT NULL, cause TEXT NOT NULL, subject TEXT NOT NULL, body TEXT NOT NULL,
    made INTEGER NOT NULL, next INTEGER NOT NULL, tries INTEGER NOT NULL, sent INTEGER,
    given_up INTEGER, fault TEXT, UNIQUE (address, kind, cause)) STRICT;
CREATE INDEX mail_by_next ON mail (next) WHERE sent IS NULL AND given_up IS NULL;
CREATE INDEX mail_by_user ON mail (user, made);
CREATE TABLE mail_off (
    user INTEGER NOT NULL REFERENCES user, kind TEXT NOT NULL, PRIMARY KEY (user, kind))
    STRICT, WITHOUT ROWID;

CREATE TABLE hook (
    id INTEGER PRIMARY KEY, caller TEXT NOT NULL, user INTEGER NOT NULL REFERENCES user,
    url TEXT NOT NULL, secret BLOB NOT NULL, kinds TEXT NOT NULL, made INTEGER NOT NULL,
    revoked INTEGER, paused INTEGER NOT NULL DEFAULT 0, failures INTEGER NOT NULL DEFAULT 0,
    fault TEXT) STRICT;
CREATE INDEX hook_by_user ON hook (user);
CREATE TABLE delivery (
    id INTEGER PRIMARY KEY, hook INTEGER NOT NULL REFERENCES hook, cause TEXT NOT NULL,
    body BLOB NOT NULL, made INTEGER NOT NULL, next INTEGER NOT NULL, tries INTEGER NOT NULL,
    sent INTEGER, given_up INTEGER, fault TEXT, UNIQUE (hook, cause)) STRICT;
CREATE INDEX delivery_by_hook ON delivery (hook, id) WHERE sent IS NULL AND given_up IS NULL;
CREATE TABLE read_to (
    reader TEXT PRIMARY KEY, place TEXT NOT NULL) STRICT, WITHOUT ROWID;

CREATE TABLE act (
    id INTEGER PRIMARY KEY, time INTEGER NOT NULL, user TEXT NOT NULL, way TEXT NOT NULL,
    address TEXT NOT NULL, caller TEXT NOT NULL, kind TEXT NOT NULL, about TEXT NOT NULL,
    detail TEXT NOT NULL) STRICT;
CREATE INDEX act_by_caller ON act (caller);
CREATE TRIGGER act_stays BEFORE UPDATE ON act BEGIN SELECT RAISE(ABORT, 'an act stays'); END;
CREATE TRIGGER act_is_kept BEFORE DELETE ON act BEGIN SELECT RAISE(ABORT, 'an act stays'); END;
'''
