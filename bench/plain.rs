//! A plain registry over Debian's `rusqlite`: what the same work costs without a proof.
//!
//! usage: plain CREATE [DATABASE] [--as-it-comes] < LINES
//!        plain CREATE [DATABASE] --serve PORT
//!        plain CREATE DATABASE --statement ACCOUNT
//!
//! Reads its input whole, so that a read that fails leaves nothing done, and then writes an outcome line for each request line, as `goo run` does, over the
//! registry's own tables (the texts of the file CREATE). With --as-it-comes it reads and answers line by line, which takes less memory. It looks up the receipt, checks
//! what the registry checks, and writes the very rows that the registry writes, one transaction a request; in memory unless a DATABASE is given: there in a file with a
//! log, synced at each commit, locked for this program alone and in pages of the registry's size. So what it has read and written it knows, and keeps: next numbers,
//! accounts, devices, ends of trade. Each statement is prepared once, and no text of a request is copied unless it has escapes. It knows the commands of `workloads.py` and `add_peer`, and electricity
//! alone; its code and its date are those of the measurements. Ends with status 1 where a request is not accepted.
//!
//! With --serve it answers `POST /v1/requests` and `GET /v1/certificates/N` over HTTP at a port of 127.0.0.1, one connection after another. A connection goes on
//! for as long as the client likes, unless it asks for `Connection: close`. With --statement it writes the statement of an account, by one ordered query. `measured.py` builds it in a temporary folder.

use rusqlite::{params, Connection, OptionalExtension, Params, Statement};
use serde::de::{Deserialize, Deserializer, Error, MapAccess, Visitor};
use std::borrow::Cow;
use std::collections::hash_map::{Entry, HashMap};
use std::fmt::Write as _;
use std::io::{BufRead, BufReader, Read, Write};
use std::net::{TcpListener, TcpStream};

const CODE: i64 = 7;
const TODAY: &str = "2025-03-01";
const FIRST_OF_CODE: i64 = 1_000_000_000_000;
const LAST_ACT: i64 = 999_999_999;
const MWH: i64 = 1_000_000;
const HELD: i64 = 1;
const CANCELLED: i64 = 2;
/// The words for the kinds of places, of which the first is that of 1.
const PLACES: [&str; 5] = ["held", "cancelled", "expired", "withdrawn", "exported"];
/// The bytes of a page, and how many pages the log takes before they go to the database: as the registry has them.
const PAGE: i64 = 1_024;
const LOG_PAGES: i64 = 4_000;
const UNREADABLE: &str = r#"{"fault":"Shape","outcome":"unreadable"}"#;

/// Why a request is not accepted.
enum Stop {
    Refused(u8, &'static str, Option<i64>),
    Shape,
    Failed(rusqlite::Error),
}

impl From<rusqlite::Error> for Stop {
    fn from(error: rusqlite::Error) -> Self {
        Stop::Failed(error)
    }
}

type Done<T> = Result<T, Stop>;
/// The kind and the numbers of a reply.
type Reply = (i64, i64, i64, i64);

/// Certificates of one lot in one place.
#[derive(Clone, Copy, PartialEq)]
struct Piece {
    first: i64,
    last: i64,
    lot: i64,
    place: (i64, i64, i64),
}

impl Piece {
    fn meets(&self, first: i64, last: i64) -> bool {
        self.first <= last && first <= self.last
    }
}

/// The value of a member of a request. A text is a part of the request's line unless it has escapes.
enum Member<'a> {
    Text(Cow<'a, str>),
    Number(i64),
}

impl<'de: 'a, 'a> Deserialize<'de> for Member<'a> {
    fn deserialize<D: Deserializer<'de>>(from: D) -> Result<Self, D::Error> {
        from.deserialize_any(MemberReader)
    }
}

struct MemberReader;

impl<'de> Visitor<'de> for MemberReader {
    type Value = Member<'de>;

    fn expecting(&self, to: &mut std::fmt::Formatter) -> std::fmt::Result {
        to.write_str("a text or a number")
    }

    fn visit_borrowed_str<E: Error>(self, text: &'de str) -> Result<Member<'de>, E> {
        Ok(Member::Text(Cow::Borrowed(text)))
    }

    fn visit_str<E: Error>(self, text: &str) -> Result<Member<'de>, E> {
        Ok(Member::Text(Cow::Owned(text.into())))
    }

    fn visit_u64<E: Error>(self, number: u64) -> Result<Member<'de>, E> {
        i64::try_from(number).map(Member::Number).map_err(Error::custom)
    }
}

/// The members of a request, in the order of their names.
struct Request<'a>(Vec<(&'a str, Member<'a>)>);

impl<'de: 'a, 'a> Deserialize<'de> for Request<'a> {
    fn deserialize<D: Deserializer<'de>>(from: D) -> Result<Self, D::Error> {
        from.deserialize_map(RequestReader)
    }
}

struct RequestReader;

impl<'de> Visitor<'de> for RequestReader {
    type Value = Request<'de>;

    fn expecting(&self, to: &mut std::fmt::Formatter) -> std::fmt::Result {
        to.write_str("a request")
    }

    fn visit_map<M: MapAccess<'de>>(self, mut map: M) -> Result<Request<'de>, M::Error> {
        let mut members = Vec::with_capacity(12);
        while let Some(member) = map.next_entry()? {
            members.push(member);
        }
        members.sort_unstable_by_key(|(name, _)| *name);
        Ok(Request(members))
    }
}

impl<'a> Request<'a> {
    fn member(&self, name: &str) -> Done<&Member<'a>> {
        self.0.iter().find(|(one, _)| *one == name).map(|(_, member)| member).ok_or(Stop::Shape)
    }

    fn text(&self, name: &str) -> Done<&str> {
        match self.member(name)? {
            Member::Text(text) => Ok(text),
            Member::Number(_) => Err(Stop::Shape),
        }
    }

    fn integer(&self, name: &str) -> Done<i64> {
        match self.member(name)? {
            Member::Number(number) => Ok(*number),
            Member::Text(_) => Err(Stop::Shape),
        }
    }

    fn number(&self, name: &str) -> Done<i64> {
        self.text(name)?.parse().map_err(|_| Stop::Shape)
    }

    /// The command as it is kept: all members but the key.
    fn command(&self) -> Vec<u8> {
        let mut kept = Vec::with_capacity(256);
        for (name, member) in self.0.iter().filter(|(name, _)| *name != "key") {
            kept.extend_from_slice(if kept.is_empty() { b"{\"" } else { b",\"" });
            kept.extend_from_slice(name.as_bytes());
            kept.extend_from_slice(b"\":");
            match member {
                Member::Text(text) => serde_json::to_writer(&mut kept, text),
                Member::Number(number) => serde_json::to_writer(&mut kept, number),
            }
            .expect("a Vec takes what is written");
        }
        kept.push(b'}');
        kept
    }
}

fn refuse<T>(code: u8, name: &'static str) -> Done<T> {
    Err(Stop::Refused(code, name, None))
}

fn name<T>(code: u8, name: &'static str, number: i64) -> Done<T> {
    Err(Stop::Refused(code, name, Some(number)))
}

fn check(fine: bool, code: u8, name: &'static str) -> Done<()> {
    if fine {
        Ok(())
    } else {
        refuse(code, name)
    }
}

/// Year, month and day.
fn day(text: &str) -> Done<(i64, i64, i64)> {
    let part = |from: usize, to: usize| text.get(from..to).and_then(|digits| digits.parse().ok()).ok_or(Stop::Shape);
    Ok((part(0, 4)?, part(5, 7)?, part(8, 10)?))
}

/// The same day of the month so many months on, or the last of that month.
fn months_after(text: &str, months: i64) -> Done<String> {
    let (year, month, date) = day(text)?;
    let (year, month) = (year + (month - 1 + months) / 12, (month - 1 + months) % 12 + 1);
    let leap = (year % 4 == 0 && year % 100 != 0 || year % 400 == 0) as i64;
    let last = match month {
        2 => 28 + leap,
        4 | 6 | 9 | 11 => 30,
        _ => 31,
    };
    Ok(format!("{:04}-{:02}-{:02}", year, month, date.min(last)))
}

macro_rules! statements {
    ($($name:ident = $text:expr;)*) => {
        /// The statements of requests, each prepared once.
        struct Statements<'c> { $($name: Statement<'c>,)* }

        impl<'c> Statements<'c> {
            fn prepare(database: &'c Connection) -> rusqlite::Result<Self> {
                Ok(Statements { $($name: database.prepare($text)?,)* })
            }
        }
    };
}

statements! {
    begin = "BEGIN";
    commit = "COMMIT";
    receipt = "SELECT command, kind, n1, n2, n3 FROM receipt WHERE caller = ? AND key = ?";
    add_receipt = "INSERT INTO receipt VALUES (?, ?, ?, ?, ?, ?, ?)";
    set_serial = "UPDATE meta SET next_serial = ?";
    set_account = "UPDATE meta SET next_account = ?";
    set_cancellation = "UPDATE meta SET next_cancellation = ?";
    add_peer = "INSERT INTO peer VALUES (?)";
    holder = "SELECT 1 FROM holder WHERE code = ?";
    add_holder = "INSERT INTO holder VALUES (?, ?)";
    account = "SELECT holder, closed FROM account WHERE number = ?";
    add_account = "INSERT INTO account VALUES (?, ?, 0)";
    device = "SELECT account, country, site, tech, source, capacity_w, commissioned, support, last_day, carry FROM device WHERE gsrn = ?";
    add_device = "INSERT INTO device VALUES (?, ?, ?, ?, ?, ?, ?, ?, ?, NULL, 0)";
    set_device = "UPDATE device SET last_day = ?, carry = ? WHERE gsrn = ?";
    add_declaration = "INSERT INTO declaration VALUES (NULL, ?, ?, ?, ?, ?)";
    add_lot = "INSERT INTO lot VALUES (NULL, ?, ?, ?, ?, ?, ?, ?, ?, ?, ?, ?, ?, ?)";
    lot = "SELECT last_day FROM lot WHERE id = ?";
    add_cancellation = "INSERT INTO cancellation VALUES (?, ?, ?, ?, ?, ?, ?, ?)";
    pieces = "SELECT first, last, lot, kind, account, act FROM piece WHERE first >= ifnull((SELECT max(first) FROM piece WHERE first < ?1), 0) AND first <= ?2 + 1 ORDER BY first";
    add_piece = "INSERT INTO piece VALUES (?, ?, ?, ?, ?, ?)";
    drop_piece = "DELETE FROM piece WHERE first = ?";
    cut_piece = "UPDATE piece SET last = ? WHERE first = ?";
    set_piece = "UPDATE piece SET last = ?, kind = ?, account = ?, act = ? WHERE first = ?";
}

#[derive(Clone)]
struct Account {
    holder: String,
    closed: bool,
}

/// A device, and how far it is declared.
struct Device {
    account: i64,
    country: String,
    site: String,
    tech: String,
    source: String,
    capacity: i64,
    commissioned: String,
    support: String,
    declared_to: Option<String>,
    carry: i64,
}

/// The next numbers.
#[derive(Clone, Copy)]
struct Next {
    serial: i64,
    account: i64,
    cancellation: i64,
}

/// A registry whose file is this program's alone: what it has read, and what it has written, it knows.
struct Plain<'c> {
    database: &'c Connection,
    statements: Statements<'c>,
    next: Next,
    accounts: HashMap<i64, Account>,
    devices: HashMap<String, Device>,
    trade_ends: HashMap<i64, String>,
}

fn open(create: &str, path: Option<String>) -> rusqlite::Result<Connection> {
    let database = match path {
        None => Connection::open_in_memory()?,
        Some(path) => {
            let database = Connection::open(path)?;
            database.pragma_update(None, "page_size", PAGE)?;
            database.pragma_update(None, "locking_mode", "EXCLUSIVE")?;
            database.pragma_update(None, "journal_mode", "WAL")?;
            database.pragma_update(None, "wal_autocheckpoint", LOG_PAGES)?;
            database.pragma_update(None, "synchronous", "FULL")?;
            database
        }
    };
    let tables: i64 = database.query_row("SELECT count(*) FROM sqlite_master", [], |row| row.get(0))?;
    if tables == 0 {
        for statement in create.split('"').filter(|text| text.starts_with("CREATE ")) {
            database.execute_batch(statement)?;
        }
        database.execute("INSERT INTO meta VALUES (1, 2, ?, ?, 1, 1, 1, 1, 1)", params![CODE, TODAY])?;
    }
    Ok(database)
}

fn put(statement: &mut Statement, values: impl Params) -> Done<()> {
    statement.execute(values)?;
    Ok(())
}

impl<'c> Plain<'c> {
    fn of(database: &'c Connection) -> rusqlite::Result<Self> {
        let next = database.query_row("SELECT next_serial, next_account, next_cancellation FROM meta", [], |row| {
            Ok(Next { serial: row.get(0)?, account: row.get(1)?, cancellation: row.get(2)? })
        })?;
        let statements = Statements::prepare(database)?;
        Ok(Plain { database, statements, next, accounts: HashMap::new(), devices: HashMap::new(), trade_ends: HashMap::new() })
    }

    /// Begins the change of a request, once all its checks have passed.
    fn begin(&mut self) -> Done<()> {
        put(&mut self.statements.begin, [])
    }

    fn account(&mut self, number: i64) -> Done<Option<&Account>> {
        Ok(Some(match self.accounts.entry(number) {
            Entry::Occupied(known) => known.into_mut(),
            Entry::Vacant(place) => {
                let read = |row: &rusqlite::Row| Ok(Account { holder: row.get(0)?, closed: row.get(1)? });
                match self.statements.account.query_row([number], read).optional()? {
                    Some(found) => place.insert(found),
                    None => return Ok(None),
                }
            }
        }))
    }

    fn is_open(&mut self, number: i64) -> Done<()> {
        match self.account(number)? {
            None => refuse(5, "UnknownAccount"),
            Some(account) => check(!account.closed, 6, "AccountClosed"),
        }
    }

    fn is_holder(&mut self, caller: &str, number: i64) -> Done<()> {
        let is_his = self.account(number)?.map_or(false, |account| account.holder == caller);
        check(is_his, 1, "NotAllowed")
    }

    fn is_known(&mut self, holder: &str) -> Done<bool> {
        Ok(self.statements.holder.exists([holder])?)
    }

    /// The device is among those that are kept, if there is one of this number.
    fn find_device(&mut self, gsrn: &str) -> Done<bool> {
        if self.devices.contains_key(gsrn) {
            return Ok(true);
        }
        let found = self.statements.device.query_row([gsrn], |row| {
            Ok(Device {
                account: row.get(0)?,
                country: row.get(1)?,
                site: row.get(2)?,
                tech: row.get(3)?,
                source: row.get(4)?,
                capacity: row.get(5)?,
                commissioned: row.get(6)?,
                support: row.get(7)?,
                declared_to: row.get(8)?,
                carry: row.get(9)?,
            })
        });
        Ok(match found.optional()? {
            Some(device) => self.devices.insert(gsrn.into(), device).is_none(),
            None => false,
        })
    }

    /// The last day on which certificates of a lot are traded.
    fn trade_end(&mut self, lot: i64) -> Done<&str> {
        Ok(match self.trade_ends.entry(lot) {
            Entry::Occupied(known) => known.into_mut(),
            Entry::Vacant(place) => {
                let ended: String = self.statements.lot.query_row([lot], |row| row.get(0))?;
                place.insert(months_after(&ended, 12)?)
            }
        })
    }

    /// The outcome of one request: of one transaction, where anything is written.
    fn answer(&mut self, caller: &str, of: &Request) -> Done<String> {
        let (key, command) = (of.text("key")?, of.command());
        let kept = self.statements.receipt.query_row([caller, key], |row| {
            Ok((row.get_ref(0)?.as_blob()? == command, (row.get(1)?, row.get(2)?, row.get(3)?, row.get(4)?)))
        });
        match kept.optional()? {
            Some((true, reply)) => Ok(outcome("repeated", reply)),
            Some((false, _)) => refuse(2, "KeyReused"),
            None => {
                let reply = self.apply(caller, of)?;
                put(&mut self.statements.add_receipt, params![caller, key, command, reply.0, reply.1, reply.2, reply.3])?;
                put(&mut self.statements.commit, [])?;
                Ok(outcome("accepted", reply))
            }
        }
    }

    fn apply(&mut self, caller: &str, of: &Request) -> Done<Reply> {
        match of.text("command")? {
            "transfer" => self.transfer(caller, of),
            "cancel" => self.cancel(caller, of),
            "open_holder" | "open_account" | "register_device" | "declare" | "add_peer" if caller != "ISSUER" => refuse(1, "NotAllowed"),
            "open_holder" => self.open_holder(of),
            "open_account" => self.open_account(of),
            "register_device" => self.register_device(of),
            "declare" => self.declare(of),
            "add_peer" => {
                self.begin()?;
                put(&mut self.statements.add_peer, [of.integer("peer")?])?;
                Ok((1, 0, 0, 0))
            }
            _ => Err(Stop::Shape),
        }
    }

    fn open_holder(&mut self, of: &Request) -> Done<Reply> {
        let (holder, called) = (of.text("holder")?, of.text("name")?);
        check(!self.is_known(holder)?, 4, "HolderExists")?;
        self.begin()?;
        put(&mut self.statements.add_holder, [holder, called])?;
        Ok((1, 0, 0, 0))
    }

    fn open_account(&mut self, of: &Request) -> Done<Reply> {
        let (holder, account) = (of.text("holder")?, self.next.account);
        check(self.is_known(holder)?, 3, "UnknownHolder")?;
        check(account <= LAST_ACT, 15, "NumbersExhausted")?;
        self.begin()?;
        self.next.account += 1;
        put(&mut self.statements.set_account, [self.next.account])?;
        put(&mut self.statements.add_account, params![account, holder])?;
        Ok((2, account, 0, 0))
    }

    fn register_device(&mut self, of: &Request) -> Done<Reply> {
        let (device, account) = (of.text("device")?, of.integer("account")?);
        check(!self.find_device(device)?, 8, "DeviceExists")?;
        self.is_open(account)?;
        let (country, site, tech, source) = (of.text("country")?, of.text("site")?, of.text("tech")?, of.text("source")?);
        let (capacity, commissioned, support) = (of.integer("capacity_w")?, of.text("commissioned")?, of.text("support")?);
        self.begin()?;
        put(&mut self.statements.add_device, params![device, account, country, site, tech, source, capacity, commissioned, support])?;
        Ok((1, 0, 0, 0))
    }

    fn declare(&mut self, of: &Request) -> Done<Reply> {
        let (gsrn, first_day, last_day) = (of.text("device")?, of.text("first_day")?, of.text("last_day")?);
        let (gross, aux) = (of.integer("gross_wh")?, of.integer("aux_wh")?);
        check(self.find_device(gsrn)?, 9, "UnknownDevice")?;
        let account = self.devices[gsrn].account;
        self.is_open(account)?;
        let device = self.devices.get_mut(gsrn).ok_or(Stop::Shape)?;
        let (begins, ends, expires_on) = (day(first_day)?, day(last_day)?, months_after(last_day, 18)?);
        check(begins <= ends && (begins.0, begins.1) == (ends.0, ends.1), 12, "PeriodSpan")?;
        check(last_day < TODAY, 28, "FuturePeriod")?;
        check(*device.commissioned <= *first_day, 10, "BeforeCommissioning")?;
        check(device.declared_to.as_deref().map_or(true, |last| last < first_day), 11, "PeriodOrder")?;
        check(*expires_on >= *TODAY, 27, "Stale")?;
        check(aux <= gross, 13, "AuxExceedsGross")?;
        check(i128::from(gross - aux) <= i128::from(device.capacity) * i128::from(24 * (ends.2 - begins.2 + 1) + 1), 14, "OverCapacity")?;
        let (due, carry) = ((device.carry + gross - aux) / MWH, (device.carry + gross - aux) % MWH);
        let (first, last) = (CODE * FIRST_OF_CODE + self.next.serial, CODE * FIRST_OF_CODE + self.next.serial + due - 1);
        check(self.next.serial + due <= FIRST_OF_CODE, 15, "NumbersExhausted")?;
        put(&mut self.statements.begin, [])?;
        put(&mut self.statements.add_declaration, params![gsrn, first_day, last_day, gross, aux])?;
        put(&mut self.statements.set_device, params![last_day, carry, gsrn])?;
        device.declared_to = Some(last_day.into());
        device.carry = carry;
        if due == 0 {
            return Ok((3, carry, 0, 0));
        }
        self.next.serial += due;
        put(&mut self.statements.set_serial, [self.next.serial])?;
        let lot = self.statements.add_lot.insert(params![
            CODE, gsrn, device.country, device.site, device.tech, device.source, device.capacity, device.commissioned, device.support, first_day, last_day, expires_on, TODAY
        ])?;
        put(&mut self.statements.add_piece, [first, last, lot, HELD, account, 0])?;
        Ok((3, carry, first, last))
    }

    /// The pieces that meet a range, with those that lie next to it, in order.
    fn pieces(&mut self, first: i64, last: i64) -> rusqlite::Result<Vec<Piece>> {
        let found = self.statements.pieces.query_map([first, last], |row| {
            Ok(Piece { first: row.get(0)?, last: row.get(1)?, lot: row.get(2)?, place: (row.get(3)?, row.get(4)?, row.get(5)?) })
        })?;
        found.collect()
    }

    /// The pieces of a range that an account holds whole, with those next to it.
    fn held(&mut self, first: i64, last: i64, account: i64) -> Done<Vec<Piece>> {
        let pieces = self.pieces(first, last)?;
        let met = || pieces.iter().filter(|piece| piece.meets(first, last));
        let mut next = first;
        for piece in met() {
            if piece.first > next {
                break;
            }
            next = piece.last + 1;
        }
        if next <= last {
            return name(16, "UnknownNumber", next);
        }
        match met().find(|piece| (piece.place.0, piece.place.1) != (HELD, account)) {
            Some(piece) => name(17, "NotHeld", piece.first.max(first)),
            None => Ok(pieces),
        }
    }

    /// Gives a range another place, in as few rows as can be.
    fn place(&mut self, old: &[Piece], first: i64, last: i64, place: (i64, i64, i64)) -> Done<()> {
        let mut new: Vec<Piece> = Vec::with_capacity(old.len() + 2);
        for piece in old {
            let before = Piece { last: piece.last.min(first - 1), ..*piece };
            let within = Piece { first: piece.first.max(first), last: piece.last.min(last), place, ..*piece };
            let after = Piece { first: piece.first.max(last + 1), ..*piece };
            for part in [before, within, after].iter().filter(|part| part.first <= part.last) {
                match new.last_mut() {
                    Some(one) if (one.last + 1, one.lot, one.place) == (part.first, part.lot, part.place) => one.last = part.last,
                    _ => new.push(*part),
                }
            }
        }
        for piece in old.iter().filter(|piece| !new.iter().any(|one| one.first == piece.first)) {
            put(&mut self.statements.drop_piece, [piece.first])?;
        }
        for piece in &new {
            let (kind, account, act) = piece.place;
            match old.iter().find(|one| one.first == piece.first) {
                Some(one) if one == piece => {}
                Some(one) if one.place == piece.place => put(&mut self.statements.cut_piece, [piece.last, piece.first])?,
                Some(_) => put(&mut self.statements.set_piece, [piece.last, kind, account, act, piece.first])?,
                None => put(&mut self.statements.add_piece, [piece.first, piece.last, piece.lot, kind, account, act])?,
            };
        }
        Ok(())
    }

    fn transfer(&mut self, caller: &str, of: &Request) -> Done<Reply> {
        let (giver, taker, first, last) = (of.integer("giver")?, of.integer("taker")?, of.number("first")?, of.number("last")?);
        self.is_holder(caller, giver)?;
        check(giver != taker, 19, "SameAccount")?;
        self.is_open(taker)?;
        let pieces = self.held(first, last, giver)?;
        for piece in pieces.iter().filter(|piece| piece.meets(first, last)) {
            if self.trade_end(piece.lot)? < TODAY {
                return name(18, "TradeClosed", piece.first.max(first));
            }
        }
        self.begin()?;
        self.place(&pieces, first, last, (HELD, taker, 0))?;
        Ok((4, last - first + 1, 0, 0))
    }

    fn cancel(&mut self, caller: &str, of: &Request) -> Done<Reply> {
        let (account, first, last) = (of.integer("account")?, of.number("first")?, of.number("last")?);
        let (use_first, use_last, beneficiary) = (of.text("use_first")?, of.text("use_last")?, of.text("beneficiary")?);
        self.is_holder(caller, account)?;
        check(use_first <= use_last, 29, "UsePeriod")?;
        let pieces = self.held(first, last, account)?;
        let act = self.next.cancellation;
        check(act <= LAST_ACT, 15, "NumbersExhausted")?;
        self.begin()?;
        self.next.cancellation += 1;
        put(&mut self.statements.set_cancellation, [self.next.cancellation])?;
        put(&mut self.statements.add_cancellation, params![act, account, first, last, beneficiary, use_first, use_last, TODAY])?;
        self.place(&pieces, first, last, (CANCELLED, account, act))?;
        Ok((5, act, last - first + 1, 0))
    }

    /// The outcome line of one request line.
    fn line(&mut self, line: &str) -> Result<String, rusqlite::Error> {
        let read = line.split_once(' ').map(|(caller, body)| (caller, serde_json::from_str::<Request>(body)));
        let (caller, of) = match read {
            Some((caller, Ok(of))) => (caller, of),
            _ => return Ok(UNREADABLE.into()),
        };
        match self.answer(caller, &of) {
            Ok(text) => Ok(text),
            Err(Stop::Shape) => Ok(UNREADABLE.into()),
            Err(Stop::Refused(code, name, None)) => Ok(format!(r#"{{"code":{},"name":"{}","outcome":"refused"}}"#, code, name)),
            Err(Stop::Refused(code, name, Some(number))) => {
                Ok(format!(r#"{{"code":{},"name":"{}","number":"{:014}","outcome":"refused"}}"#, code, name, number))
            }
            Err(Stop::Failed(error)) => Err(error),
        }
    }
}

fn outcome(word: &str, (kind, one, two, three): Reply) -> String {
    let mut text = String::with_capacity(128);
    let written = match kind {
        2 => write!(text, r#"{{"outcome":"{}","reply":{{"account":{}}}}}"#, word, one),
        3 if two == 0 => write!(text, r#"{{"outcome":"{}","reply":{{"carry":{},"count":0}}}}"#, word, one),
        3 => {
            let count = three - two + 1;
            write!(text, r#"{{"outcome":"{}","reply":{{"carry":{},"count":{},"first":"{:014}","last":"{:014}"}}}}"#, word, one, count, two, three)
        }
        4 => write!(text, r#"{{"outcome":"{}","reply":{{"count":{}}}}}"#, word, one),
        5 => write!(text, r#"{{"outcome":"{}","reply":{{"cancellation":{},"count":{}}}}}"#, word, one, two),
        _ => write!(text, r#"{{"outcome":"{}","reply":{{}}}}"#, word),
    };
    written.expect("a String takes what is written");
    text
}

/// A request over HTTP: what the measurements send, and no more.
struct Asked {
    target: String,
    caller: String,
    body: String,
    closes: bool,
}

/// The next request of a connection, or none where the client is done.
fn asked(stream: &mut impl BufRead) -> std::io::Result<Option<Asked>> {
    let (mut line, mut length) = (String::new(), 0);
    if stream.read_line(&mut line)? == 0 {
        return Ok(None);
    }
    let target = line.split(' ').nth(1).unwrap_or("").to_string();
    let mut asked = Asked { target, caller: String::new(), body: String::new(), closes: false };
    loop {
        line.clear();
        stream.read_line(&mut line)?;
        match line.trim_end().split_once(": ") {
            None => break,
            Some((name, value)) if name.eq_ignore_ascii_case("Content-Length") => length = value.parse().unwrap_or(0),
            Some((name, value)) if name.eq_ignore_ascii_case("GOO-Caller") => asked.caller = value.to_string(),
            Some((name, value)) if name.eq_ignore_ascii_case("Connection") => asked.closes = value.eq_ignore_ascii_case("close"),
            Some(_) => {}
        }
    }
    let mut body = vec![0; length];
    stream.read_exact(&mut body)?;
    asked.body = String::from_utf8_lossy(&body).into_owned();
    Ok(Some(asked))
}

impl Plain<'_> {
    /// What is shown of a certificate to the holder of its account and to the issuing body.
    fn certificate(&mut self, caller: &str, number: i64) -> rusqlite::Result<Option<String>> {
        let statement = "SELECT account, act, kind, capacity_w, commissioned, country, device, first_day, issued_on, last_day, origin, site, source, support, tech \
                         FROM piece JOIN lot ON lot.id = piece.lot WHERE first <= ?1 AND ?1 <= last ORDER BY first DESC LIMIT 1";
        let found = self.database.prepare_cached(statement)?.query_row([number], |row| {
            let text = |at| row.get::<_, String>(at);
            let lot = format!(
                r#"{{"capacity_w":{},"commissioned":"{}","country":"{}","device":"{}","first_day":"{}","issued_on":"{}","last_day":"{}","origin":{},"site":"{}","source":"{}","support":"{}","tech":"{}"}}"#,
                row.get::<_, i64>(3)?, text(4)?, text(5)?, text(6)?, text(7)?, text(8)?, text(9)?, row.get::<_, i64>(10)?, text(11)?, text(12)?, text(13)?, text(14)?
            );
            let (account, act, kind) = (row.get::<_, i64>(0)?, row.get::<_, i64>(1)?, row.get::<_, i64>(2)?);
            let place = PLACES[kind as usize - 1];
            Ok((account, format!(r#"{{"account":{},"act":{},"lot":{},"number":"{:014}","place":"{}"}}"#, account, act, lot, number, place)))
        });
        match found.optional()? {
            Some((account, shown)) if caller == "ISSUER" || self.is_of(caller, account) => Ok(Some(shown)),
            _ => Ok(None),
        }
    }

    fn is_of(&mut self, caller: &str, account: i64) -> bool {
        self.is_holder(caller, account).is_ok()
    }

    /// Writes the statement of an account: a line for each row that names it.
    fn statement(&mut self, account: i64) -> Result<(), Box<dyn std::error::Error>> {
        let mut out = std::io::BufWriter::new(std::io::stdout().lock());
        let Account { holder, closed } = match self.account(account) {
            Ok(Some(found)) => found.clone(),
            _ => return Err("no such account".into()),
        };
        let today: String = self.database.query_row("SELECT today FROM meta", [], |row| row.get(0))?;
        writeln!(out, "STATEMENT\nregistry {:02}\ndate {}\naccount {}\nholder {}\nstatus {}", CODE, today, account, holder, if closed { "closed" } else { "open" })?;
        let mut sums = [0; PLACES.len()];
        let mut named = self.database.prepare_cached(
            "SELECT first, last, device, first_day, last_day, tech, source, kind, act FROM piece JOIN lot ON lot.id = piece.lot WHERE account = ? ORDER BY first",
        )?;
        let mut rows = named.query([account])?;
        while let Some(row) = rows.next()? {
            let (first, last, kind, act): (i64, i64, usize, i64) = (row.get(0)?, row.get(1)?, row.get(7)?, row.get(8)?);
            let text = |at| row.get_ref(at).and_then(|cell| Ok(cell.as_str()?));
            write!(out, "{:014} {:014} {:12} {} {} {} {} {} {}", first, last, last - first + 1, text(2)?, text(3)?, text(4)?, text(5)?, text(6)?, PLACES[kind - 1])?;
            if act > 0 {
                write!(out, ":{}", act)?;
            }
            writeln!(out)?;
            sums[kind - 1] += last - first + 1;
        }
        for (place, sum) in PLACES.iter().zip(sums) {
            writeln!(out, "{} {}", place, sum)?;
        }
        writeln!(out, "END")?;
        Ok(out.flush()?)
    }

    /// Answers the requests of a connection until the client is done.
    fn converse(&mut self, stream: TcpStream) -> Result<(), Box<dyn std::error::Error>> {
        stream.set_nodelay(true)?;
        let (mut input, mut output) = (BufReader::new(stream.try_clone()?), stream);
        while let Some(asked) = asked(&mut input)? {
            let number = asked.target.strip_prefix("/v1/certificates/").and_then(|text| text.parse().ok());
            let text = match number {
                Some(number) => self.certificate(&asked.caller, number)?,
                None => Some(self.line(&format!("{} {}", asked.caller, asked.body))?),
            };
            let status = match &text {
                None => "404 Not Found",
                Some(text) if text.ends_with(r#""refused"}"#) => "409 Conflict",
                Some(text) if text.ends_with(r#""unreadable"}"#) => "400 Bad Request",
                Some(_) => "200 OK",
            };
            let (text, goes_on) = (text.unwrap_or_default(), if asked.closes { "close" } else { "keep-alive" });
            let head = format!("HTTP/1.1 {}\r\nContent-Type: application/json\r\nContent-Length: {}\r\nConnection: {}\r\n\r\n", status, text.len(), goes_on);
            output.write_all((head + &text).as_bytes())?;
            if asked.closes {
                break;
            }
        }
        Ok(())
    }

    /// Serves one connection after another; a client that goes away in the middle is none of the others' matter.
    fn serve(&mut self, port: &str) -> Result<(), Box<dyn std::error::Error>> {
        let listener = TcpListener::bind(("127.0.0.1", port.parse()?))?;
        println!("listening 127.0.0.1:{}", port);
        for stream in listener.incoming() {
            let _ = self.converse(stream?);
        }
        Ok(())
    }

    /// Answers lines; whether all were accepted.
    fn run<T: AsRef<str>>(&mut self, lines: impl Iterator<Item = std::io::Result<T>>) -> Result<bool, Box<dyn std::error::Error>> {
        let (mut out, mut all_accepted) = (std::io::BufWriter::new(std::io::stdout().lock()), true);
        for line in lines {
            let line = line?;
            if !line.as_ref().is_empty() {
                let outcome = self.line(line.as_ref())?;
                all_accepted &= !outcome.ends_with(r#""refused"}"#) && !outcome.ends_with(r#""unreadable"}"#);
                writeln!(out, "{}", outcome)?;
            }
        }
        out.flush()?;
        Ok(all_accepted)
    }
}

fn main() -> Result<(), Box<dyn std::error::Error>> {
    let mut words: Vec<String> = std::env::args().skip(1).collect();
    let port = words.iter().position(|word| word == "--serve").map(|at| words.drain(at..).nth(1).unwrap_or_default());
    let account = words.iter().position(|word| word == "--statement").map(|at| words.drain(at..).nth(1).unwrap_or_default());
    let as_it_comes = words.iter().position(|word| word == "--as-it-comes").map(|at| words.remove(at)).is_some();
    let create = std::fs::read_to_string(words.first().ok_or("usage: plain CREATE [DATABASE] [--as-it-comes] [--serve PORT] [--statement ACCOUNT]")?)?;
    let database = open(&create, words.get(1).cloned())?;
    let mut plain = Plain::of(&database)?;
    if let Some(port) = port {
        return plain.serve(&port);
    }
    if let Some(account) = account {
        return plain.statement(account.parse()?);
    }
    let all_accepted = if as_it_comes {
        plain.run(std::io::stdin().lock().lines())?
    } else {
        let mut input = String::new();
        std::io::stdin().lock().read_to_string(&mut input)?;
        plain.run(input.lines().map(Ok))?
    };
    std::process::exit(if all_accepted { 0 } else { 1 })
}
