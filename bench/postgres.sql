-- The writes and checks of the registry for declarations and trades, as functions of PostgreSQL: what a user could pick instead. For bench/postgres.py.
CREATE TABLE meta (today date, next_serial bigint, next_cancellation bigint, next_account bigint);
INSERT INTO meta VALUES ('2025-03-01', 1, 1, 1);
CREATE TABLE holder (code text PRIMARY KEY, name text NOT NULL);
CREATE TABLE account (number bigint PRIMARY KEY, holder text NOT NULL REFERENCES holder, closed boolean NOT NULL);
CREATE TABLE device (gsrn text PRIMARY KEY, account bigint NOT NULL REFERENCES account, country text NOT NULL, site text NOT NULL, tech text NOT NULL, source text NOT NULL,
    capacity_w bigint NOT NULL, commissioned date NOT NULL, support text NOT NULL, last_day date, carry bigint NOT NULL);
CREATE TABLE declaration (id bigserial PRIMARY KEY, device text NOT NULL REFERENCES device, first_day date NOT NULL, last_day date NOT NULL, gross bigint NOT NULL, aux bigint NOT NULL);
CREATE TABLE lot (id bigserial PRIMARY KEY, device text NOT NULL REFERENCES device, first_day date NOT NULL, last_day date NOT NULL, issued_on date NOT NULL);
CREATE TABLE piece (first bigint PRIMARY KEY, last bigint NOT NULL, lot bigint NOT NULL REFERENCES lot, kind int NOT NULL, account bigint NOT NULL, act bigint NOT NULL);
CREATE INDEX piece_by_account ON piece (account, first);
CREATE INDEX piece_by_kind ON piece (kind, first);
CREATE TABLE cancellation (number bigint PRIMARY KEY, account bigint NOT NULL, first bigint NOT NULL, last bigint NOT NULL, beneficiary text NOT NULL,
    use_first date NOT NULL, use_last date NOT NULL, day date NOT NULL);
CREATE TABLE receipt (caller text, key text, command bytea NOT NULL, kind int NOT NULL, n1 bigint NOT NULL, n2 bigint NOT NULL, n3 bigint NOT NULL, PRIMARY KEY (caller, key));

CREATE FUNCTION must(holds boolean, refusal text) RETURNS void LANGUAGE plpgsql AS $$
BEGIN
    IF holds IS NOT TRUE THEN RAISE EXCEPTION '%', refusal; END IF;
END $$;

-- The pieces of a range that an account holds whole, and that may still be traded, go to another place; neighbours that are alike become one row.
CREATE FUNCTION place(giver bigint, low bigint, high bigint, new_kind int, new_account bigint, new_act bigint) RETURNS void LANGUAGE plpgsql AS $$
DECLARE
    one piece;
    met int;
    known bigint := 0;
    merged piece;
BEGIN
    FOR one IN SELECT * FROM piece WHERE first >= coalesce((SELECT max(first) FROM piece WHERE first <= low), 0) AND first <= high ORDER BY first LOOP
        PERFORM must(one.kind = 1 AND one.account = giver, 'NotHeld');
        known := known + least(one.last, high) - greatest(one.first, low) + 1;
        DELETE FROM piece WHERE first = one.first;
        IF one.first < low THEN INSERT INTO piece VALUES (one.first, low - 1, one.lot, one.kind, one.account, one.act); END IF;
        IF one.last > high THEN INSERT INTO piece VALUES (high + 1, one.last, one.lot, one.kind, one.account, one.act); END IF;
        INSERT INTO piece VALUES (greatest(one.first, low), least(one.last, high), one.lot, new_kind, new_account, new_act);
    END LOOP;
    PERFORM must(known = high - low + 1, 'UnknownNumber');
    SELECT * INTO merged FROM piece WHERE first = (SELECT max(first) FROM piece WHERE first <= low);
    SELECT * INTO one FROM piece WHERE first = (SELECT max(first) FROM piece WHERE first < merged.first);
    IF one.last = merged.first - 1 AND (one.lot, one.kind, one.account, one.act) = (merged.lot, merged.kind, merged.account, merged.act) THEN
        DELETE FROM piece WHERE first = merged.first;
        UPDATE piece SET last = merged.last WHERE first = one.first;
        merged.first := one.first;
    END IF;
    SELECT * INTO one FROM piece WHERE first = merged.last + 1;
    IF (one.lot, one.kind, one.account, one.act) = (merged.lot, merged.kind, merged.account, merged.act) THEN
        DELETE FROM piece WHERE first = one.first;
        UPDATE piece SET last = one.last WHERE first = merged.first;
    END IF;
END $$;

CREATE FUNCTION apply(caller text, key text, command jsonb) RETURNS text LANGUAGE plpgsql AS $$
#variable_conflict use_variable
DECLARE
    text_of bytea := convert_to(command::text, 'UTF8');
    kept receipt;
    plant device;
    day date := (SELECT today FROM meta);
    due bigint;
    taken bigint := 0;
    lot_id bigint;
BEGIN
    SELECT * INTO kept FROM receipt r WHERE r.caller = caller AND r.key = key;
    IF FOUND THEN
        PERFORM must(kept.command = text_of, 'KeyReused');
        RETURN 'repeated';
    END IF;
    CASE command->>'command'
    WHEN 'open_holder' THEN
        PERFORM must(caller = 'ISSUER', 'NotAllowed');
        INSERT INTO holder VALUES (command->>'holder', command->>'name');
    WHEN 'open_account' THEN
        PERFORM must(caller = 'ISSUER', 'NotAllowed');
        UPDATE meta SET next_account = next_account + 1 RETURNING next_account - 1 INTO taken;
        INSERT INTO account VALUES (taken, command->>'holder', false);
    WHEN 'register_device' THEN
        PERFORM must(caller = 'ISSUER', 'NotAllowed');
        INSERT INTO device VALUES (command->>'device', (command->>'account')::bigint, command->>'country', command->>'site', command->>'tech', command->>'source',
            (command->>'capacity_w')::bigint, (command->>'commissioned')::date, command->>'support', NULL, 0);
    WHEN 'declare' THEN
        PERFORM must(caller = 'ISSUER', 'NotAllowed');
        SELECT * INTO plant FROM device d WHERE d.gsrn = command->>'device';
        PERFORM must(plant.gsrn IS NOT NULL, 'UnknownDevice');
        PERFORM must(NOT (SELECT closed FROM account a WHERE a.number = plant.account), 'AccountClosed');
        PERFORM must((command->>'first_day')::date <= (command->>'last_day')::date AND (command->>'last_day')::date < day, 'FuturePeriod');
        PERFORM must((command->>'first_day')::date >= plant.commissioned, 'BeforeCommissioning');
        PERFORM must(plant.last_day IS NULL OR (command->>'first_day')::date > plant.last_day, 'PeriodOrder');
        PERFORM must((command->>'last_day')::date + interval '18 months' >= day, 'Stale');
        due := plant.carry + (command->>'gross_wh')::bigint - (command->>'aux_wh')::bigint;
        INSERT INTO declaration (device, first_day, last_day, gross, aux) VALUES (plant.gsrn, (command->>'first_day')::date, (command->>'last_day')::date,
            (command->>'gross_wh')::bigint, (command->>'aux_wh')::bigint);
        UPDATE device SET last_day = (command->>'last_day')::date, carry = due % 1000000 WHERE gsrn = plant.gsrn;
        due := due / 1000000;
        IF due > 0 THEN
            UPDATE meta SET next_serial = next_serial + due RETURNING 7000000000000 + next_serial - due INTO taken;
            INSERT INTO lot (device, first_day, last_day, issued_on) VALUES (plant.gsrn, (command->>'first_day')::date, (command->>'last_day')::date, day) RETURNING id INTO lot_id;
            INSERT INTO piece VALUES (taken, taken + due - 1, lot_id, 1, plant.account, 0);
        END IF;
    WHEN 'transfer' THEN
        PERFORM must(caller = (SELECT holder FROM account a WHERE a.number = (command->>'giver')::bigint), 'NotAllowed');
        PERFORM must(NOT (SELECT closed FROM account a WHERE a.number = (command->>'taker')::bigint), 'AccountClosed');
        PERFORM place((command->>'giver')::bigint, (command->>'first')::bigint, (command->>'last')::bigint, 1, (command->>'taker')::bigint, 0);
    WHEN 'cancel' THEN
        PERFORM must(caller = (SELECT holder FROM account a WHERE a.number = (command->>'account')::bigint), 'NotAllowed');
        UPDATE meta SET next_cancellation = next_cancellation + 1 RETURNING next_cancellation - 1 INTO taken;
        INSERT INTO cancellation VALUES (taken, (command->>'account')::bigint, (command->>'first')::bigint, (command->>'last')::bigint, command->>'beneficiary',
            (command->>'use_first')::date, (command->>'use_last')::date, day);
        PERFORM place((command->>'account')::bigint, (command->>'first')::bigint, (command->>'last')::bigint, 2, (command->>'account')::bigint, taken);
    END CASE;
    INSERT INTO receipt VALUES (caller, key, text_of, 0, taken, 0, 0);
    RETURN 'accepted';
END $$;
