-- A ledger: no account goes below zero, and a transfer is done whole or not at all.

CREATE TABLE account (name text PRIMARY KEY, balance integer NOT NULL CHECK (balance >= 0));
CREATE TABLE posting (id integer PRIMARY KEY, debtor text NOT NULL, creditor text NOT NULL, amount integer NOT NULL CHECK (amount > 0));
INSERT INTO account VALUES ('bank', 1000), ('rent', 0), ('till', 500);

CREATE FUNCTION book(from_account text, to_account text, cents integer) RETURNS integer LANGUAGE plpgsql AS $$
DECLARE
    next_id integer;
BEGIN
    UPDATE account SET balance = balance + cents WHERE name = to_account;
    IF NOT FOUND THEN
        RAISE EXCEPTION 'there is no account %', to_account USING ERRCODE = 'no_data_found';
    END IF;
    -- The CHECK of the table refuses an overdraft, behind the credit above.
    UPDATE account SET balance = balance - cents WHERE name = from_account;
    SELECT count(*) + 1 INTO next_id FROM posting;
    INSERT INTO posting VALUES (next_id, from_account, to_account, cents);
    RETURN next_id;
END
$$;

-- The same, with an answer in place of an error. The handler undoes exactly what its block did.
CREATE FUNCTION transfer(from_account text, to_account text, cents integer) RETURNS text LANGUAGE plpgsql AS $$
DECLARE
    made integer;
BEGIN
    made := book(from_account, to_account, cents);
    RETURN 'posting ' || CAST(made AS text);
EXCEPTION
    WHEN check_violation THEN
        RETURN 'refused: ' || from_account || ' has too little';
    WHEN no_data_found THEN
        RETURN 'refused: ' || SQLERRM;
END
$$;

SELECT transfer('bank', 'rent', 800);
SELECT transfer('till', 'rent', 800);
SELECT transfer('till', 'rents', 100);
SELECT transfer('till', 'rent', 100);

SELECT name, balance FROM account ORDER BY name;
SELECT id, debtor, creditor, amount FROM posting ORDER BY id;

-- Money is neither made nor lost.
DO $$
DECLARE
    total integer;
BEGIN
    SELECT sum(balance) INTO total FROM account;
    ASSERT total = 1500, 'the balances don''t add up';
    RAISE NOTICE 'the balances add up to %', total;
END
$$;
