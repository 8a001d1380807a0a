-- Accounts with rules and a key, and what commands do that change them.
CREATE TABLE account (
    id integer PRIMARY KEY,
    owner text NOT NULL,
    balance bigint NOT NULL DEFAULT 0 CHECK (balance >= 0),
    is_closed boolean DEFAULT FALSE
);
INSERT INTO account (id, owner, balance) VALUES (1, 'Ada', 100), (2, 'Ben', 50);
INSERT INTO account VALUES (3, 'Cy', DEFAULT, DEFAULT) RETURNING *;
UPDATE account SET balance = balance - 70 WHERE id = 1 RETURNING id, balance;
UPDATE account SET balance = balance - 40;                            -- Ada has 30 left: nobody pays
INSERT INTO account VALUES (4, 'Di', 5, FALSE), (2, 'Ed', 5, FALSE);  -- 2 is Ben's: neither row comes
INSERT INTO account VALUES (5, NULL, 1, FALSE);                       -- each has an owner
SELECT id, owner, balance FROM account ORDER BY id;
CREATE TABLE note (id integer, line text);
INSERT INTO note SELECT id, owner || ' has ' || balance::text FROM account WHERE balance > 0
    ORDER BY id RETURNING line;
DELETE FROM account WHERE balance = 0 RETURNING owner;
DROP TABLE IF EXISTS letter;                                          -- there is none: a notice
DROP TABLE note;
SELECT * FROM note;
UPDATE account SET is_closed = TRUE, balance = 0 WHERE EXISTS (SELECT 1 FROM account AS a WHERE a.balance > 40);
SELECT * FROM account ORDER BY id;
