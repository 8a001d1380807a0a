-- Bookings of seats in one transaction: a savepoint takes back what turns out wrong, and a handler
-- undoes just what its own block did.

CREATE TABLE seat (number integer PRIMARY KEY, holder text);
INSERT INTO seat VALUES (1, NULL), (2, 'Ann'), (3, NULL);

CREATE FUNCTION book(seat_number integer, who text) RETURNS text LANGUAGE plpgsql AS $$
BEGIN
    UPDATE seat SET holder = who WHERE number = seat_number AND holder IS NULL;
    IF NOT FOUND THEN
        RAISE EXCEPTION 'seat % is taken', seat_number;
    END IF;
    RETURN 'booked';
EXCEPTION
    WHEN raise_exception THEN
        RETURN SQLERRM;
END
$$;

BEGIN;
SELECT book(1, 'Bob') AS first, book(2, 'Bob') AS second;
SAVEPOINT two_seats;
UPDATE seat SET holder = 'Bob' WHERE number = 3;
INSERT INTO seat VALUES (3, 'Cid');
ROLLBACK TO two_seats;
COMMIT;
SELECT number, holder FROM seat ORDER BY number;
