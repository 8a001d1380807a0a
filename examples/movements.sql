-- Stock movements: goods come in and go out, and what is ordered is taken whole or not at all.

CREATE TABLE stock (item text PRIMARY KEY, pieces integer NOT NULL CHECK (pieces >= 0));
CREATE TABLE movement (id integer PRIMARY KEY, item text NOT NULL, pieces integer NOT NULL, note text);

CREATE FUNCTION move(what text, many integer, why text) RETURNS integer LANGUAGE plpgsql AS $$
DECLARE
    left_over integer;
    last_id integer;
BEGIN
    UPDATE stock SET pieces = pieces + many WHERE item = what RETURNING pieces INTO left_over;
    IF NOT FOUND THEN
        INSERT INTO stock VALUES (what, many) RETURNING pieces INTO left_over;
    END IF;
    SELECT max(id) INTO last_id FROM movement;
    IF last_id IS NULL THEN
        last_id := 0;
    END IF;
    INSERT INTO movement VALUES (last_id + 1, what, many, why);
    RETURN left_over;
END
$$;

SELECT move('bolt', 100, 'delivery'), move('nut', 90, 'delivery');

-- Sets of a bolt and two nuts are packed one by one until something runs out. The set that lacks
-- a nut gives its bolt back; the sets before it stay packed.
CREATE FUNCTION pack(wanted integer) RETURNS integer LANGUAGE plpgsql AS $$
DECLARE
    packed integer := 0;
BEGIN
    <<sets>>
    FOR n IN 1..wanted LOOP
        BEGIN
            PERFORM move('bolt', -1, 'set');
            PERFORM move('nut', -2, 'set');
            packed := packed + 1;
        EXCEPTION
            WHEN check_violation THEN
                RAISE NOTICE 'set % lacks a part', n;
                EXIT sets;
        END;
    END LOOP;
    RETURN packed;
END
$$;

SELECT pack(10);
SELECT pack(50);
SELECT item, pieces FROM stock ORDER BY item;
SELECT item, count(*), sum(pieces) FROM movement WHERE note = 'set' GROUP BY item ORDER BY item;

-- What is in stock is what was moved.
SELECT s.item, s.pieces = (SELECT sum(m.pieces) FROM movement m WHERE m.item = s.item) FROM stock s ORDER BY s.item;
