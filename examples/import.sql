-- A batch import: rows of text become rows of numbers. A line that is wrong is put aside with the
-- reason, and keeps no other from coming in.

CREATE TABLE line (id integer PRIMARY KEY, code text, price text);
CREATE TABLE product (code text PRIMARY KEY, price integer NOT NULL CHECK (price > 0));
CREATE TABLE refused (id integer PRIMARY KEY, state text NOT NULL, line text);

INSERT INTO line VALUES (1, 'A1', '100'), (2, 'A2', 'ten'), (3, 'A1', '120'), (4, 'A3', '-5'), (5, 'A4', NULL), (6, 'A5', '99999999999'), (7, 'A6', '250');

CREATE FUNCTION take_line(n integer) RETURNS void LANGUAGE plpgsql AS $$
DECLARE
    new_code text;
    new_price text;
BEGIN
    SELECT l.code, l.price INTO STRICT new_code, new_price FROM line l WHERE l.id = n;
    INSERT INTO product VALUES (new_code, CAST(new_price AS integer));
END
$$;

CREATE FUNCTION take_lines(lowest integer, highest integer) RETURNS integer LANGUAGE plpgsql AS $$
DECLARE
    taken integer := 0;
BEGIN
    FOR n IN lowest..highest LOOP
        BEGIN
            PERFORM take_line(n);
            taken := taken + 1;
        EXCEPTION
            WHEN unique_violation THEN
                INSERT INTO refused VALUES (n, SQLSTATE, 'there is one of this code');
            WHEN no_data_found THEN
                NULL;
            WHEN OTHERS THEN
                INSERT INTO refused VALUES (n, SQLSTATE, 'it is no price');
        END;
    END LOOP;
    RETURN taken;
END
$$;

SELECT take_lines(1, 10);
SELECT code, price FROM product ORDER BY code;
SELECT id, state, line FROM refused ORDER BY id;
