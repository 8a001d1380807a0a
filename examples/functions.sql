-- Functions are made, called, replaced and dropped. A function's body is read when it is made: one that
-- is no body, or that breaks a rule, is refused then.

CREATE FUNCTION fee(amount integer) RETURNS integer LANGUAGE plpgsql AS $$
BEGIN
    IF amount > 1000 THEN
        RETURN 0;
    END IF;
    RETURN 5;
END
$$;

-- There is one of this name.
CREATE FUNCTION fee(amount integer) RETURNS integer LANGUAGE plpgsql AS $$ BEGIN RETURN 7; END $$;

-- It takes the place of the first one.
CREATE OR REPLACE FUNCTION fee(amount integer) RETURNS integer LANGUAGE plpgsql AS $$
DECLARE
    percent CONSTANT integer := 2;
BEGIN
    RETURN amount * percent / 100;
END
$$;

SELECT fee(900), fee(-50) + 1;

-- One that does may not give another type, nor call its parameters otherwise.
CREATE OR REPLACE FUNCTION fee(amount integer) RETURNS text LANGUAGE plpgsql AS $$ BEGIN RETURN 'none'; END $$;
CREATE OR REPLACE FUNCTION fee(total integer) RETURNS integer LANGUAGE plpgsql AS $$ BEGIN RETURN 7; END $$;

-- END IF is missing; there is no loop; a constant is assigned; a value has to be given.
CREATE FUNCTION steps(n integer) RETURNS integer LANGUAGE plpgsql AS $$
BEGIN
    IF n > 10 THEN
        RETURN 10;
    RETURN n;
END
$$;
CREATE FUNCTION steps(n integer) RETURNS integer LANGUAGE plpgsql AS $$ BEGIN EXIT WHEN n > 10; RETURN n; END $$;
CREATE FUNCTION steps(n integer) RETURNS integer LANGUAGE plpgsql AS $$
DECLARE
    most CONSTANT integer := 10;
BEGIN
    most := n;
    RETURN most;
END
$$;
CREATE FUNCTION steps(n integer) RETURNS integer LANGUAGE plpgsql AS $$ BEGIN RETURN; END $$;

-- The loops, labels and handlers of PL/pgSQL are read.
CREATE FUNCTION steps(n integer) RETURNS integer LANGUAGE plpgsql AS $$
DECLARE
    taken integer := 0;
BEGIN
    <<up>>
    LOOP
        taken := taken + 1;
        EXIT up WHEN taken >= n;
        CONTINUE WHEN taken % 2 = 0;
        BEGIN
            PERFORM 10 / (taken - 3);
        EXCEPTION WHEN division_by_zero THEN
            RAISE NOTICE 'no third step';
        END;
    END LOOP up;
    RETURN taken;
END
$$;

SELECT steps(5);

DROP FUNCTION steps;
DROP FUNCTION IF EXISTS steps;
DROP FUNCTION fee(integer);
DROP FUNCTION fee;
