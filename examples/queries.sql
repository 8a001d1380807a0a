-- Parcels by weight, and what can be asked of them. A SELECT commits nothing.
CREATE TABLE parcel (grams integer);
INSERT INTO parcel VALUES (250);
INSERT INTO parcel VALUES (1200);
INSERT INTO parcel VALUES (-40);
INSERT INTO parcel VALUES (250);
SELECT grams FROM parcel ORDER BY grams DESC;
SELECT count(*) AS parcels, sum(grams) AS total, min(grams), max(grams) FROM parcel WHERE grams > 0;
SELECT grams, count(*) FROM parcel GROUP BY grams HAVING count(*) > 1;
SELECT p.grams AS light, q.grams AS heavy
    FROM parcel AS p JOIN parcel AS q ON p.grams < q.grams
    ORDER BY light, heavy LIMIT 3;
SELECT DISTINCT grams, CASE WHEN grams < 0 THEN 'look' ELSE 'fine' END AS verdict
    FROM parcel ORDER BY grams;
SELECT p.grams FROM parcel AS p WHERE EXISTS (SELECT 1 FROM parcel AS q WHERE q.grams > p.grams + 1000);
SELECT 'of ' || count(*)::text || ' parcels', 7 / 2, -7 % 2, NULL, 1 IS NULL FROM parcel;
SELECT grams FROM parcel WHERE grams > 2000;
SELECT 1000 / (grams - 250) FROM parcel;     -- one of the divisors is zero
SELECT weight FROM parcel;                   -- there is no column of this name
SELECT grams FROM letter;                    -- there is no table of this name
SELECT (SELECT grams FROM parcel);           -- more than one row
INSERT INTO parcel VALUES (90);
SELECT count(*) FROM parcel;
