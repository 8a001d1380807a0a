-- The pieces that came into a stock and those that were sold, and what can be asked of them.
CREATE TABLE arrived (pieces integer);
INSERT INTO arrived VALUES (12);
INSERT INTO arrived VALUES (40);
INSERT INTO arrived VALUES (12);
INSERT INTO arrived VALUES (6);
CREATE TABLE sold (pieces integer);
INSERT INTO sold VALUES (5);
INSERT INTO sold VALUES (12);
INSERT INTO sold VALUES (1);
INSERT INTO sold VALUES (12);
INSERT INTO sold VALUES (6);

-- In the order in which they were inserted, and in another one.
SELECT pieces FROM arrived;
SELECT pieces, pieces / 12 AS dozens FROM arrived WHERE pieces >= 12 ORDER BY pieces DESC, dozens LIMIT 2;

-- What is left.
SELECT count(*) AS sales, sum(pieces) AS sold, min(pieces) AS least, max(pieces) AS most FROM sold;
SELECT (SELECT sum(pieces) FROM arrived) - (SELECT sum(pieces) FROM sold) AS left_over;

-- Sales by their size.
SELECT CASE WHEN pieces < 10 THEN 'small' ELSE 'large' END AS size, count(*), sum(pieces)
FROM sold GROUP BY size ORDER BY size;
SELECT pieces, count(*) FROM sold GROUP BY pieces HAVING count(*) > 1;

-- The deliveries beside the sales of as many pieces: one was never sold as it came.
SELECT DISTINCT arrived.pieces, sold.pieces AS sold
FROM arrived LEFT JOIN sold ON sold.pieces = arrived.pieces ORDER BY arrived.pieces;
SELECT pieces FROM sold WHERE NOT EXISTS (SELECT 1 FROM arrived WHERE arrived.pieces = sold.pieces) ORDER BY pieces;

-- Each sale with the number of those that were greater.
SELECT pieces, (SELECT count(*) FROM sold other WHERE other.pieces > sold.pieces) AS greater
FROM sold ORDER BY greater, pieces;

-- What is refused: a name, a type, and a division that comes too late to be seen before.
SELECT price FROM sold;
SELECT pieces || TRUE FROM sold;
SELECT 100 / (SELECT count(*) FROM sold WHERE pieces > 100) AS per_sale;
