CREATE TABLE t (a integer, b bigint, s text, f boolean);
CREATE TABLE u (a integer, c text, g boolean);
CREATE TABLE n (c integer);
CREATE FUNCTION nil() RETURNS integer LANGUAGE plpgsql AS $$ BEGIN RETURN 1; END $$;
CREATE FUNCTION one(n integer) RETURNS integer LANGUAGE plpgsql AS $$ BEGIN RETURN n; END $$;
CREATE FUNCTION big(n bigint) RETURNS bigint LANGUAGE plpgsql AS $$ BEGIN RETURN n; END $$;
CREATE FUNCTION said(s text) RETURNS text LANGUAGE plpgsql AS $$ BEGIN RETURN s; END $$;
CREATE FUNCTION holds(f boolean) RETURNS boolean LANGUAGE plpgsql AS $$ BEGIN RETURN f; END $$;
CREATE FUNCTION mixed(n integer, b bigint, s text, f boolean) RETURNS text LANGUAGE plpgsql AS $$ BEGIN RETURN s; END $$;
CREATE FUNCTION nothing(n integer) RETURNS void LANGUAGE plpgsql AS $$ BEGIN END $$;
CREATE PROCEDURE does(n integer) LANGUAGE plpgsql AS $$ BEGIN END $$;

SELECT nil()
SELECT nil(1)
SELECT nil(NULL)
SELECT one(1)
SELECT one()
SELECT one(1, 2)
SELECT one('1')
SELECT one(NULL)
SELECT one('1'::text)
SELECT one(true)
SELECT one(2147483648)
SELECT one(1) AS x
SELECT one(a) FROM t
SELECT one(b) FROM t
SELECT one(s) FROM t
SELECT big(1)
SELECT big(2147483648)
SELECT big('1')
SELECT big(a), big(b) FROM t
SELECT big(s) FROM t
SELECT big(f) FROM t
SELECT said('x')
SELECT said(NULL)
SELECT said(1)
SELECT said(true)
SELECT said(s) FROM t
SELECT said(a) FROM t
SELECT said(a::text) FROM t
SELECT holds(true)
SELECT holds('true')
SELECT holds(1)
SELECT holds(f), holds(a = 1) FROM t
SELECT holds(s) FROM t
SELECT mixed(1, 2, 'x', true)
SELECT mixed(a, a, s, f) FROM t
SELECT mixed(a, b, s, f) FROM t
SELECT mixed(b, a, s, f) FROM t
SELECT mixed(a, b, f, s) FROM t
SELECT mixed('1', '2', 'x', 'true')
SELECT mixed(NULL, NULL, NULL, NULL)
SELECT mixed(1, 2, 'x')
SELECT nothing(1)
SELECT nothing('x'::text)
SELECT nothing(1) + 1
SELECT nothing(1) = nothing(1)
SELECT coalesce(nothing(1), 1)
SELECT CASE WHEN nothing(1) THEN 1 END
SELECT nothing(1) IS NULL
SELECT one(nothing(1))
SELECT does(1)
SELECT does('1')
SELECT does(a) FROM t
SELECT does(b) FROM t
SELECT does()
SELECT does('x'::text)
SELECT 1 + does(1)
SELECT absent(1)
SELECT one(one(one(1)))
SELECT big(one(1))
SELECT one(big(1))
SELECT said(said('x') || one(1))
SELECT said(one(1))
SELECT abs(one(1)), mod(big(1), one(2))
SELECT one(abs(a)), one(mod(a, 2)), one(length(s)) FROM t
SELECT upper(said('x')), length(one(1))
SELECT one(does(1))
SELECT one(absent(1))
SELECT one(1) + big(2)
SELECT one(1) || said('x')
SELECT said('x') = 'x', one(1) = '1', one(1) < big(1)
SELECT one(1) = said('1')
SELECT -one(1), NOT holds(true)
SELECT one(1) BETWEEN 0 AND big(2)
SELECT one(1) IN (1, big(2))
SELECT one(1) IN (SELECT b FROM t)
SELECT coalesce(one(1), big(1)), greatest(one(1), 2)
SELECT nullif(one(1), '1')
SELECT CASE WHEN holds(f) THEN one(a) ELSE big(b) END AS x FROM t
SELECT CASE one(a) WHEN '1' THEN said(s) END FROM t
SELECT one(1)::text, said('1')::integer
SELECT ROW(one(1), said('x'))
SELECT 1 FROM t WHERE holds(f)
SELECT 1 FROM t WHERE one(a)
SELECT 1 FROM t WHERE one(a) = 1 AND holds('true')
SELECT 1 FROM t WHERE said(s) LIKE 'x'
SELECT 1 FROM t WHERE does(a)
SELECT 1 FROM t WHERE nothing(a)
SELECT 1 FROM t JOIN u ON holds(g)
SELECT 1 FROM t JOIN u ON one(t.a) = u.a
SELECT 1 FROM t JOIN u ON does(t.a) = u.a
SELECT one(a) FROM t GROUP BY one(a)
SELECT one(a) FROM t GROUP BY a
SELECT one(a) FROM t GROUP BY b
SELECT one(a) FROM t GROUP BY one(a + 1)
SELECT one(a) AS x FROM t GROUP BY x
SELECT a FROM t GROUP BY a HAVING holds(count(*) = 1)
SELECT 1 FROM t HAVING one(count(*)) = 1
SELECT one(a) FROM t ORDER BY one(a)
SELECT DISTINCT one(a) FROM t ORDER BY one(a)
SELECT DISTINCT one(a) FROM t ORDER BY a
SELECT a FROM t ORDER BY one
SELECT one(a) FROM t ORDER BY one
SELECT a FROM t LIMIT one(1) OFFSET big(1)
SELECT a FROM t LIMIT said('1')
SELECT a FROM t LIMIT does(1)
SELECT sum(one(a)), max(said(s)), count(holds(f)) FROM t
SELECT one(max(a)), big(sum(a)), big(count(*)) FROM t
SELECT one(sum(a)) FROM t
SELECT max(one(a)), b FROM t
SELECT sum(said(s)) FROM t
SELECT 1 FROM t WHERE big(count(*)) = 1
SELECT sum(big(sum(a))) FROM t
SELECT one((SELECT c FROM n))
SELECT one((SELECT b FROM t))
SELECT one((SELECT 1, 2))
SELECT (SELECT one(t.a) FROM n) FROM t
SELECT EXISTS (SELECT one(c) FROM n)
SELECT EXISTS (SELECT does(c) FROM n)
SELECT * FROM nil()
SELECT * FROM one(1)
SELECT * FROM big(1) x
SELECT x.x FROM said('y') x
SELECT one FROM one(1)
SELECT one.one + 1 FROM one(1)
SELECT * FROM one(1), big(1)
SELECT * FROM one(1), one(2)
SELECT * FROM one(1) x JOIN t ON x.x = t.a
SELECT * FROM one('x'::text)
SELECT * FROM one(1, 2)
SELECT * FROM does(1)
SELECT * FROM absent(1)
SELECT * FROM one(a), t
SELECT * FROM one((SELECT max(a) FROM t))
SELECT q.one FROM (SELECT one(a) FROM t) q
SELECT x + one(s) FROM t
SELECT one(s) + x FROM t
SELECT one(x) + does(1) FROM t
SELECT does(1) + x FROM t
SELECT does(x) FROM t
SELECT does(s), x FROM t
SELECT one(x), one(s) FROM t
SELECT mixed(a, x, s, absent(1)) FROM t
SELECT mixed(a, absent(1), x, f) FROM t
SELECT mixed(f, x, s, f) FROM t
SELECT absent(does(1)) FROM t
SELECT does(absent(1)) FROM t
SELECT x FROM t WHERE does(1)
SELECT does(1) FROM t WHERE x
SELECT does(1) FROM missing
SELECT x FROM one(does(1))
SELECT x FROM one(s), t
SELECT CASE WHEN one(1) THEN x END FROM t
SELECT CASE WHEN x THEN one(s) END FROM t
SELECT coalesce(one(s), x) FROM t
SELECT one(s) IN (1, x) FROM t
SELECT x IN (1, one(s)) FROM t
