-- SPDX-License-Identifier: MIT
-- Hostile input: random bytes, polygons with one byte changed or cut short, values of 100 MB, wrong lengths, numbers out of range. Nothing may end the backend, and what asks
-- for a room raises 22023 and nothing else. The first line is how many calls there were, the last is t.
\set QUIET on
SELECT pg_backend_pid() AS before \gset
SELECT setseed(0.41) \gset
CREATE TEMP TABLE calls (n bigint);
CREATE FUNCTION pg_temp.asks(v bytea) RETURNS int LANGUAGE plpgsql AS $$
DECLARE raised int := 0;
BEGIN
  BEGIN PERFORM undrwyth_panels(v); EXCEPTION WHEN SQLSTATE '22023' THEN raised := raised + 1; END;
  BEGIN PERFORM undrwyth_is_convex(v); EXCEPTION WHEN SQLSTATE '22023' THEN raised := raised + 1; END;
  BEGIN PERFORM undrwyth_rows(v); EXCEPTION WHEN SQLSTATE '22023' THEN raised := raised + 1; END;
  BEGIN PERFORM undrwyth_overlay(v, v); EXCEPTION WHEN SQLSTATE '22023' THEN raised := raised + 1; END;
  IF raised NOT IN (0, 4) OR (raised = 0) <> undrwyth_is_room(v) THEN RAISE EXCEPTION 'the functions do not agree on %', v; END IF;
  BEGIN PERFORM undrwyth_chain(v); PERFORM undrwyth_outline(v); PERFORM undrwyth_orthogonal_hull(v, 3); EXCEPTION WHEN SQLSTATE '22023' THEN NULL; END;
  RETURN 7;
END $$;
CREATE TEMP TABLE b AS SELECT i, decode(string_agg(md5(random()::text || j), ''), 'hex') AS v FROM generate_series(1, 3000) i, generate_series(1, 1 + i % 40) j GROUP BY i;
INSERT INTO calls SELECT sum(pg_temp.asks(v)) FROM b;
INSERT INTO calls SELECT sum(pg_temp.asks('\x0103000000010000000500000000000000000000000000000000000000000000000000'::bytea || v)) FROM b;
INSERT INTO calls SELECT sum(pg_temp.asks(set_byte(w, i, v))) FROM (SELECT undrwyth_polygon(3, -4, '000112321233') AS w) p, generate_series(0, 156) i, generate_series(0, 255, 5) v;
INSERT INTO calls SELECT sum(pg_temp.asks(substr(w, 1, i))) FROM (SELECT undrwyth_polygon(3, -4, '000112321233') AS w) p, generate_series(0, 200) i;
INSERT INTO calls SELECT count(undrwyth_judge(t)) + count(undrwyth_explain(t)) + count(undrwyth_walk(t)) FROM (SELECT translate(encode(v, 'hex'), 'abcdef', '012345') AS t FROM b) s;
INSERT INTO calls SELECT count(undrwyth_judge('00' || lpad(to_hex(n), 4, '0') || repeat('0', n))) FROM (VALUES (0), (319), (320), (1024), (1025)) t(n);
INSERT INTO calls SELECT count(undrwyth_walk(repeat('0', n))) FROM (VALUES (16384), (16385), (32768), (32769), (100000000)) t(n);
INSERT INTO calls SELECT count(undrwyth_walk(repeat('0', 16384), x, x)) FROM (VALUES (16384), (-16385), (2147483647), (-2147483648)) t(x);
INSERT INTO calls SELECT pg_temp.asks(decode(repeat('00', 100000000), 'hex'));
INSERT INTO calls SELECT count(undrwyth_line(t)) + count(undrwyth_judge(t)) + count(undrwyth_explain(t)) FROM (SELECT repeat('x', 100000000) AS t) s;
INSERT INTO calls SELECT count(undrwyth_explain(t)) FROM (VALUES (U&'0000040\00e4'), (U&'\00e4'), ('a,b,c,d'), (',,,'), ('1,2,'), ('"a""b",0123'), (repeat(',', 100000))) s(t);
SELECT sum(n) FROM calls;
SELECT pg_backend_pid() = :before;
