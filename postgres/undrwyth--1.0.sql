-- SPDX-License-Identifier: MIT
\echo Use "CREATE EXTENSION undrwyth" to load this file. \quit

-- on records, as undrwyth judge and undrwyth explain take them
CREATE FUNCTION undrwyth_judge(record text, OUT refusal int, OUT place int, OUT verdict int, OUT steps int, OUT nodes int, OUT corners int, OUT j int, OUT k int, OUT area int)
  AS 'MODULE_PATHNAME', 'undrwyth_sql_judge' LANGUAGE C IMMUTABLE STRICT PARALLEL SAFE COST 100;
CREATE FUNCTION undrwyth_explain(record text) RETURNS text AS 'MODULE_PATHNAME', 'undrwyth_sql_explain' LANGUAGE C IMMUTABLE STRICT PARALLEL SAFE COST 100;
CREATE FUNCTION undrwyth_line(record text) RETURNS text AS 'MODULE_PATHNAME', 'undrwyth_sql_line' LANGUAGE C IMMUTABLE STRICT PARALLEL SAFE COST 100;

-- on a start and operations, one digit each, in a table that is always large enough
CREATE FUNCTION undrwyth_walk(operations text, x int DEFAULT 0, y int DEFAULT 0,
    OUT refusal int, OUT place int, OUT verdict int, OUT steps int, OUT nodes int, OUT corners int, OUT j int, OUT k int, OUT area int)
  AS 'MODULE_PATHNAME', 'undrwyth_sql_walk' LANGUAGE C IMMUTABLE STRICT PARALLEL SAFE COST 100;

-- on polygons in Well-Known Binary
CREATE FUNCTION undrwyth_is_room(polygon bytea) RETURNS bool AS 'MODULE_PATHNAME', 'undrwyth_sql_is_room' LANGUAGE C IMMUTABLE STRICT PARALLEL SAFE COST 50;
CREATE FUNCTION undrwyth_panels(polygon bytea) RETURNS int AS 'MODULE_PATHNAME', 'undrwyth_sql_panels' LANGUAGE C IMMUTABLE STRICT PARALLEL SAFE COST 100;
CREATE FUNCTION undrwyth_is_convex(polygon bytea) RETURNS bool AS 'MODULE_PATHNAME', 'undrwyth_sql_is_convex' LANGUAGE C IMMUTABLE STRICT PARALLEL SAFE COST 50;
CREATE FUNCTION undrwyth_chain(polygon bytea, OUT x int, OUT y int, OUT chain text) AS 'MODULE_PATHNAME', 'undrwyth_sql_chain' LANGUAGE C IMMUTABLE STRICT PARALLEL SAFE COST 50;
CREATE FUNCTION undrwyth_outline(polygon bytea, OUT x int, OUT y int, OUT chain text) AS 'MODULE_PATHNAME', 'undrwyth_sql_outline' LANGUAGE C IMMUTABLE STRICT PARALLEL SAFE COST 100;
CREATE FUNCTION undrwyth_polygon(x int, y int, chain text) RETURNS bytea AS 'MODULE_PATHNAME', 'undrwyth_sql_polygon' LANGUAGE C IMMUTABLE STRICT PARALLEL SAFE COST 100;
CREATE FUNCTION undrwyth_rows(polygon bytea) RETURNS TABLE ("row" int, first int, last int)
  AS 'MODULE_PATHNAME', 'undrwyth_sql_rows' LANGUAGE C IMMUTABLE STRICT PARALLEL SAFE COST 100 ROWS 20;
CREATE FUNCTION undrwyth_overlay(first bytea, second bytea, OUT in_first int, OUT in_second int, OUT in_both int)
  AS 'MODULE_PATHNAME', 'undrwyth_sql_overlay' LANGUAGE C IMMUTABLE STRICT PARALLEL SAFE COST 200;
CREATE FUNCTION undrwyth_overlay_rows(first bytea, second bytea) RETURNS TABLE (part text, "row" int, first int, last int)
  AS 'MODULE_PATHNAME', 'undrwyth_sql_overlay_rows' LANGUAGE C IMMUTABLE STRICT PARALLEL SAFE COST 200 ROWS 40;
