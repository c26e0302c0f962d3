-- SPDX-License-Identifier: MIT
-- What version 1.1 of the extension adds to 1.0. CREATE EXTENSION runs both; ALTER EXTENSION undrwyth UPDATE runs this one.
\echo Use "ALTER EXTENSION undrwyth UPDATE TO '1.1'" to load this file. \quit

CREATE FUNCTION undrwyth_orthogonal_hull(polygon bytea, grid int DEFAULT 1, OUT x int, OUT y int, OUT chain text, OUT blocks int)
  AS 'MODULE_PATHNAME', 'undrwyth_sql_orthogonal_hull' LANGUAGE C IMMUTABLE STRICT PARALLEL SAFE COST 100;
