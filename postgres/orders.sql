-- SPDX-License-Identifier: MIT
-- An order of panels in PostgreSQL. The outline of an order is a room, whoever or whatever writes it: the CHECK calls the proved library. An outline is a polygon in
-- Well-Known Binary, in millimetres; with PostGIS it can be a geometry instead, and ST_AsBinary(outline) stands for outline below.
CREATE EXTENSION IF NOT EXISTS undrwyth;

CREATE TABLE orders (
  id bigint GENERATED ALWAYS AS IDENTITY PRIMARY KEY,
  customer text NOT NULL,
  outline bytea NOT NULL CONSTRAINT outline_is_a_room CHECK (undrwyth_is_room(outline)),
  panels int NOT NULL GENERATED ALWAYS AS (undrwyth_panels(outline)) STORED
);

-- the panels of each order as the fitters lay them
CREATE VIEW order_rows AS
  SELECT o.id, r.row, r.first, r.last FROM orders o, LATERAL undrwyth_rows(o.outline) r;

-- what two orders have in common, say the landlord's and the tenant's
CREATE VIEW order_overlays AS
  SELECT a.id AS first_id, b.id AS second_id, l.in_first, l.in_second, l.in_both
  FROM orders a JOIN orders b ON a.id < b.id, LATERAL undrwyth_overlay(a.outline, b.outline) l;
