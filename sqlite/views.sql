-- SPDX-License-Identifier: MIT
-- Views for a GeoPackage of orders: the rows of each order as the fitters lay them, and what two orders have in common, say the landlord's and the tenant's. They
-- need the extension to be read, so GDAL without it says that it does not know undrwyth_rows when it opens the file, and goes on; leave them out if that disturbs.
CREATE VIEW order_rows AS SELECT o.id, r.row, r.first, r.last FROM orders o, undrwyth_rows(o.outline) r;
CREATE VIEW order_overlays AS SELECT a.id AS first_id, b.id AS second_id, undrwyth_overlay(a.outline, b.outline) AS panels FROM orders a JOIN orders b ON a.id < b.id;
