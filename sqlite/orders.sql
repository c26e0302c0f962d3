-- SPDX-License-Identifier: MIT
-- An order of panels in SQLite, as a GeoPackage: undrwyth orders FILE.gpkg makes a file with this. The outline of an order is a room, whoever or whatever writes it: the
-- CHECK calls the proved library. A program that has not loaded the extension reads the file and cannot write an order.
PRAGMA application_id = 1196444487; -- GPKG
PRAGMA user_version = 10300;
BEGIN;
CREATE TABLE gpkg_spatial_ref_sys (
  srs_name TEXT NOT NULL, srs_id INTEGER NOT NULL PRIMARY KEY, organization TEXT NOT NULL, organization_coordsys_id INTEGER NOT NULL,
  definition TEXT NOT NULL, description TEXT
);
INSERT INTO gpkg_spatial_ref_sys VALUES
  ('undefined cartesian', -1, 'NONE', -1, 'undefined', NULL),
  ('undefined geographic', 0, 'NONE', 0, 'undefined', NULL),
  ('WGS 84', 4326, 'EPSG', 4326, 'GEOGCS["WGS 84",DATUM["WGS_1984",SPHEROID["WGS 84",6378137,298.257223563]],PRIMEM["Greenwich",0],UNIT["degree",0.0174532925199433],AUTHORITY["EPSG","4326"]]', NULL),
  ('floor', 1000, 'NONE', 1000, 'LOCAL_CS["floor",UNIT["millimetre",0.001],AXIS["x",EAST],AXIS["y",NORTH]]', 'millimetres on a floor');
CREATE TABLE gpkg_contents (
  table_name TEXT NOT NULL PRIMARY KEY, data_type TEXT NOT NULL, identifier TEXT UNIQUE, description TEXT DEFAULT '',
  last_change DATETIME NOT NULL DEFAULT (strftime('%Y-%m-%dT%H:%M:%fZ', 'now')),
  min_x DOUBLE, min_y DOUBLE, max_x DOUBLE, max_y DOUBLE, srs_id INTEGER REFERENCES gpkg_spatial_ref_sys(srs_id)
);
CREATE TABLE gpkg_geometry_columns (
  table_name TEXT NOT NULL UNIQUE REFERENCES gpkg_contents(table_name), column_name TEXT NOT NULL, geometry_type_name TEXT NOT NULL,
  srs_id INTEGER NOT NULL REFERENCES gpkg_spatial_ref_sys(srs_id), z TINYINT NOT NULL, m TINYINT NOT NULL, PRIMARY KEY (table_name, column_name)
);
CREATE TABLE orders (
  id INTEGER PRIMARY KEY AUTOINCREMENT NOT NULL,
  outline POLYGON NOT NULL CHECK (substr(outline, 1, 2) = x'4750' AND undrwyth_is_room(outline)), -- a GeoPackage's blob, and a room
  customer TEXT,
  placed DATETIME DEFAULT (strftime('%Y-%m-%dT%H:%M:%fZ', 'now')),
  panels INTEGER GENERATED ALWAYS AS (undrwyth_panels(outline)) STORED
);
INSERT INTO gpkg_contents (table_name, data_type, identifier, description, srs_id) VALUES ('orders', 'features', 'orders', 'orders of panels; an outline is a room', 1000);
INSERT INTO gpkg_geometry_columns VALUES ('orders', 'outline', 'POLYGON', 1000, 0, 0);
COMMIT;
