\pset null NULL
CREATE EXTENSION undrwyth;
SELECT * FROM undrwyth_judge('00000c001100322223');
SELECT * FROM undrwyth_judge('0000040123');
SELECT * FROM undrwyth_judge('0000015');
SELECT * FROM undrwyth_judge('0100040123');
SELECT * FROM undrwyth_judge('');
SELECT undrwyth_line('0000040123'), undrwyth_line('0000015');
SELECT undrwyth_explain(r) FROM (VALUES ('001100322223'), ('00000c001100322223'), ('order-17,120,-40,00000011112222223333'), ('0000015'), ('x'), ('0100040123'), ('44'), ('0,20000,0123'), ('')) t(r);
SELECT * FROM undrwyth_walk('0123', 5, -7);
SELECT * FROM undrwyth_walk('01x3');
SELECT * FROM undrwyth_walk('0123', 16385, 0);
SELECT * FROM undrwyth_walk(repeat('0', 16385));
SELECT * FROM undrwyth_walk(repeat('0', 32769));
SELECT * FROM undrwyth_walk(NULL);
-- polygons there and back
SELECT encode(undrwyth_polygon(0, 0, '0123'), 'hex') AS polygon;
SELECT undrwyth_panels(undrwyth_polygon(0, 0, '00000011112222223333')), undrwyth_is_room(undrwyth_polygon(0, 0, '0123'));
SELECT * FROM undrwyth_chain(undrwyth_polygon(3, -4, '000112321233'));
SELECT * FROM undrwyth_outline(undrwyth_polygon(3, -4, '000112321233'));
SELECT * FROM undrwyth_orthogonal_hull(undrwyth_polygon(-3, 5, '000112321233'));
SELECT * FROM undrwyth_orthogonal_hull(undrwyth_polygon(-3, 5, '000112321233'), 2);
SELECT * FROM undrwyth_orthogonal_hull(undrwyth_polygon(0, 0, '0123'), 0);
SELECT * FROM undrwyth_orthogonal_hull(undrwyth_polygon(0, 0, '0123'), -1);
SELECT * FROM undrwyth_rows(undrwyth_polygon(0, 0, '000112321233'));
SELECT * FROM undrwyth_overlay(undrwyth_polygon(0, 0, '000112321233'), undrwyth_polygon(2, 1, '0123'));
SELECT * FROM undrwyth_overlay_rows(undrwyth_polygon(0, 0, '000112321233'), undrwyth_polygon(2, 1, '0123'));
SELECT undrwyth_is_convex(undrwyth_polygon(0, 0, '00121233')), undrwyth_is_convex(undrwyth_polygon(-7, 5, '000122112333'));
-- what is not a room
SELECT undrwyth_polygon(0, 0, '001100322223');
SELECT undrwyth_polygon(0, 0, '01234');
SELECT undrwyth_polygon(0, 0, '01x3');
SELECT undrwyth_polygon(16385, 0, '0123');
SELECT undrwyth_polygon(0, 0, '');
SELECT undrwyth_panels('\x00');
SELECT undrwyth_rows('\x0103000000');
SELECT undrwyth_chain(set_byte(undrwyth_polygon(0, 0, '0123'), 5, 2));
SELECT undrwyth_overlay(undrwyth_polygon(0, 0, '0123'), '\x');
SELECT undrwyth_is_room(''), undrwyth_is_room('\x00'), undrwyth_is_room(NULL), undrwyth_is_room(set_byte(undrwyth_polygon(0, 0, '0123'), 5, 2));
-- the number of an error is the same whatever the refusal
DO $$ BEGIN PERFORM undrwyth_panels('\x00'); EXCEPTION WHEN SQLSTATE '22023' THEN RAISE NOTICE '22023: %', SQLERRM; END $$;
