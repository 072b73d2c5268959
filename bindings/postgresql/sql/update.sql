-- from the first version on, an installed extension is brought to the newest
CREATE EXTENSION bech32 VERSION '0.1';
CREATE TABLE kept (a segwit_address);
INSERT INTO kept VALUES ('BC1QW508D6QEJXTDG4Y5R3ZARVARY0C5XW7KV8F3T4');
SELECT segwit_lower('BC1SW50QGDZ25J');
ALTER EXTENSION bech32 UPDATE;
SELECT segwit_lower('BC1SW50QGDZ25J'), segwit_lower('bc1sw50qgdz25k'), bech32_version() >= 100;
-- a value that the first version stored, by its bytes on disk: the length of all, of the part, its letters, the version, the program
CREATE EXTENSION pageinspect;
SELECT a, t_data FROM kept, heap_page_items(get_raw_page('kept', 0));
DROP EXTENSION pageinspect;
SELECT extversion FROM pg_extension WHERE extname = 'bech32';
-- what an update makes is what the newest version makes
CREATE TEMP TABLE updated AS
SELECT pg_describe_object(classid, objid, 0) AS what FROM pg_depend AS d JOIN pg_extension AS e ON e.oid = d.refobjid
WHERE d.refclassid = 'pg_extension'::regclass AND d.deptype = 'e' AND e.extname = 'bech32';
DROP TABLE kept;
DROP EXTENSION bech32;
CREATE EXTENSION bech32;
(TABLE updated EXCEPT
SELECT pg_describe_object(classid, objid, 0) FROM pg_depend AS d JOIN pg_extension AS e ON e.oid = d.refobjid
WHERE d.refclassid = 'pg_extension'::regclass AND d.deptype = 'e' AND e.extname = 'bech32') UNION ALL
(SELECT pg_describe_object(classid, objid, 0) FROM pg_depend AS d JOIN pg_extension AS e ON e.oid = d.refobjid
WHERE d.refclassid = 'pg_extension'::regclass AND d.deptype = 'e' AND e.extname = 'bech32' EXCEPT TABLE updated);
SELECT count(*) > 40 FROM updated;
DROP EXTENSION bech32;
