-- krl's server was replaced by one of another store: readers may still keep rows by the earlier one.
\set SHOW_CONTEXT never
\set VERBOSITY terse
SET client_min_messages = warning;
SELECT await_fault('krl''s server does not have the store of this cluster');
SET krl.timeout = '100ms';
UPDATE part SET n = 2 WHERE id = 5;
RESET krl.timeout;
SELECT quiet('part', 5);

-- While the cluster is suspended it takes the store that it finds, and makes the rows of its stripes.
SELECT krl.suspend(true);
SELECT await_workers();
SELECT krl.resume();
SELECT FROM since();
SELECT quiet('part', 5);
UPDATE part SET n = 2 WHERE id = 5;
SELECT * FROM since();

-- The extension is dropped with the triggers of the cached tables.
DROP EXTENSION krl CASCADE;
SELECT tgname FROM pg_trigger WHERE tgname LIKE 'krl%';
