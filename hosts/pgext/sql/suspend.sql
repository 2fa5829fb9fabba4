-- Transactions that commit without krl.
\set SHOW_CONTEXT never
SET client_min_messages = warning;
SELECT krl.suspend(false);
SELECT quiet('part', 5);
SELECT FROM since();
-- No reader holds anything here, so it does not matter that krl's server runs.
SELECT krl.suspend(true);
SELECT krl.suspend(true);
-- The workers join again, and the mark has another nonce.
SELECT await_workers();
SELECT quiet('part', 5);
INSERT INTO part VALUES (5, 0);
SELECT * FROM since();
SELECT krl.resume();
SELECT krl.resume();
SELECT quiet('part', 5);
SELECT FROM since();
UPDATE part SET n = 1 WHERE id = 5;
SELECT * FROM since();

-- krl.suspend would not wait for leases that are longer than krl.lease.
ALTER SYSTEM SET krl.lease = '300ms';
SELECT pg_reload_conf();
SELECT await_fault('its leases are longer than krl.lease');
ALTER SYSTEM RESET krl.lease;
SELECT pg_reload_conf();
SELECT await_workers();
