-- A database on the disk: transactions, an index, a view, a trigger, and what is written besides.
PRAGMA page_size = 1024;
CREATE TABLE t(a INTEGER PRIMARY KEY, b TEXT NOT NULL, c REAL);
WITH RECURSIVE n(x) AS (VALUES(1) UNION ALL SELECT x + 1 FROM n WHERE x < 400)
  INSERT INTO t SELECT x, printf('%d-%s', x * x, hex(x)), x / 4.0 FROM n;
CREATE INDEX by_b ON t(b);
CREATE VIEW even AS SELECT a, b FROM t WHERE a % 2 = 0;
CREATE TABLE log(what TEXT);
CREATE TRIGGER gone AFTER DELETE ON t BEGIN INSERT INTO log VALUES('gone ' || old.a); END;
SELECT count(*), sum(a), max(b), min(c) FROM t;
BEGIN; DELETE FROM t WHERE a % 3 = 0; SELECT count(*) FROM log; ROLLBACK;
BEGIN; DELETE FROM t WHERE a > 350; COMMIT;
SELECT count(*), max(what) FROM log;
SELECT b, count(*) FROM even GROUP BY length(b) ORDER BY 1 LIMIT 5;
INSERT INTO t VALUES(1, 'again', 0); -- which fails
SAVEPOINT s; UPDATE t SET b = upper(b) || '!' WHERE a < 50; RELEASE s;
VACUUM;
PRAGMA integrity_check;
.mode csv
.output out.csv
SELECT * FROM t WHERE a < 20;
.output stdout
.import out.csv copy
SELECT count(*) FROM copy;
.backup main saved.db
.mode list
EXPLAIN QUERY PLAN SELECT * FROM t WHERE b = 'x';
SELECT sqlite_version();
