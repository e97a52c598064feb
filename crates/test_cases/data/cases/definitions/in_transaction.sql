-- cases: growths in-turn
-- CREATE TABLE in an open transaction (E40), before later faults. By hand from docs/LANGUAGE.md.
CREATE TABLE t (x INTEGER);
START TRANSACTION;
CREATE TABLE u (x INT);
CREATE TABLE t (x INT);
CREATE TABLE u (x INT, x INT);
CREATE TABLE u (x VARCHAR(0));
CREATE TABLE u (x INT) WITH SYSTEM VERSIONING;
