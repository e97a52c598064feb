-- cases: growths
-- Each growth is refused in turn: tables with an application period, and definitions that are refused. By hand from the rules of 11.3.
CREATE TABLE a (x INTEGER, "a long name of the period" DATE, c DATE, PERIOD FOR p ("a long name of the period", c));
CREATE TABLE f (b DATE, c DATE, s TIMESTAMP GENERATED ALWAYS AS ROW START, e TIMESTAMP GENERATED ALWAYS AS ROW END, PERIOD FOR SYSTEM_TIME (s, e), PERIOD FOR p (b, c)) WITH SYSTEM VERSIONING;
CREATE TABLE b (b DATE, c DATE, PERIOD FOR p (b, c), PERIOD FOR q (b, c));
