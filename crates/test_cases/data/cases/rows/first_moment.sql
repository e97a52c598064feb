-- cases: growths in-turn
-- The clock begins at the first moment; words in small letters. By hand from docs/LANGUAGE.md.
create table t (a integer, b_1 integer, since timestamp generated always as row start, till timestamp generated always as row end, period for system_time (since, till)) with system versioning;
insert into T values (-9223372036854775808, +9223372036854775807);
select * from t for system_time as of timestamp '0001-01-01 00:00:00';
