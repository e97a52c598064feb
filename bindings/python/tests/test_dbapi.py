"""Tests of the module by PEP 249 and beyond: TQL_LIBRARY=../../build/libtql.so.0 python3 -m unittest tests.test_dbapi (in bindings/python)"""
import datetime
import gc
import importlib.util
import threading
import unittest

import tql

D, DT = datetime.date, datetime.datetime


class Module(unittest.TestCase):
    def test_01_globals(self):
        self.assertEqual((tql.apilevel, tql.threadsafety, tql.paramstyle), ("2.0", 1, "qmark"))

    def test_02_exceptions(self):
        self.assertTrue(issubclass(tql.Warning, Exception) and issubclass(tql.Error, Exception))
        for it in (tql.DataError, tql.OperationalError, tql.IntegrityError, tql.InternalError, tql.ProgrammingError, tql.NotSupportedError):
            self.assertTrue(issubclass(it, tql.DatabaseError))
        self.assertTrue(issubclass(tql.DatabaseError, tql.Error) and issubclass(tql.InterfaceError, tql.Error))
        self.assertFalse(issubclass(tql.InterfaceError, tql.DatabaseError))

    def test_03_constructors(self):
        self.assertEqual(tql.Date(2011, 3, 1), D(2011, 3, 1))
        self.assertEqual(tql.Timestamp(2011, 3, 1, 9), DT(2011, 3, 1, 9))
        self.assertEqual(tql.Time(9, 1), datetime.time(9, 1))
        self.assertIsInstance(tql.DateFromTicks(0), D)
        self.assertIsInstance(tql.TimestampFromTicks(0), DT)
        self.assertIsInstance(tql.TimeFromTicks(0), datetime.time)
        self.assertRaises(tql.NotSupportedError, tql.Binary, b"x")

    def test_04_version(self):
        self.assertTrue(tql.version().startswith("0.1.0"))

    def test_05_type_objects(self):
        self.assertTrue(tql.STRING == "VARCHAR" and tql.NUMBER == "INTEGER" and tql.DATETIME == "DATE" and tql.DATETIME == "TIMESTAMP")
        self.assertTrue(tql.STRING != "INTEGER" and tql.BINARY != "VARCHAR" and tql.ROWID != "INTEGER")


class Case(unittest.TestCase):
    def setUp(self):
        self.db = tql.connect()
        self.db.execute("CREATE TABLE t (a INTEGER, b VARCHAR(50), c DATE, d TIMESTAMP, CONSTRAINT whole PRIMARY KEY (a))")

    def tearDown(self):
        self.db.close()

    def ask(self, statement, *more):
        return self.db.execute(statement, *more).fetchall()

    def refused(self, kind, number, statement, *more):
        with self.assertRaises(kind) as caught:
            self.db.execute(statement, *more)
        self.assertIs(type(caught.exception), kind)
        self.assertEqual(caught.exception.number, number)
        return caught.exception


class Values(Case):
    def test_06_all_kinds(self):
        row = (1, "x", D(2011, 3, 1), DT(2011, 3, 1, 9, 0, 0, 5))
        self.db.execute("INSERT INTO t VALUES (?, ?, ?, ?)", row)
        self.assertEqual(self.ask("SELECT * FROM t"), [row])

    def test_07_nulls(self):
        self.db.execute("INSERT INTO t VALUES (?, ?, ?, ?)", (1, None, None, None))
        self.assertEqual(self.ask("SELECT * FROM t"), [(1, None, None, None)])

    def test_08_some_nulls(self):
        rows = [(1, "a", D(1, 1, 1), DT(1, 1, 1)), (2, None, None, None), (3, "", D(9999, 12, 31), DT(9999, 12, 31, 23, 59, 59, 999999)), (4, None, None, None), (5, "z", D(1969, 12, 31), DT(1969, 12, 31, 23, 59, 59, 999999))]
        self.db.executemany("INSERT INTO t VALUES (?, ?, ?, ?)", rows)
        self.assertEqual(self.ask("SELECT * FROM t ORDER BY a"), rows)

    def test_09_quotes(self):
        for text in ("it's", "''", "'; DROP TABLE t; --", "?", ":name", "%s %%", "--", '"', "\\", "a\nb\r\n\tc", "\x01\x7f"):
            self.db.execute("INSERT INTO t (a, b) VALUES (?, ?)", (1, text))
            self.assertEqual(self.ask("SELECT b FROM t WHERE b = ?", (text,)), [(text,)])
            self.db.execute("DELETE FROM t")

    def test_10_unicode(self):
        texts = ["ä", "漢字", "🙂", "\u0000x", "e\u0301", "\ufeff", "\U0010ffff"]
        for place, text in enumerate(texts):
            self.db.execute("INSERT INTO t (a, b) VALUES (?, ?)", (place, text))
        self.assertEqual([it[0] for it in self.ask("SELECT b, a FROM t ORDER BY a")], texts)

    def test_11_surrogate(self):
        self.assertRaises(tql.DataError, self.db.execute, "INSERT INTO t (a, b) VALUES (1, ?)", ("\ud800",))

    def test_12_integers(self):
        for number in (0, -1, 2**63 - 1, -(2**63), True):
            self.assertEqual(self.ask("SELECT COUNT(*) FROM t WHERE a = ?", (number,)), [(0,)])
            self.db.execute("INSERT INTO t (a) VALUES (?)", (number,))
            self.assertEqual(self.ask("SELECT a FROM t"), [(int(number),)])
            self.db.execute("DELETE FROM t")

    def test_13_too_many_bits(self):
        for number in (2**63, -(2**63) - 1, 10**30):
            self.assertRaises(tql.DataError, self.db.execute, "INSERT INTO t (a) VALUES (?)", (number,))

    def test_14_minus_before_a_negative(self):
        self.db.execute("INSERT INTO t (a) VALUES (3)")
        self.assertEqual(self.ask("SELECT a - ? FROM t", (-4,)), [(7,)])
        self.assertEqual(self.ask("SELECT a -? FROM t", (-4,)), [(7,)])

    def test_15_no_blanks_around(self):
        self.db.execute("INSERT INTO t (a, b) VALUES (3, 'x')")
        self.assertEqual(self.ask("SELECT a FROM t WHERE a=?AND b=?", (3, "x")), [(3,)])

    def test_16_subclasses(self):
        class Text(str):
            def __str__(self):
                return "wrong"

        class Number(int):
            pass

        self.db.execute("INSERT INTO t (a, b) VALUES (?, ?)", (Number(4), Text("x")))
        self.assertEqual(self.ask("SELECT a, b FROM t"), [(4, "x")])

    def test_17_no_such_kind(self):
        for value in (1.5, b"x", [1], {}, object(), datetime.time(1), 1j):
            self.assertRaises(tql.InterfaceError, self.db.execute, "INSERT INTO t (a) VALUES (?)", (value,))

    def test_18_time_zones(self):
        moment = DT(2011, 1, 1, tzinfo=datetime.timezone.utc)
        self.assertRaises(tql.InterfaceError, self.db.execute, "INSERT INTO t (a, d) VALUES (1, ?)", (moment,))

    def test_19_early_years(self):
        self.db.execute("INSERT INTO t VALUES (1, NULL, ?, ?)", (D(33, 4, 3), DT(33, 4, 3, 15)))
        self.assertEqual(self.ask("SELECT c, d FROM t"), [(D(33, 4, 3), DT(33, 4, 3, 15))])


class Places(Case):
    def test_20_named(self):
        self.db.execute("INSERT INTO t (a, b) VALUES (:a, :b)", {"a": 1, "b": "x", "more": 0})
        self.assertEqual(self.ask("SELECT b FROM t WHERE a = :a AND a = :a", {"a": 1}), [("x",)])

    def test_21_in_quotes_and_comments(self):
        self.db.execute("INSERT INTO t (a, b) VALUES (1, '?')")
        self.assertEqual(self.ask("SELECT a AS \"?\", b FROM t -- ? :x\nWHERE b = '?' AND a = ?", (1,)), [(1, "?")])
        self.assertEqual(self.ask("SELECT a FROM t WHERE b <> ':a' AND a = :a", {"a": 1}), [(1,)])

    def test_22_count(self):
        self.assertRaises(tql.ProgrammingError, self.db.execute, "SELECT a FROM t WHERE a = ?", ())
        self.assertRaises(tql.ProgrammingError, self.db.execute, "SELECT a FROM t WHERE a = ?", (1, 2))
        self.assertRaises(tql.ProgrammingError, self.db.execute, "SELECT a FROM t", (1,))

    def test_23_wrong_form(self):
        self.assertRaises(tql.ProgrammingError, self.db.execute, "SELECT a FROM t WHERE a = ?", {"a": 1})
        self.assertRaises(tql.ProgrammingError, self.db.execute, "SELECT a FROM t WHERE a = :a", (1,))
        self.assertRaises(tql.ProgrammingError, self.db.execute, "SELECT a FROM t WHERE a = :a", {"b": 1})
        self.assertRaises(tql.ProgrammingError, self.db.execute, "SELECT a FROM t WHERE a = :a OR a = ?", (1, 2))
        self.assertRaises(tql.InterfaceError, self.db.execute, "SELECT a FROM t WHERE b = ?", "x")

    def test_24_not_for_names(self):
        self.refused(tql.ProgrammingError, 10, "SELECT a FROM ?", ("t",))

    def test_25_percent(self):
        self.db.execute("INSERT INTO t (a, b) VALUES (1, '100%s')")
        self.assertEqual(self.ask("SELECT b FROM t WHERE b = '100%s' AND a = ?", (1,)), [("100%s",)])

    def test_26_semicolon(self):
        self.assertEqual(self.ask("SELECT COUNT(*) FROM t ;\n"), [(0,)])
        self.refused(tql.ProgrammingError, 10, "SELECT a FROM t; SELECT a FROM t")

    def test_27_empty(self):
        self.refused(tql.ProgrammingError, 10, "")


class Cursors(Case):
    def setUp(self):
        super().setUp()
        self.db.executemany("INSERT INTO t (a, b) VALUES (?, ?)", [(it, f"row {it}") for it in range(1000)])

    def test_28_description(self):
        cursor = self.db.cursor()
        self.assertIsNone(cursor.description)
        cursor.execute("SELECT a, b AS text, c, d, a + 1 AS more FROM t")
        self.assertEqual([it[:2] for it in cursor.description], [("A", "INTEGER"), ("TEXT", "VARCHAR"), ("C", "DATE"), ("D", "TIMESTAMP"), ("MORE", "INTEGER")])
        self.assertEqual({len(it) for it in cursor.description}, {7})
        cursor.execute("DELETE FROM t")
        self.assertIsNone(cursor.description)

    def test_29_rowcount(self):
        cursor = self.db.cursor()
        self.assertEqual(cursor.rowcount, -1)
        self.assertEqual(cursor.execute("SELECT a FROM t WHERE a < 7").rowcount, 7)
        self.assertEqual(cursor.execute("UPDATE t SET b = 'x' WHERE a < 5").rowcount, 5)
        self.assertEqual(cursor.execute("DELETE FROM t WHERE a < 3").rowcount, 3)
        self.assertEqual(cursor.execute("CREATE TABLE u (a INTEGER)").rowcount, -1)

    def test_30_fetchone(self):
        cursor = self.db.execute("SELECT a FROM t WHERE a < 2")
        self.assertEqual([cursor.fetchone() for _ in range(4)], [(0,), (1,), None, None])

    def test_31_fetchmany(self):
        cursor = self.db.execute("SELECT a FROM t")
        self.assertEqual(cursor.fetchmany(), [(0,)])
        cursor.arraysize = 2
        self.assertEqual(cursor.fetchmany(), [(1,), (2,)])
        self.assertEqual(cursor.fetchmany(0), [])
        self.assertEqual(len(cursor.fetchmany(900)), 900)
        self.assertEqual(len(cursor.fetchmany(900)), 97)
        self.assertEqual(cursor.fetchmany(900), [])

    def test_32_fetchall(self):
        cursor = self.db.execute("SELECT a FROM t")
        cursor.fetchone()
        self.assertEqual(cursor.fetchall(), [(it,) for it in range(1, 1000)])
        self.assertEqual(cursor.fetchall(), [])

    def test_33_iteration(self):
        self.assertEqual([it for it, in self.db.execute("SELECT a FROM t")], list(range(1000)))

    def test_34_no_rows(self):
        self.assertEqual(self.ask("SELECT a FROM t WHERE a < 0"), [])
        self.assertIsNone(self.db.execute("SELECT a FROM t WHERE a < 0").fetchone())

    def test_35_fetch_without_rows(self):
        cursor = self.db.cursor()
        for call in (cursor.fetchone, cursor.fetchmany, cursor.fetchall):
            self.assertRaises(tql.Error, call)
        cursor.execute("DELETE FROM t")
        self.assertRaises(tql.Error, cursor.fetchone)

    def test_36_two_cursors(self):
        one, two = self.db.execute("SELECT a FROM t"), self.db.cursor()
        self.assertEqual(one.fetchone(), (0,))
        two.execute("DELETE FROM t WHERE a < 500")
        self.assertEqual(one.fetchone(), (1,))
        self.assertEqual(two.execute("SELECT COUNT(*) FROM t").fetchone(), (500,))
        self.assertEqual(len(one.fetchall()), 998)

    def test_37_cursor_again(self):
        cursor = self.db.execute("SELECT a FROM t")
        cursor.fetchone()
        cursor.execute("SELECT b FROM t WHERE a = 5")
        self.assertEqual(cursor.fetchall(), [("row 5",)])

    def test_38_after_a_refusal(self):
        cursor = self.db.execute("SELECT a FROM t")
        self.assertRaises(tql.Error, cursor.execute, "oops")
        self.assertIsNone(cursor.description)
        self.assertRaises(tql.Error, cursor.fetchone)
        self.assertEqual(cursor.execute("SELECT COUNT(*) FROM t").fetchone(), (1000,))

    def test_39_closed_cursor(self):
        cursor = self.db.execute("SELECT a FROM t")
        cursor.close()
        cursor.close()
        self.assertRaises(tql.Error, cursor.fetchone)
        self.assertRaises(tql.Error, cursor.execute, "SELECT a FROM t")

    def test_40_sizes(self):
        self.assertIsNone(self.db.cursor().setinputsizes([1]))
        self.assertIsNone(self.db.cursor().setoutputsize(1, 2))

    def test_41_executemany(self):
        cursor = self.db.executemany("UPDATE t SET b = ? WHERE a < ?", [("x", 3), ("y", 5)])
        self.assertEqual(cursor.rowcount, 8)
        self.assertRaises(tql.ProgrammingError, self.db.executemany, "SELECT a FROM t WHERE a = ?", [(1,)])
        self.assertEqual(self.db.executemany("INSERT INTO t (a) VALUES (?)", []).rowcount, 0)
        self.assertEqual(self.db.executemany("INSERT INTO t (a) VALUES (?)", ((it,) for it in (2000, 2001))).rowcount, 2)

    def test_42_executemany_refused(self):
        for inside in (False, True):
            with self.subTest(inside=inside):
                self.db.execute("DELETE FROM t")
                if inside:
                    self.db.execute("START TRANSACTION")
                with self.assertRaises(tql.IntegrityError) as caught:
                    self.db.executemany("INSERT INTO t (a) VALUES (?)", [(1,), (2,), (1,), (3,)])
                self.assertEqual((caught.exception.number, caught.exception.row), (35, 1))
                self.assertEqual(self.ask("SELECT a FROM t"), [(1,), (2,)])
                self.db.commit()

    def test_43_long_columns(self):
        self.db.execute("CREATE TABLE w (a INTEGER, b VARCHAR(65535))")
        texts = ["x" * 65535, "ä" * 50000, "", "y" * 30000]
        self.db.executemany("INSERT INTO w VALUES (?, ?)", list(enumerate(texts)))
        self.assertEqual([it[1] for it in self.ask("SELECT a, b FROM w ORDER BY a")], texts)

    def test_61_kinds_before_another_statement(self):
        cursor = self.db.execute("SELECT a, c FROM t")
        self.db.execute("DROP TABLE t")
        self.db.execute("CREATE TABLE t (a VARCHAR(9), c TIMESTAMP)")
        self.assertEqual([it[1] for it in cursor.description], ["INTEGER", "DATE"])
        self.assertEqual(len(cursor.fetchall()), 1000)

    def test_62_dropped_cursor(self):
        self.db.execute("SELECT a FROM t").fetchone()
        gc.collect()
        self.assertIsNone(self.db._reading())
        self.assertEqual(self.ask("SELECT COUNT(*) FROM t"), [(1000,)])

    @unittest.skipUnless(importlib.util.find_spec("pandas"), "there is no pandas")
    def test_63_frames(self):
        day, moment = D(2011, 3, 1), DT(9999, 12, 31, 23, 59, 59, 999999)
        self.db.execute("UPDATE t SET c = ?, d = ? WHERE a < 2", (day, moment))
        self.db.execute("UPDATE t SET b = NULL WHERE a = 1")
        frame = tql.to_frame(self.db.execute("SELECT a, b, c, d, c AS c FROM t WHERE a < 3 ORDER BY a"))
        self.assertEqual(list(frame.columns), ["A", "B", "C", "D", "C"])
        self.assertEqual([str(it) for it in frame.dtypes], ["int64", "object", "datetime64[s]", "datetime64[us]", "datetime64[s]"])
        self.assertEqual((list(frame["A"]), list(frame["B"])), ([0, 1, 2], ["row 0", None, "row 2"]))
        self.assertEqual([str(it) for it in frame["D"]], [str(moment), str(moment), "NaT"])
        self.db.execute("CREATE TABLE n (x INTEGER)")
        self.db.executemany("INSERT INTO n VALUES (?)", [(None,), (5,)])
        numbers = tql.to_frame(self.db.execute("SELECT x FROM n ORDER BY x"))["X"]
        self.assertEqual((str(numbers.dtype), list(numbers.isna()), numbers[1]), ("Int64", [True, False], 5))
        self.assertEqual(tql.to_frame(self.db.execute("SELECT a, b FROM t WHERE a < 0")).shape, (0, 2))
        self.assertEqual(len(tql.to_frame(self.db.execute("SELECT a FROM t"))), 1000)


class Transactions(Case):
    def test_44_commit_and_rollback_without_one(self):
        self.assertFalse(self.db.in_transaction)
        self.assertIsNone(self.db.commit())
        self.assertIsNone(self.db.rollback())

    def test_45_rollback(self):
        self.db.execute("START TRANSACTION")
        self.assertTrue(self.db.in_transaction)
        self.db.execute("INSERT INTO t (a) VALUES (1)")
        self.db.rollback()
        self.assertFalse(self.db.in_transaction)
        self.assertEqual(self.ask("SELECT a FROM t"), [])

    def test_46_block(self):
        with self.db.transaction():
            self.db.execute("INSERT INTO t (a) VALUES (1)")
        with self.assertRaises(ZeroDivisionError):
            with self.db.transaction():
                self.db.execute("INSERT INTO t (a) VALUES (2)")
                1 // 0
        self.assertEqual(self.ask("SELECT a FROM t"), [(1,)])

    def test_47_open_twice(self):
        self.db.execute("START TRANSACTION")
        self.refused(tql.OperationalError, 40, "START TRANSACTION")
        self.assertTrue(self.db.in_transaction)

    def test_48_by_script(self):
        self.db.executescript("START TRANSACTION; INSERT INTO t (a) VALUES (1);")
        self.assertTrue(self.db.in_transaction)
        self.db.rollback()
        self.assertEqual(self.ask("SELECT a FROM t"), [])


class Refusals(Case):
    def test_49_classes(self):
        self.db.execute("INSERT INTO t (a) VALUES (1)")
        self.refused(tql.ProgrammingError, 10, "SELEC a FROM t")
        self.refused(tql.ProgrammingError, 20, "SELECT a FROM nowhere")
        self.refused(tql.ProgrammingError, 21, "SELECT x FROM t")
        self.refused(tql.ProgrammingError, 22, "SELECT a FROM t WHERE a = 'x'")
        self.refused(tql.DataError, 30, "INSERT INTO t (b) VALUES (?)", ("x" * 51,))
        self.refused(tql.IntegrityError, 32, "INSERT INTO t (a) VALUES (NULL)")
        self.refused(tql.IntegrityError, 35, "INSERT INTO t (a) VALUES (1)")
        self.refused(tql.OperationalError, 40, "COMMIT")
        self.refused(tql.OperationalError, 46, "CLOSE READER r")

    def test_50_details(self):
        error = self.refused(tql.IntegrityError, 35, "INSERT INTO t (a) VALUES (1), (2), (1)")
        self.assertEqual((error.text, error.constraint, error.columns, error.row, error.line), ("duplicate key", "WHOLE", ("A",), 3, 1))
        self.assertIn("E35 duplicate key: ", str(error))
        self.assertEqual(error.statement, "INSERT INTO t (a) VALUES (1), (2), (1)")
        error = self.refused(tql.ProgrammingError, 10, "SELECT a\nFROM t\n LIMIT 1")
        self.assertEqual((error.line, error.column, error.row, error.constraint, error.columns), (3, 2, None, None, ()))
        self.assertTrue(error.detail and error.hint)

    def test_51_memory(self):
        with tql.connect(memory=200_000) as db:
            db.execute("CREATE TABLE t (a INTEGER, b VARCHAR(1000))")
            with self.assertRaises(tql.OperationalError) as caught:
                for it in range(1000):
                    db.execute("INSERT INTO t VALUES (?, ?)", (it, "x" * 1000))
            self.assertEqual(caught.exception.number, 1)

    def test_52_script_refused(self):
        with self.assertRaises(tql.ProgrammingError) as caught:
            self.db.executescript("INSERT INTO t (a) VALUES (1);\n\nINSERT INTO u VALUES (1);\nINSERT INTO t (a) VALUES (2);")
        self.assertEqual((caught.exception.number, caught.exception.line), (20, 3))
        self.assertEqual(self.ask("SELECT a FROM t"), [(1,)])
        self.db.executescript("INSERT INTO t (a) VALUES (3);")
        self.assertEqual(self.ask("SELECT a FROM t"), [(1,), (3,)])

    def test_53_script_unfinished(self):
        with self.assertRaises(tql.ProgrammingError) as caught:
            self.db.executescript("INSERT INTO t (a) VALUES (1)")
        self.assertEqual(caught.exception.number, 12)
        self.assertEqual(self.ask("SELECT a FROM t"), [])

    def test_54_long_script(self):
        rows = 5000
        self.db.executescript("".join(f"INSERT INTO t (a, b) VALUES ({it}, 'abcdefghijklmnopqrstuvwxyz');\n" for it in range(rows)))
        self.assertEqual(self.ask("SELECT COUNT(*) FROM t"), [(rows,)])


class Connections(unittest.TestCase):
    def test_55_closed(self):
        db = tql.connect()
        cursor = db.execute("CREATE TABLE t (a INTEGER)")
        db.close()
        db.close()
        for call in (db.cursor, db.commit, db.rollback, lambda: db.execute("SELECT a FROM t"), lambda: cursor.execute("SELECT a FROM t"), lambda: cursor.executemany("x", [])):
            self.assertRaises(tql.Error, call)

    def test_56_block_closes(self):
        with tql.connect() as db:
            db.execute("CREATE TABLE t (a INTEGER)")
        self.assertRaises(tql.ProgrammingError, db.cursor)

    def test_57_apart(self):
        with tql.connect() as one, tql.connect() as two:
            one.execute("CREATE TABLE t (a INTEGER)")
            self.assertRaises(tql.ProgrammingError, two.execute, "SELECT a FROM t")

    def test_58_many(self):
        for _ in range(6000):
            tql.connect()
        gc.collect()
        tql.connect().close()

    def test_59_threads(self):
        db, busy, wrong = tql.connect(), [], []
        db.execute("CREATE TABLE t (a INTEGER)")
        db.executemany("INSERT INTO t VALUES (?)", [(it,) for it in range(2000)])

        def work():
            try:
                db.cursor()
            except tql.ProgrammingError as error:
                busy.append(str(error))
            with tql.connect() as own:
                own.execute("CREATE TABLE t (a INTEGER)")
                own.executemany("INSERT INTO t VALUES (?)", [(it,) for it in range(200)])
                if own.execute("SELECT COUNT(*) FROM t").fetchone() != (200,):
                    wrong.append("count")
        threads = [threading.Thread(target=work) for _ in range(4)]
        for it in threads:
            it.start()
        for it in threads:
            it.join()
        self.assertEqual((len(busy), wrong), (4, []))
        self.assertEqual(db.execute("SELECT COUNT(*) FROM t").fetchone(), (2000,))

    def test_60_exceptions_of_the_connection(self):
        for name in ("Warning", "Error", "InterfaceError", "DatabaseError", "DataError", "OperationalError", "IntegrityError", "InternalError", "ProgrammingError", "NotSupportedError"):
            self.assertIs(getattr(tql.Connection, name), getattr(tql, name))


if __name__ == "__main__":
    unittest.main()
