//! Checks of the wrapper.
use tql::{Answer, Class, Date, Engine, Error, Kind, Statement, Timestamp, Value};

fn engine() -> Engine {
    let mut it = Engine::open().unwrap();
    it.execute("CREATE TABLE t (a INTEGER, b VARCHAR(50), c DATE, d TIMESTAMP, CONSTRAINT whole PRIMARY KEY (a))")
        .unwrap();
    it
}

fn all(it: &mut Engine, text: &str) -> Vec<Vec<Value>> {
    it.query(text).unwrap().map(|row| row.cells).collect()
}

fn refusal(answer: Result<impl std::fmt::Debug, Error>) -> tql::Refusal {
    *match answer.unwrap_err() {
        Error::Refused(refusal) => refusal,
        other => panic!("{other}"),
    }
}

#[test]
fn t01_version() {
    assert!(tql::version().starts_with("0.1.0"));
}

#[test]
fn t02_done_counts() {
    let mut it = engine();
    assert!(
        matches!(it.run("INSERT INTO t (a) VALUES (1), (2);").unwrap(), Answer::Done(words, Some(2)) if words == "INSERT")
    );
    assert!(matches!(it.run("DROP TABLE t").unwrap(), Answer::Done(words, None) if words == "DROP TABLE"));
}

#[test]
fn t03_all_kinds() {
    let mut it = engine();
    let row = vec![
        Value::Integer(-5),
        "it's ü 🙂".into(),
        Date::new(2011, 3, 1).into(),
        Timestamp::new(Date::new(9999, 12, 31), 86_399_999_999).into(),
    ];
    Statement::new("INSERT INTO t VALUES (?, ?, ?, ?)").run(&mut it, &row).unwrap();
    assert_eq!(all(&mut it, "SELECT * FROM t"), vec![row]);
}

#[test]
fn t04_nulls() {
    let mut it = engine();
    it.execute("INSERT INTO t (a) VALUES (1)").unwrap();
    assert_eq!(all(&mut it, "SELECT b, c, d FROM t"), vec![vec![Value::Null; 3]]);
}

#[test]
fn t05_names_and_size() {
    let mut it = engine();
    it.execute("INSERT INTO t (a) VALUES (1), (2), (3)").unwrap();
    let mut rows = it.query("SELECT a AS number, b FROM t").unwrap();
    assert_eq!(rows.names(), ["NUMBER", "B"]);
    assert_eq!(rows.len(), 3);
    rows.next();
    assert_eq!(rows.len(), 2);
    assert_eq!(rows.by_ref().count(), 2);
    assert!(rows.next().is_none());
}

#[test]
fn t06_rows_dropped_early() {
    let mut it = engine();
    it.execute("INSERT INTO t (a) VALUES (1), (2)").unwrap();
    it.query("SELECT a FROM t").unwrap().next();
    assert_eq!(all(&mut it, "SELECT COUNT(*) FROM t"), vec![vec![2.into()]]);
}

#[test]
fn t07_row_readers() {
    let mut it = engine();
    it.execute("INSERT INTO t (a, b) VALUES (1, 'x')").unwrap();
    let row = it.query("SELECT a, b FROM t").unwrap().next().unwrap();
    assert_eq!(
        (row.integer(0), row.text(1), row.integer(1), row.text(0), row.integer(9)),
        (Some(1), Some("x"), None, None, None)
    );
}

#[test]
fn t08_integers_at_the_ends() {
    let mut it = engine();
    for number in [i64::MIN, -1, 0, i64::MAX] {
        Statement::new("INSERT INTO t (a) VALUES (?)").run(&mut it, &[number.into()]).unwrap();
    }
    assert_eq!(all(&mut it, "SELECT a FROM t ORDER BY a"), [i64::MIN, -1, 0, i64::MAX].map(|it| vec![it.into()]));
}

#[test]
fn t09_texts_that_attack() {
    let mut it = engine();
    for (place, text) in ["'; DROP TABLE t; --", "''", "?", "--", "\"", "\\", "a\nb", "\0"].into_iter().enumerate() {
        Statement::new("INSERT INTO t (a, b) VALUES (?, ?)")
            .run(&mut it, &[(place as i64).into(), text.into()])
            .unwrap();
        assert_eq!(all(&mut it, &format!("SELECT b FROM t WHERE a = {place}")), vec![vec![text.into()]]);
    }
}

#[test]
fn t10_parameters_in_quotes_and_comments() {
    let mut it = engine();
    let found = Statement::new("SELECT b AS \"?\" -- ?\nFROM t WHERE b <> '?' AND a -? = ? AND b = 'it''s ?'");
    assert_eq!(found.parameters(&it), 2);
    it.execute("INSERT INTO t (a, b) VALUES (1, 'it''s ?'), (2, 'it''s ?')").unwrap();
    let rows = found.query(&mut it, &[Value::Integer(-2), 3.into()]).unwrap();
    assert_eq!((rows.names().to_vec(), rows.len()), (vec!["?".to_string()], 1));
}

#[test]
fn t10_days_out_of_range() {
    let mut it = engine();
    let insert = Statement::new("INSERT INTO t (a, c) VALUES (?, ?)");
    let answer = insert.run(&mut it, &[1.into(), Value::Date(Date(2_932_897))]).map(|_| ());
    assert_eq!(answer, Err(Error::Range));
    insert.run(&mut it, &[1.into(), Value::Date(Date(2_932_896))]).unwrap();
    assert_eq!(all(&mut it, "SELECT a FROM t"), vec![vec![1.into()]]);
}

#[test]
fn t11_count_of_parameters() {
    let mut it = engine();
    let answer = Statement::new("SELECT a FROM t WHERE a = ?").run(&mut it, &[]).map(|_| ());
    assert_eq!(answer, Err(Error::Parameters { wanted: 1, passed: 0 }));
}

#[test]
fn t12_refusal_of_a_row() {
    let mut it = engine();
    let told = refusal(it.execute("INSERT INTO t (a) VALUES (1), (2), (1)"));
    assert_eq!(
        (told.number, told.text.as_str(), told.constraint.as_deref(), told.row),
        (35, "duplicate key", Some("WHOLE"), Some(3))
    );
    assert_eq!((told.columns.as_slice(), told.class()), (["A".to_string()].as_slice(), Class::Constraint));
    assert!(told.detail.is_some() && told.to_string().starts_with("E35 duplicate key: "));
    assert_eq!(all(&mut it, "SELECT a FROM t"), Vec::<Vec<Value>>::new());
}

#[test]
fn t13_refusal_of_a_text() {
    let mut it = engine();
    let told = refusal(it.run("SELECT a\nFROM t\n LIMIT 1"));
    assert_eq!((told.number, told.line, told.column, told.class(), told.row), (10, 3, Some(2), Class::Statement, None));
    assert!(told.hint.is_some());
    assert_eq!(refusal(it.run("")).number, 10);
}

#[test]
fn t14_classes() {
    let mut it = engine();
    assert_eq!(refusal(it.execute("INSERT INTO t (b) VALUES (NULL)")).class(), Class::Constraint);
    assert_eq!(
        refusal(it.execute(&format!("INSERT INTO t (a, b) VALUES (9, '{}')", "x".repeat(51)))).class(),
        Class::Value
    );
    assert_eq!(refusal(it.execute("COMMIT")).class(), Class::State);
    assert_eq!(refusal(it.run("SELECT x FROM t")).class(), Class::Statement);
}

#[test]
fn t15_script() {
    let mut it = engine();
    assert_eq!(it.run_script("INSERT INTO t (a) VALUES (1); INSERT INTO t (a) VALUES (2);\n-- end\n").unwrap(), 2);
    let told = refusal(
        it.run_script("INSERT INTO t (a) VALUES (3);\nINSERT INTO u VALUES (1);\nINSERT INTO t (a) VALUES (4);"),
    );
    assert_eq!((told.number, told.line), (20, 2));
    assert_eq!(refusal(it.run_script("INSERT INTO t (a) VALUES (5)")).number, 12);
    assert_eq!(all(&mut it, "SELECT a FROM t ORDER BY a"), [1, 2, 3].map(|it| vec![it.into()]));
}

#[test]
fn t16_long_script() {
    let mut it = engine();
    let script: String =
        (0..5000).map(|it| format!("INSERT INTO t (a, b) VALUES ({it}, 'abcdefghijklmnopqrstuvwxyz');\n")).collect();
    assert_eq!(it.run_script(&script).unwrap(), 5000);
    assert_eq!(it.query("SELECT a FROM t").unwrap().len(), 5000);
}

#[test]
fn t17_transactions() {
    let mut it = engine();
    it.transaction(|it| it.execute("INSERT INTO t (a) VALUES (1)")).unwrap();
    let undone = it.transaction(|it| {
        it.execute("INSERT INTO t (a) VALUES (2)")?;
        it.execute("INSERT INTO t (a) VALUES (1)")
    });
    assert_eq!(refusal(undone).number, 35);
    assert_eq!(all(&mut it, "SELECT a FROM t"), vec![vec![1.into()]]);
}

#[test]
fn t18_memory() {
    let mut it = Engine::open_within(1 << 20, 1 << 18).unwrap();
    it.execute("CREATE TABLE t (a INTEGER, b VARCHAR(1000))").unwrap();
    let insert = Statement::new("INSERT INTO t VALUES (?, ?)");
    let count =
        (0..1000).take_while(|a| insert.run(&mut it, &[Value::Integer(*a), "x".repeat(1000).into()]).is_ok()).count();
    assert!(count > 300 && count < 900, "{count}");
    assert!(it.in_use() <= 1 << 20);
    assert_eq!(it.execute("DELETE FROM t").unwrap(), count as u64);
}

#[test]
fn t19_engines_are_apart_on_threads() {
    let mut two = Engine::open().unwrap();
    let threads: Vec<_> = (0..4)
        .map(|number| {
            std::thread::spawn(move || {
                let mut it = engine();
                Statement::new("INSERT INTO t (a) VALUES (?)").run(&mut it, &[Value::Integer(number)]).unwrap();
                all(&mut it, "SELECT a FROM t")
            })
        })
        .collect();
    assert_eq!(refusal(two.run("SELECT a FROM t")).number, 20);
    for (number, thread) in threads.into_iter().enumerate() {
        assert_eq!(thread.join().unwrap(), vec![vec![Value::Integer(number as i64)]]);
    }
}

#[test]
fn t20_many_engines() {
    for _ in 0..6000 {
        Engine::open().unwrap();
    }
    let open: Vec<Engine> = (0..1000).map(|_| engine()).collect();
    assert_eq!(open.len(), 1000);
}

#[test]
fn t21_days_and_moments() {
    for (text, days) in [
        ("1970-01-01", 0),
        ("0001-01-01", -719_162),
        ("9999-12-31", 2_932_896),
        ("2000-02-29", 11_016),
        ("1969-12-31", -1),
    ] {
        assert_eq!(Date(days).to_string(), text);
        let (year, month, day) = Date(days).parts();
        assert_eq!(Date::new(year, month, day), Date(days));
    }
    assert_eq!(Timestamp(-1).to_string(), "1969-12-31 23:59:59.999999");
    assert_eq!(Timestamp(0).to_string(), "1970-01-01 00:00:00");
}

#[test]
fn t22_json() {
    let mut it = engine();
    it.run("SELECT COUNT(*) AS n FROM t").unwrap();
    assert_eq!(it.json().unwrap(), "{\"statement\": 1, \"line\": 1, \"columns\": [\"N\"], \"rows\": [[0]]}\n");
}

#[test]
fn t23_kinds() {
    let mut it = engine();
    let all = vec![Kind::Integer, Kind::Text, Kind::Date, Kind::Timestamp, Kind::Integer];
    assert_eq!(it.kinds("SELECT a, b, c, d, a + 1 AS e FROM t;"), Some(all));
    assert_eq!(it.kinds("DROP TABLE t"), None);
    assert_eq!(it.kinds("SELECT x FROM t"), None);
}
