//! A host in Rust: what the pay slip of March said, and what is right.
use tql::{Date, Engine, Error, Statement, Timestamp, Value};

const TABLE: &str = "CREATE TABLE pay (employee INTEGER, cents INTEGER, since DATE, until DATE,
  known_from TIMESTAMP GENERATED ALWAYS AS ROW START, known_to TIMESTAMP GENERATED ALWAYS AS ROW END,
  PERIOD FOR valid (since, until), PERIOD FOR SYSTEM_TIME (known_from, known_to),
  CONSTRAINT one_rate PRIMARY KEY (employee, valid WITHOUT OVERLAPS)) WITH SYSTEM VERSIONING";

fn day(year: i64, month: i64, day: i64) -> Value {
    Date::new(year, month, day).into()
}

fn main() -> Result<(), Error> {
    let mut pay = Engine::open_within(64 << 20, 1 << 20)?;
    pay.execute(TABLE)?;
    pay.execute("AT TIMESTAMP '2024-01-10 09:00:00'")?;
    let insert = Statement::new("INSERT INTO pay VALUES (1, ?, ?, ?)");
    let rate = [250_000.into(), day(2024, 1, 1), day(2025, 1, 1)];
    insert.run(&mut pay, &rate)?;
    let second = [1.into(), day(2024, 12, 1), day(2026, 1, 1)];
    if let Err(Error::Refused(why)) = insert.run(&mut pay, &second) {
        // Two rates in December.
        let (number, row) = (why.number, why.row.unwrap_or(0));
        let constraint = why.constraint.unwrap_or_default();
        println!("E{number}, row {row}, {constraint}");
    }
    pay.execute("AT TIMESTAMP '2024-04-12 09:00:00'")?;
    let change = "UPDATE pay FOR PORTION OF valid FROM ? TO ? SET cents = 265000";
    Statement::new(change).run(&mut pay, &[day(2024, 3, 1), day(2025, 1, 1)])?;
    let query = "SELECT cents FROM pay FOR SYSTEM_TIME AS OF ? WHERE valid CONTAINS ?";
    for known in [Date::new(2024, 3, 31), Date::new(2024, 4, 30)] {
        let known = Timestamp::new(known, 12 * 3_600_000_000);
        let values = [known.into(), day(2024, 3, 15)];
        for row in Statement::new(query).query(&mut pay, &values)? {
            println!("{known}: {}", row.integer(0).unwrap_or(0));
        }
    }
    Ok(())
}
