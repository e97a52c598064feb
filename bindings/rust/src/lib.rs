//! `tql`, an in-memory SQL:2011 bitemporal table engine, over its C library.
//!
//! An [`Engine`] stays on the thread that opened it, so it is neither `Send` nor `Sync`. The rows of an answer borrow the engine, so no
//! statement can replace an answer that is still read.
mod error;
mod raw;
mod statement;
mod values;

pub use error::{Class, Error, Refusal};
pub use statement::Statement;
use std::ffi::CStr;
use std::marker::PhantomData;
use std::os::raw::{c_char, c_int};
pub use values::{Date, Kind, Timestamp, Value};

/// The version of the library, and how it was built.
pub fn version() -> &'static str {
    // The text is a constant of the library.
    unsafe { CStr::from_ptr(raw::tql_version()) }.to_str().unwrap_or("")
}

/// An engine with its tables, which are given back when it is dropped.
#[derive(Debug)]
pub struct Engine {
    number: u64,
    stays: PhantomData<*mut ()>,
}

/// The answer to a statement.
#[derive(Debug)]
pub enum Answer<'a> {
    /// What was done, as "INSERT", and how many rows changed, if the statement counts them.
    Done(String, Option<u64>),
    /// A table.
    Table(Rows<'a>),
}

/// The rows of a table that are not read yet.
#[derive(Debug)]
pub struct Rows<'a> {
    engine: &'a mut Engine,
    names: Vec<String>,
}

/// A row.
#[derive(Clone, Debug, PartialEq, Eq)]
pub struct Row {
    /// Its cells.
    pub cells: Vec<Value>,
}

impl Row {
    /// A number; None for any other value.
    pub fn integer(&self, column: usize) -> Option<i64> {
        match self.cells.get(column)? {
            Value::Integer(number) => Some(*number),
            _ => None,
        }
    }

    /// A text; None for any other value.
    pub fn text(&self, column: usize) -> Option<&str> {
        match self.cells.get(column)? {
            Value::Text(text) => Some(text),
            _ => None,
        }
    }
}

/// The text that a call gave: it stands until the next call on the engine, so it is copied at once.
unsafe fn copied(text: *const c_char) -> Option<String> {
    (!text.is_null()).then(|| CStr::from_ptr(text).to_string_lossy().into_owned())
}

unsafe fn copied_of(text: *const c_char, length: usize) -> Option<String> {
    (!text.is_null()).then(|| String::from_utf8_lossy(std::slice::from_raw_parts(text.cast(), length)).into_owned())
}

impl Engine {
    /// Opens an engine without tables and without a bound of memory.
    pub fn open() -> Result<Engine, Error> {
        Engine::open_within(0, 0)
    }

    /// Opens an engine that takes at most `most` bytes (0: no bound). It keeps back `reserve` of them from INSERT, UPDATE and CREATE TABLE,
    /// so that a DELETE can make room in a full engine; a DELETE takes all of them but 65,536.
    pub fn open_within(most: u64, reserve: u64) -> Result<Engine, Error> {
        let mut number = 0;
        match unsafe { raw::tql_open(most, reserve, &mut number) } {
            raw::OK => Ok(Engine { number, stays: PhantomData }),
            _ => Err(Error::NoMemory),
        }
    }

    /// Runs one statement, with or without a `;` at its end.
    pub fn run(&mut self, text: &str) -> Result<Answer<'_>, Error> {
        let answer = unsafe { raw::tql_run(self.number, text.as_ptr().cast(), text.len() as i64) };
        self.answer(answer)
    }

    /// Runs a statement without rows, and returns how many rows changed. The rows of a query are dropped.
    pub fn execute(&mut self, text: &str) -> Result<u64, Error> {
        Ok(match self.run(text)? {
            Answer::Done(_, count) => count.unwrap_or(0),
            Answer::Table(_) => 0,
        })
    }

    /// Runs a query. Any other statement is run too, and has no rows.
    pub fn query(&mut self, text: &str) -> Result<Rows<'_>, Error> {
        let answer = unsafe { raw::tql_run(self.number, text.as_ptr().cast(), text.len() as i64) };
        self.checked(answer)?;
        Ok(self.rows())
    }

    /// Runs the statements of a script, each of which ends with a `;`. The first refusal ends it, and the rest is not run. Returns how many
    /// were run.
    pub fn run_script(&mut self, script: &str) -> Result<u64, Error> {
        let done = self.run_parts(script.as_bytes());
        unsafe { raw::tql_forget(self.number) };
        done
    }

    fn run_parts(&mut self, mut rest: &[u8]) -> Result<u64, Error> {
        let mut count = 0;
        loop {
            let mut taken = 0;
            if !rest.is_empty()
                && unsafe { raw::tql_feed(self.number, rest.as_ptr().cast(), rest.len() as i64, &mut taken) } != raw::OK
            {
                return Err(Error::NoMemory);
            }
            rest = &rest[taken..];
            loop {
                let answer = unsafe {
                    if rest.is_empty() {
                        raw::tql_finish(self.number)
                    } else {
                        raw::tql_next(self.number)
                    }
                };
                if answer == raw::NONE {
                    break;
                }
                self.checked(answer)?;
                count += 1;
            }
            if rest.is_empty() {
                return Ok(count);
            }
        }
    }

    /// Runs `work` in a transaction, which ends by COMMIT if it returns `Ok`, and else by ROLLBACK.
    pub fn transaction<T>(&mut self, work: impl FnOnce(&mut Engine) -> Result<T, Error>) -> Result<T, Error> {
        self.execute("START TRANSACTION")?;
        let made = work(self);
        self.execute(if made.is_ok() { "COMMIT" } else { "ROLLBACK" })?;
        made
    }

    /// Returns the kinds of a query's columns, without running it; none if the text is no query.
    pub fn kinds(&mut self, query: &str) -> Option<Vec<Kind>> {
        let (text, length) = (query.as_ptr().cast(), query.len() as i64);
        let count = unsafe { raw::tql_kinds(self.number, text, length, std::ptr::null_mut(), 0) };
        let mut kinds = vec![0; usize::try_from(count).ok()?];
        unsafe { raw::tql_kinds(self.number, text, length, kinds.as_mut_ptr(), kinds.len()) };
        kinds.into_iter().map(Kind::of).collect()
    }

    /// The bytes of memory that are in use.
    pub fn in_use(&self) -> u64 {
        unsafe { raw::tql_in_use(self.number) }
    }

    /// The last answer as a line of JSON.
    pub fn json(&mut self) -> Option<String> {
        let mut length = 0;
        unsafe { copied_of(raw::tql_json(self.number, &mut length), length) }
    }

    fn checked(&mut self, answer: c_int) -> Result<c_int, Error> {
        match answer {
            raw::REFUSED => Err(Error::Refused(Box::new(self.refusal()))),
            raw::BUSY => Err(Error::Busy),
            raw::NOMEM => Err(Error::NoMemory),
            answer if answer < 0 => unreachable!("an engine is open as long as its value is there"),
            answer => Ok(answer),
        }
    }

    fn answer(&mut self, answer: c_int) -> Result<Answer<'_>, Error> {
        if self.checked(answer)? == raw::TABLE {
            return Ok(Answer::Table(self.rows()));
        }
        let (words, count) = unsafe { (copied(raw::tql_words(self.number)), raw::tql_changes(self.number)) };
        Ok(Answer::Done(words.unwrap_or_default(), u64::try_from(count).ok()))
    }

    fn rows(&mut self) -> Rows<'_> {
        let columns = unsafe { raw::tql_columns(self.number) };
        let mut length = 0;
        let names = (0..columns)
            .map(|it| unsafe { copied_of(raw::tql_name(self.number, it, &mut length), length) }.unwrap_or_default())
            .collect();
        Rows { engine: self, names }
    }

    fn refusal(&mut self) -> Refusal {
        unsafe {
            let it = self.number;
            let text = copied(raw::tql_error_text(it)).unwrap_or_else(|| "E01 out of memory".into());
            Refusal {
                number: raw::tql_error(it) as u32,
                text: text.get(4..).unwrap_or("").into(),
                detail: copied(raw::tql_error_detail(it)),
                hint: copied(raw::tql_error_hint(it)),
                constraint: copied(raw::tql_error_constraint(it)),
                columns: (0..).map_while(|place| copied(raw::tql_error_column(it, place))).collect(),
                row: u64::try_from(raw::tql_error_row(it)).ok().filter(|row| *row > 0),
                line: raw::tql_error_line(it) as u64,
                column: u64::try_from(raw::tql_error_place(it)).ok().filter(|column| *column > 0),
            }
        }
    }
}

impl Drop for Engine {
    fn drop(&mut self) {
        unsafe { raw::tql_close(self.number) };
    }
}

impl Rows<'_> {
    /// The headings.
    pub fn names(&self) -> &[String] {
        &self.names
    }

    fn cell(&self, column: c_int) -> Value {
        let it = self.engine.number;
        let mut length = 0;
        unsafe {
            match raw::tql_kind(it, column) {
                1 => Value::Integer(raw::tql_int64(it, column)),
                2 => Value::Text(copied_of(raw::tql_text(it, column, &mut length), length).unwrap_or_default()),
                3 => Value::Date(Date(raw::tql_int64(it, column))),
                4 => Value::Timestamp(Timestamp(raw::tql_int64(it, column))),
                _ => Value::Null,
            }
        }
    }
}

impl Iterator for Rows<'_> {
    type Item = Row;

    fn next(&mut self) -> Option<Row> {
        if unsafe { raw::tql_row(self.engine.number) } != raw::ROW {
            return None;
        }
        Some(Row { cells: (0..self.names.len() as c_int).map(|it| self.cell(it)).collect() })
    }

    fn size_hint(&self) -> (usize, Option<usize>) {
        let left = unsafe { raw::tql_rows_left(self.engine.number) } as usize;
        (left, Some(left))
    }
}

impl ExactSizeIterator for Rows<'_> {}
