//! Statements with parameters.
use crate::{raw, Answer, Engine, Error, Rows, Value};
use std::os::raw::c_int;

/// A statement with `?` in place of literals. It is run with values, each of which is passed as one literal, so no value is ever read as SQL.
#[derive(Clone, Debug)]
pub struct Statement {
    text: String,
}

/// Returns a value as C has it. It points to the text.
fn passed(value: &Value) -> raw::Value {
    let (kind, number, text) = match value {
        Value::Null => (0, 0, ""),
        Value::Integer(number) => (1, *number, ""),
        Value::Text(text) => (2, 0, text.as_str()),
        Value::Date(day) => (3, day.0, ""),
        Value::Timestamp(moment) => (4, moment.0, ""),
    };
    raw::Value { kind, number, text: text.as_ptr().cast(), length: text.len() as i64 }
}

impl Statement {
    /// Makes a statement of a text. Its parameters are the `?` outside quotes and comments.
    pub fn new(text: &str) -> Statement {
        Statement { text: text.to_owned() }
    }

    /// Returns the number of parameters. Any engine counts them.
    pub fn parameters(&self, engine: &Engine) -> usize {
        let count = unsafe { raw::tql_places(engine.number, self.text.as_ptr().cast(), self.text.len() as i64) };
        usize::try_from(count).unwrap_or(0)
    }

    fn answered(&self, engine: &mut Engine, values: &[Value]) -> Result<c_int, Error> {
        let passed: Vec<raw::Value> = values.iter().map(passed).collect();
        let (text, length) = (self.text.as_ptr().cast(), self.text.len() as i64);
        match unsafe { raw::tql_run_with(engine.number, text, length, passed.as_ptr(), passed.len()) } {
            raw::MISUSE => match self.parameters(engine) {
                wanted if wanted == values.len() => Err(Error::Range),
                wanted => Err(Error::Parameters { wanted, passed: values.len() }),
            },
            answer => Ok(answer),
        }
    }

    /// Runs it with values, as [`Engine::query`] does.
    pub fn query<'a>(&self, engine: &'a mut Engine, values: &[Value]) -> Result<Rows<'a>, Error> {
        let answer = self.answered(engine, values)?;
        engine.checked(answer)?;
        Ok(engine.rows())
    }

    /// Runs it with values.
    pub fn run<'a>(&self, engine: &'a mut Engine, values: &[Value]) -> Result<Answer<'a>, Error> {
        let answer = self.answered(engine, values)?;
        engine.answer(answer)
    }
}
