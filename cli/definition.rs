//! Where a signal lies and what it is worth, as it was given.

use crate::failure::Failure;
use crate::number::Number;
use crate::options::Options;
use crate::real::Real;
use tikhoplav::signals::Signal;

pub struct Definition {
    pub start: u32,
    pub width: Number,
    is_signed: bool,
    pub scale: Real,
    pub offset: Real,
    pub low: Real,
    pub high: Real,
}

impl Definition {
    /// As the options of `signal` give it.
    pub fn read(options: &Options) -> Result<Definition, Failure> {
        let given = |name| match options.value(&format!("--{name}")) {
            Some(value) => Ok(value.to_string_lossy().into_owned()),
            None => Err(format!("{name} is needed")),
        };
        Definition::of(options.has("--signed"), given)
            .map_err(|what| Failure::Usage(format!("--{what}")))
    }

    /// Of what is given under each name. The error begins with the name of what is wrong.
    pub fn of(
        is_signed: bool,
        given: impl Fn(&'static str) -> Result<String, String>,
    ) -> Result<Definition, String> {
        let named = |name| move |what| format!("{name}: {what}");
        let number = |name| Number::parse(&given(name)?).map_err(named(name));
        let real = |name| Real::parse(&given(name)?).map_err(named(name));
        Ok(Definition {
            start: start(&number("start")?).map_err(named("start"))?,
            width: number("width")?,
            is_signed,
            scale: real("scale")?,
            offset: real("offset")?,
            low: real("low")?,
            high: real("high")?,
        })
    }

    /// For the call.
    pub fn signal(&self) -> Signal {
        Signal {
            start: self.start,
            width: self.width.value(),
            is_signed: u32::from(self.is_signed),
            scale: self.scale.value,
            offset: self.offset.value,
            low: self.low.value,
            high: self.high.value,
        }
    }
}

fn start(number: &Number) -> Result<u32, String> {
    number.exact().ok_or_else(|| {
        let last = u32::MAX;
        format!("{number} is over {last}, the last start that the call takes")
    })
}
