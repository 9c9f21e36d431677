//! Stands in for util.rs, of which the given files use these three functions.
//! It can't change what is compared: the messages come from the callers, and without NaN and minus
//! zero every way to write the smaller and the larger of two numbers gives the same number.
use crate::errors::RCFError;
use crate::types::Result;

pub fn check_argument(holds: bool, msg: &'static str) -> Result<()> {
    if holds {
        Ok(())
    } else {
        Err(RCFError::InvalidArgument { msg })
    }
}

pub fn minf32(a: f32, b: f32) -> f32 {
    if a < b {
        a
    } else {
        b
    }
}

pub fn maxf32(a: f32, b: f32) -> f32 {
    if a > b {
        a
    } else {
        b
    }
}
