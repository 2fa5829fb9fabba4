//! The calls that make pins, and those that take them.
use super::room::emptied;
use super::{Client, Rows, own};
use crate::code::Code;
use crate::fault::{ErrorRoom, Fault, answer};
use crate::input::{self, range};
use crate::pin::OwnPin;
use crate::writes::{GivenWrite, write_all, writes};
use krl::Outcome;
use krl_ffi::{Handle, Kind, put_out, quiet};
use std::ffi::c_void;
use std::ptr;

type Pin = Handle<OwnPin>;

static PINS: Kind<OwnPin> = Kind::new("pin");

#[unsafe(no_mangle)]
pub unsafe extern "C" fn krlc_pin_held(
    client: *mut Client,
    lo: u64,
    hi: u64,
    pin: *mut *mut Pin,
    timeout_ms: u64,
    error: *mut ErrorRoom,
) -> u32 {
    let take = || {
        // SAFETY: the caller vouches for the room.
        unsafe { put_out("a pin", pin, ptr::null_mut()) }?;
        // SAFETY: the caller frees the client after this call.
        let joined = unsafe { own(client) }?;
        let taken = joined.own(joined.within(timeout_ms).pin(range(lo, hi)?)?);
        // SAFETY: the caller vouches for the room.
        unsafe { put_out("a pin", pin, PINS.open(taken)?) }?;
        Ok(Code::Ok)
    };
    // SAFETY: the caller vouches for the room of the error.
    unsafe { answer(error, take) }
}

/// Defines a call by which a client reads a range and pins it.
macro_rules! pin_call {
    ($pin_call:ident, $owner:ty, $pin_for:ident) => {
        #[unsafe(no_mangle)]
        pub unsafe extern "C" fn $pin_call(
            client: *mut $owner,
            lo: u64,
            hi: u64,
            rows: *mut Rows,
            pin: *mut *mut Pin,
            timeout_ms: u64,
            error: *mut ErrorRoom,
        ) -> u32 {
            let take = || {
                // SAFETY: the caller vouches for the room.
                unsafe { put_out("a pin", pin, ptr::null_mut()) }?;
                // SAFETY: the caller frees the client after this call.
                let joined = unsafe { own(client) }?;
                // SAFETY: the caller frees the rows after this call, and uses them in no other one.
                let room = if rows.is_null() { None } else { Some(unsafe { emptied(rows) }?) };
                let (found, taken) = joined.within(timeout_ms).$pin_for(range(lo, hi)?)?;
                // SAFETY: the caller vouches for the room.
                unsafe { put_out("a pin", pin, PINS.open(joined.own(taken))?) }?;
                if let Some(room) = room {
                    *room = found;
                }
                Ok(Code::Ok)
            };
            // SAFETY: the caller vouches for the room of the error.
            unsafe { answer(error, take) }
        }
    };
}

pin_call!(krlc_pin_for_read, Client, pin_for_read);
pin_call!(krlc_pin_for_update, Client, pin_for_update);
pin_call!(krlc_pin_for_write, Client, pin_for_write);

#[unsafe(no_mangle)]
pub unsafe extern "C" fn krlc_pin_holds(pin: *mut Pin) -> u32 {
    let holds = || {
        // SAFETY: the caller frees the pin after this call.
        let pin = unsafe { PINS.own_value(pin) }?;
        Ok(if pin.holds() { Code::Ok } else { Code::PinIsVoid })
    };
    // SAFETY: there is no room for an error.
    unsafe { answer(ptr::null_mut(), holds) }
}

/// Makes a write by a pin.
///
/// # Safety
///
/// As the header requires of the calls below.
unsafe fn write(
    pin: *mut Pin,
    timeout_ms: u64,
    error: *mut ErrorRoom,
    write: impl FnOnce(&krl::Pin) -> Result<Outcome, Fault>,
) -> u32 {
    let write = || {
        // SAFETY: the caller frees the pin after this call.
        let pin = unsafe { PINS.own_value(pin) }?.within(timeout_ms);
        Ok(write(&pin)?.into())
    };
    // SAFETY: the caller vouches for the room of the error.
    unsafe { answer(error, write) }
}

row_call!(krlc_pin_insert, Pin, insert);
row_call!(krlc_pin_put, Pin, put);
row_call!(krlc_pin_set, Pin, set);

#[unsafe(no_mangle)]
pub unsafe extern "C" fn krlc_pin_delete(
    pin: *mut Pin,
    key: u64,
    timeout_ms: u64,
    error: *mut ErrorRoom,
) -> u32 {
    // SAFETY: the caller vouches for the pin and the room.
    unsafe { write(pin, timeout_ms, error, |pin| Ok(pin.delete(key)?)) }
}

#[unsafe(no_mangle)]
pub unsafe extern "C" fn krlc_pin_write_all(
    pin: *mut Pin,
    at: *mut GivenWrite,
    count: usize,
    timeout_ms: u64,
    error: *mut ErrorRoom,
) -> u32 {
    let write = || {
        // SAFETY: the caller vouches for this many writes, and frees the pin after this call.
        let (given, pin) = unsafe { (writes(at, count)?, PINS.own_value(pin)?) };
        write_all(given, |wanted| pin.within(timeout_ms).write_all(wanted))
    };
    // SAFETY: the caller vouches for the room of the error.
    unsafe { answer(error, write) }
}

#[unsafe(no_mangle)]
pub unsafe extern "C" fn krlc_pin_free(pin: *mut Pin) {
    // SAFETY: the caller makes no other call with the pin.
    quiet(|| unsafe { PINS.free(pin, drop) });
}
