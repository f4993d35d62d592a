//! Running the crate: how it came out, and what it said meanwhile.

use crate::event::opj_event_mgr;
use core::ffi::{c_char, c_void, CStr};
use std::cell::Cell;
use std::panic::{catch_unwind, AssertUnwindSafe};
use std::sync::Once;

/// How a run of the crate came out.
#[derive(Clone, Copy, Debug, PartialEq, Eq)]
pub enum Outcome {
    Success,
    Failure,
    /// The crate panicked; the last message is the panic's.
    Panic,
}

#[derive(Clone, Copy, Debug, PartialEq, Eq)]
pub enum Level {
    Error,
    Warning,
    Info,
    /// No message of the crate's event manager but the text of its panic.
    Panic,
}

/// What the crate's event manager was told, or what a panic said.
#[derive(Clone, Debug, PartialEq, Eq)]
pub struct Message {
    pub level: Level,
    pub text: String,
}

/// The last error in `messages`: the one that a failure is due to, because the crate stops at it or, where it goes
/// on to look for more, fails for the same reason.
pub(crate) fn last_error(messages: &[Message]) -> Option<&str> {
    let error = messages
        .iter()
        .rev()
        .find(|message| message.level == Level::Error);
    error.map(|message| message.text.as_str())
}

/// Runs a part of the crate with an event manager that keeps every message.
pub(crate) fn ask(run: impl FnOnce(&mut opj_event_mgr) -> bool) -> (Outcome, Vec<Message>) {
    let mut heard = Vec::<Message>::new();
    let keep = &raw mut heard as *mut c_void;
    let mut manager = opj_event_mgr::default();
    manager.set_error_handler(Some(hear_error), keep);
    manager.set_warning_handler(Some(hear_warning), keep);
    manager.set_info_handler(Some(hear_info), keep);
    let outcome = match catch(|| run(&mut manager)) {
        Ok(true) => Outcome::Success,
        Ok(false) => Outcome::Failure,
        Err(text) => {
            heard.push(Message {
                level: Level::Panic,
                text,
            });
            Outcome::Panic
        }
    };
    (outcome, heard)
}

unsafe extern "C" fn hear_error(text: *const c_char, heard: *mut c_void) {
    unsafe { hear(Level::Error, text, heard) }
}

unsafe extern "C" fn hear_warning(text: *const c_char, heard: *mut c_void) {
    unsafe { hear(Level::Warning, text, heard) }
}

unsafe extern "C" fn hear_info(text: *const c_char, heard: *mut c_void) {
    unsafe { hear(Level::Info, text, heard) }
}

/// `heard` is the list of the [`ask`] that is running, and `text` ends in a zero byte: the crate makes it so.
unsafe fn hear(level: Level, text: *const c_char, heard: *mut c_void) {
    let (text, heard) = unsafe { (CStr::from_ptr(text), &mut *heard.cast::<Vec<Message>>()) };
    heard.push(Message {
        level,
        text: text.to_string_lossy().into_owned(),
    });
}

thread_local! {
    static INSIDE_THE_CRATE: Cell<bool> = const { Cell::new(false) };
}

/// Runs a part of the crate; a panic in it comes back as its text.
pub(crate) fn catch<T>(run: impl FnOnce() -> T) -> Result<T, String> {
    quieten();
    INSIDE_THE_CRATE.set(true);
    let result = catch_unwind(AssertUnwindSafe(run));
    INSIDE_THE_CRATE.set(false);
    result.map_err(|payload| {
        let text = payload.downcast_ref::<String>().map(String::as_str);
        let text = text.or_else(|| payload.downcast_ref::<&str>().copied());
        text.unwrap_or_default().to_owned()
    })
}

/// Panics of the crate print nothing; all others are printed as before.
fn quieten() {
    static ONCE: Once = Once::new();
    ONCE.call_once(|| {
        let before = std::panic::take_hook();
        std::panic::set_hook(Box::new(move |panic| {
            if !INSIDE_THE_CRATE.get() {
                before(panic);
            }
        }));
    });
}
