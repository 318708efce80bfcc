//! Signals, in the few calls of the C library that they need: the only unsafe code of the command.
//!
//! A handler writes the signal's number to a pipe and does nothing else; whoever waits for input
//! waits for that pipe too. So a signal that comes just before a blocking read is seen all the same.

use std::ffi::{c_int, c_short, c_ulong, c_void};
use std::fs::File;
use std::io::{self, Read};
use std::mem::size_of;
use std::os::fd::{AsRawFd, IntoRawFd};
use std::os::unix::net::UnixStream;
use std::process;
use std::ptr::null_mut;
use std::sync::atomic::{AtomicI32, AtomicU32, Ordering};
use std::time::Duration;

const SIGHUP: c_int = 1;
const SIGINT: c_int = 2;
const SIGTERM: c_int = 15;
const SIGXFSZ: c_int = 25;

/// What ends a capture.
const ENDING: [c_int; 3] = [SIGHUP, SIGINT, SIGTERM];

const SIG_DFL: usize = 0;
const SIG_IGN: usize = 1;
/// Calls that a signal interrupts are made again, where that can be.
const SA_RESTART: c_int = 0x1000_0000;
const POLLIN: c_short = 1;

/// The C library's `struct sigaction` on Linux x86-64.
#[repr(C)]
struct Action {
    handler: usize,
    mask: [u64; 16],
    flags: c_int,
    restorer: usize,
}

/// The C library's `struct pollfd`.
#[repr(C)]
struct Polled {
    fd: c_int,
    events: c_short,
    found: c_short,
}

const _: () = assert!(size_of::<Action>() == 152 && size_of::<Polled>() == 8);

extern "C" {
    fn sigaction(signal: c_int, new: *const Action, old: *mut Action) -> c_int;
    fn raise(signal: c_int) -> c_int;
    fn poll(polled: *mut Polled, count: c_ulong, milliseconds: c_int) -> c_int;
    fn write(fd: c_int, bytes: *const c_void, count: usize) -> isize;
    fn __errno_location() -> *mut c_int;
}

/// Where the handler writes. It is set before the handler is, and never closed.
static PIPE: AtomicI32 = AtomicI32::new(-1);
/// How many signals the handler has seen.
static SEEN: AtomicU32 = AtomicU32::new(0);

/// The handler. The third signal has its usual effect, whatever the program waits for.
extern "C" fn seen(signal: c_int) {
    if SEEN.fetch_add(1, Ordering::Relaxed) >= 2 {
        set(signal, SIG_DFL);
        // SAFETY: raise takes any number, and may be called in a handler. The signal waits until
        // the handler is left.
        unsafe { raise(signal) };
        return;
    }
    let byte = signal as u8;
    // SAFETY: a thread's errno is at this address as long as it runs; write may be called in a
    // handler, and reads the one byte that is lent. It doesn't wait, since the pipe doesn't block.
    // errno is set back, for the code that was interrupted may be about to look at it.
    unsafe {
        let errno = __errno_location();
        let before = *errno;
        write(PIPE.load(Ordering::Relaxed), (&raw const byte).cast(), 1);
        *errno = before;
    }
}

/// Gives a signal an effect: SIG_DFL, SIG_IGN or the address of [`seen`].
fn set(signal: c_int, handler: usize) {
    let action = Action { handler, mask: [0; 16], flags: SA_RESTART, restorer: 0 };
    // SAFETY: both structures are laid out as the C library's, the new one is whole and only read,
    // and none is asked for. The handler, where there is one, does only what a handler may do.
    unsafe { sigaction(signal, &action, null_mut()) };
}

/// Whether a signal was ignored when the program was started, as nohup does it.
fn is_ignored(signal: c_int) -> bool {
    let mut old = Action { handler: SIG_DFL, mask: [0; 16], flags: 0, restorer: 0 };
    // SAFETY: no action is given, and the old one is written to a structure laid out for it.
    let answer = unsafe { sigaction(signal, std::ptr::null(), &mut old) };
    answer == 0 && old.handler == SIG_IGN
}

/// A file that may not grow further is from now on an error of the write, and not the program's end.
pub fn ignore_file_size() {
    set(SIGXFSZ, SIG_IGN);
}

/// The signals that end a capture, caught.
pub struct Signals(UnixStream);

/// What a wait ended with.
#[derive(Debug, PartialEq, Eq)]
pub enum Woken {
    /// There is input, or its end.
    Input,
    Signal(Signal),
    /// Neither, for so long.
    Nothing,
}

/// A signal that was caught.
#[derive(Clone, Copy, Debug, PartialEq, Eq)]
pub struct Signal(c_int);

impl Signal {
    pub fn name(self) -> &'static str {
        match self.0 {
            SIGHUP => "SIGHUP",
            SIGINT => "SIGINT",
            _ => "SIGTERM",
        }
    }

    /// Ends the program as this signal does where it isn't caught.
    pub fn die(self) -> ! {
        set(self.0, SIG_DFL);
        // SAFETY: raise takes any number.
        unsafe { raise(self.0) };
        process::exit(128 + self.0)
    }
}

impl Signals {
    /// From now on SIGHUP, SIGINT and SIGTERM are told here, but for those that were ignored when
    /// the program was started: they stay so.
    pub fn catch() -> io::Result<Signals> {
        let (told, tells) = UnixStream::pair()?;
        told.set_nonblocking(true)?;
        tells.set_nonblocking(true)?;
        PIPE.store(tells.into_raw_fd(), Ordering::Relaxed);
        let handler: extern "C" fn(c_int) = seen;
        for signal in ENDING.into_iter().filter(|signal| !is_ignored(*signal)) {
            set(signal, handler as usize);
        }
        Ok(Signals(told))
    }

    /// Waits for a signal, for input or, where a time is given, for its end. A signal comes before
    /// input.
    pub fn wait(&self, input: Option<&File>, time: Option<Duration>) -> io::Result<Woken> {
        let told = Polled { fd: self.0.as_raw_fd(), events: POLLIN, found: 0 };
        // A negative number is no file, and is not looked at.
        let fd = input.map_or(-1, File::as_raw_fd);
        let mut polled = [told, Polled { fd, events: POLLIN, found: 0 }];
        let milliseconds = time.map_or(-1, |time| time.as_millis() as c_int);
        loop {
            // SAFETY: the structures are laid out as the C library's, and there are as many as is
            // said. The files are open as long as `self` and `input` are lent.
            let found = unsafe { poll(polled.as_mut_ptr(), polled.len() as c_ulong, milliseconds) };
            let mut number = [0];
            match found {
                0 => return Ok(Woken::Nothing),
                1.. if polled[0].found != 0 => {
                    if (&self.0).read(&mut number)? == 1 {
                        return Ok(Woken::Signal(Signal(number[0].into())));
                    }
                }
                1.. => return Ok(Woken::Input),
                _ => match io::Error::last_os_error() {
                    error if error.kind() == io::ErrorKind::Interrupted => {}
                    error => return Err(error),
                },
            }
        }
    }
}
