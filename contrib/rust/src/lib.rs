//! A headless host for Tk 8.6 applications, over the library libtkhost: a safe wrapper of each of its calls.
//!
//! ```no_run
//! use tkhost::{Host, Rect};
//!
//! let mut host = Host::new(64)?;
//! host.add("gauge", Rect { x: 0, y: 0, width: 100, height: 50 }, "after 5 {puts ready}", 1000, 0, &[])?;
//! host.start()?;
//! host.advance(10)?;
//! print!("{}", String::from_utf8_lossy(&host.section(0)?));
//! # Ok::<(), tkhost::Fault>(())
//! ```
use std::{error::Error, fmt, ptr};

mod sys {
    use std::marker::{PhantomData, PhantomPinned};

    #[repr(C)]
    pub struct TkhostHost {
        _opaque: [u8; 0],
        _marker: PhantomData<(*mut u8, PhantomPinned)>,
    }

    pub type Handle = *mut TkhostHost;

    extern "C" {
        pub fn tkhost_play(session: *const u8, length: usize, slice: u64, buffer: *mut u8, capacity: usize, told: *mut usize) -> u32;
        pub fn tkhost_new(host: *mut Handle, slice: u64) -> u32;
        pub fn tkhost_free(host: *mut Handle) -> u32;
        pub fn tkhost_alias(host: *mut Handle, name: *const u8, name_length: usize, kind: u32, config: *const u8, config_length: usize) -> u32;
        #[allow(clippy::too_many_arguments)]
        pub fn tkhost_add(host: *mut Handle, name: *const u8, name_length: usize, x: u32, y: u32, width: u32, height: u32, script: *const u8, script_length: usize, total: u64, refill: u64) -> u32;
        pub fn tkhost_start(host: *mut Handle) -> u32;
        pub fn tkhost_move(host: *mut Handle, moment: u64, x: u32, y: u32) -> u32;
        pub fn tkhost_press(host: *mut Handle, moment: u64, button: u32) -> u32;
        pub fn tkhost_release(host: *mut Handle, moment: u64, button: u32) -> u32;
        pub fn tkhost_keydown(host: *mut Handle, moment: u64, name: *const u8, name_length: usize) -> u32;
        pub fn tkhost_keyup(host: *mut Handle, moment: u64, name: *const u8, name_length: usize) -> u32;
        pub fn tkhost_focus(host: *mut Handle, moment: u64, slot: usize) -> u32;
        pub fn tkhost_unfocus(host: *mut Handle, moment: u64) -> u32;
        pub fn tkhost_rect(host: *mut Handle, moment: u64, slot: usize, x: u32, y: u32, width: u32, height: u32) -> u32;
        pub fn tkhost_line(host: *mut Handle, line: *const u8, length: usize) -> u32;
        pub fn tkhost_advance(host: *mut Handle, moment: u64) -> u32;
        pub fn tkhost_end(host: *mut Handle, moment: u64) -> u32;
        pub fn tkhost_section(host: *mut Handle, slot: usize, buffer: *mut u8, capacity: usize, told: *mut usize) -> u32;
        pub fn tkhost_turns(host: *mut Handle, turns: *mut super::Turn, capacity: usize, told: *mut usize) -> u32;
        pub fn tkhost_asker(host: *mut Handle, slot: *mut usize) -> u32;
        pub fn tkhost_text(number: u32, buffer: *mut u8, capacity: usize, told: *mut usize) -> u32;
    }
}

/// Why a call was refused: its number, and of a faulty session the line.
#[derive(Clone, Copy, Debug, PartialEq, Eq)]
pub struct Fault {
    pub number: u32,
    pub line: Option<usize>,
}

impl Fault {
    /// What the number says, in words.
    pub fn text(&self) -> String {
        let (mut buffer, mut told) = ([0; 64], 0);
        // SAFETY: the buffer is of the capacity that is told.
        unsafe { sys::tkhost_text(self.number, buffer.as_mut_ptr(), buffer.len(), &mut told) };
        String::from_utf8_lossy(&buffer[..told.min(buffer.len())]).into_owned()
    }
}

impl fmt::Display for Fault {
    fn fmt(&self, f: &mut fmt::Formatter<'_>) -> fmt::Result {
        write!(f, "{} ({})", self.text(), self.number)?;
        self.line.map_or(Ok(()), |line| write!(f, " at line {line}"))
    }
}

impl Error for Fault {}

const TOO_SMALL: u32 = 67;

fn answer(number: u32) -> Result<(), Fault> {
    if number == 0 {
        Ok(())
    } else {
        Err(Fault { number, line: None })
    }
}

/// Asks with a buffer, and again with one that is as long as was told.
fn told<T: Clone + Default>(mut capacity: usize, mut ask: impl FnMut(&mut [T], &mut usize) -> u32) -> Result<Vec<T>, (u32, usize)> {
    loop {
        let (mut buffer, mut length) = (vec![T::default(); capacity], 0);
        match ask(&mut buffer, &mut length) {
            0 => {
                buffer.truncate(length);
                return Ok(buffer);
            }
            TOO_SMALL => capacity = length,
            number => return Err((number, length)),
        }
    }
}

#[derive(Clone, Copy, Debug, PartialEq, Eq)]
pub struct Rect {
    pub x: u32,
    pub y: u32,
    pub width: u32,
    pub height: u32,
}

/// What an alias does, by its configuration.
#[derive(Clone, Copy, Debug, PartialEq, Eq)]
#[repr(u32)]
pub enum Kind {
    Const = 0,
    Upper = 1,
    Table = 2,
    Sum = 3,
    Fail = 4,
}

/// A command of an application that the host serves.
#[derive(Clone, Copy, Debug, PartialEq, Eq)]
pub struct Alias<'a> {
    pub name: &'a str,
    pub kind: Kind,
    pub config: &'a str,
}

/// A turn: the slot of the application that had it, and how many steps it took.
#[derive(Clone, Copy, Debug, Default, PartialEq, Eq)]
#[repr(C)]
pub struct Turn {
    pub slot: usize,
    pub steps: u64,
}

/// Plays a whole session, and gives its sections, one after another.
pub fn play(session: &[u8], slice: u64) -> Result<Vec<u8>, Fault> {
    // SAFETY: each slice is passed with its length, and none is null.
    told(1 << 16, |buffer, length| unsafe { sys::tkhost_play(session.as_ptr(), session.len(), slice, buffer.as_mut_ptr(), buffer.len(), length) })
        .map_err(|(number, line)| Fault { number, line: (line > 0).then_some(line) })
}

/// A host of up to sixteen applications. It is freed where it is dropped.
#[derive(Debug)]
pub struct Host {
    handle: sys::Handle,
}

// SAFETY: a host holds no thread's own data, and each call takes it by `&mut`, so that one thread at a time calls.
unsafe impl Send for Host {}

impl Host {
    /// A host without applications, each of which takes at most `slice` steps in a turn.
    pub fn new(slice: u64) -> Result<Host, Fault> {
        let mut host = Host { handle: ptr::null_mut() };
        // SAFETY: the handle has no host yet.
        answer(unsafe { sys::tkhost_new(&mut host.handle, slice) })?;
        Ok(host)
    }

    /// Adds an application in the next slot, with aliases of its own.
    pub fn add(&mut self, name: &str, rect: Rect, script: &str, total: u64, refill: u64, aliases: &[Alias<'_>]) -> Result<(), Fault> {
        for alias in aliases {
            // SAFETY: as of all calls below: the handle is this host's, and each slice is passed with its length.
            let answered = answer(unsafe {
                sys::tkhost_alias(&mut self.handle, alias.name.as_ptr(), alias.name.len(), alias.kind as u32, alias.config.as_ptr(), alias.config.len())
            });
            if answered.is_err() {
                // An application without a name is refused, and takes the aliases with it that wait already: the next one isn't to get them.
                let _ = self.add_one("", rect, "", 0, 0);
                return answered;
            }
        }
        self.add_one(name, rect, script, total, refill)
    }

    /// Adds an application with the aliases that wait.
    fn add_one(&mut self, name: &str, rect: Rect, script: &str, total: u64, refill: u64) -> Result<(), Fault> {
        let Rect { x, y, width, height } = rect;
        answer(unsafe {
            sys::tkhost_add(&mut self.handle, name.as_ptr(), name.len(), x, y, width, height, script.as_ptr(), script.len(), total, refill)
        })
    }

    pub fn start(&mut self) -> Result<(), Fault> {
        answer(unsafe { sys::tkhost_start(&mut self.handle) })
    }

    pub fn move_to(&mut self, moment: u64, x: u32, y: u32) -> Result<(), Fault> {
        answer(unsafe { sys::tkhost_move(&mut self.handle, moment, x, y) })
    }

    pub fn press(&mut self, moment: u64, button: u32) -> Result<(), Fault> {
        answer(unsafe { sys::tkhost_press(&mut self.handle, moment, button) })
    }

    pub fn release(&mut self, moment: u64, button: u32) -> Result<(), Fault> {
        answer(unsafe { sys::tkhost_release(&mut self.handle, moment, button) })
    }

    pub fn keydown(&mut self, moment: u64, key: &str) -> Result<(), Fault> {
        answer(unsafe { sys::tkhost_keydown(&mut self.handle, moment, key.as_ptr(), key.len()) })
    }

    pub fn keyup(&mut self, moment: u64, key: &str) -> Result<(), Fault> {
        answer(unsafe { sys::tkhost_keyup(&mut self.handle, moment, key.as_ptr(), key.len()) })
    }

    /// The application in a slot has the keys, or none has them.
    pub fn focus(&mut self, moment: u64, slot: Option<usize>) -> Result<(), Fault> {
        answer(match slot {
            Some(slot) => unsafe { sys::tkhost_focus(&mut self.handle, moment, slot) },
            None => unsafe { sys::tkhost_unfocus(&mut self.handle, moment) },
        })
    }

    /// The application in a slot has another rectangle.
    pub fn rect(&mut self, moment: u64, slot: usize, rect: Rect) -> Result<(), Fault> {
        answer(unsafe { sys::tkhost_rect(&mut self.handle, moment, slot, rect.x, rect.y, rect.width, rect.height) })
    }

    /// A line of a session, as it stands behind `events`.
    pub fn line(&mut self, line: &[u8]) -> Result<(), Fault> {
        answer(unsafe { sys::tkhost_line(&mut self.handle, line.as_ptr(), line.len()) })
    }

    pub fn advance(&mut self, moment: u64) -> Result<(), Fault> {
        answer(unsafe { sys::tkhost_advance(&mut self.handle, moment) })
    }

    pub fn end(&mut self, moment: u64) -> Result<(), Fault> {
        answer(unsafe { sys::tkhost_end(&mut self.handle, moment) })
    }

    /// The section of the application in a slot.
    pub fn section(&mut self, slot: usize) -> Result<Vec<u8>, Fault> {
        told(1 << 12, |buffer, length| unsafe { sys::tkhost_section(&mut self.handle, slot, buffer.as_mut_ptr(), buffer.len(), length) })
            .map_err(|(number, _)| Fault { number, line: None })
    }

    /// The turns that took steps in the last call that ran applications.
    pub fn turns(&mut self) -> Result<Vec<Turn>, Fault> {
        told(64, |buffer: &mut [Turn], length| unsafe { sys::tkhost_turns(&mut self.handle, buffer.as_mut_ptr(), buffer.len(), length) })
            .map_err(|(number, _)| Fault { number, line: None })
    }

    /// The slot of the application that asked for the memory that was refused, once the host is broken.
    pub fn asker(&mut self) -> Option<usize> {
        let mut slot = 0;
        // SAFETY: the handle is this host's, and the slot is ours.
        let answer = unsafe { sys::tkhost_asker(&mut self.handle, &mut slot) };
        (answer == 0).then_some(slot)
    }
}

impl Drop for Host {
    fn drop(&mut self) {
        // SAFETY: the handle is this host's, or null, which is refused.
        unsafe { sys::tkhost_free(&mut self.handle) };
    }
}
