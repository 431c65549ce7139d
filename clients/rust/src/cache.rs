//! A cache.
use crate::act::{Acts, Told};
use crate::error::Error;
use crate::event::{Event, Load, Request};
use crate::raw::{self, Handle, Numbers};
use alloc::vec::Vec;
use core::fmt;

/// How much a cache may hold.
#[derive(Clone, Copy, Debug, PartialEq, Eq)]
pub struct Limits {
    /// No stored body has more bytes.
    pub max_entry: u64,
    /// The store in all weighs no more: the bytes of all bodies, and 32,768 for each.
    pub max_total: u64,
}

/// A cache in memory. It may go from thread to thread; each call borrows it alone.
pub struct Cache {
    handle: Handle,
    /// Those of the last event.
    acts: Vec<Told>,
    bytes: Vec<u8>,
}

// A handle may go from thread to thread, as long as one call on it returns before the next begins. Each
// call takes `&mut self`, so that is so.
unsafe impl Send for Cache {}

impl Cache {
    fn around(handle: Handle) -> Cache {
        Cache { handle, acts: Vec::new(), bytes: Vec::new() }
    }

    fn same_version() -> Result<(), Error> {
        match raw::vosdrieng_version() {
            raw::VERSION => Ok(()),
            other => Err(Error::OtherVersion(other)),
        }
    }

    /// An empty cache.
    pub fn new(limits: Limits) -> Result<Cache, Error> {
        Cache::same_version()?;
        let mut cache = Cache::around(Handle::none());
        let Limits { max_entry, max_total } = limits;
        Error::told(raw::vosdrieng_new(&mut cache.handle, max_entry, max_total))?;
        Ok(cache)
    }

    /// A cache with what an image has, whole and nothing behind it.
    pub fn open(limits: Limits, image: &[u8]) -> Result<Cache, Error> {
        Cache::same_version()?;
        let mut cache = Cache::around(Handle::none());
        let Limits { max_entry, max_total } = limits;
        let handle = &mut cache.handle;
        // The pointer is to as many bytes, which are read in the call alone.
        Error::told(unsafe {
            raw::vosdrieng_open(handle, max_entry, max_total, image.as_ptr(), image.len())
        })?;
        Ok(cache)
    }

    /// Hands in an event, at a moment in whole seconds since 1970 that isn't before the last one. What it
    /// answers is to be done.
    pub fn step(&mut self, now: u64, event: &Event<'_>) -> Result<Acts<'_>, Error> {
        Error::told(self.hand_in(now, event))?;
        self.collect()?;
        Ok(Acts::of(&self.acts, &self.bytes))
    }

    fn hand_in(&mut self, now: u64, event: &Event<'_>) -> u32 {
        let cache = &mut self.handle;
        match *event {
            Event::Start { consumer, request } => start(cache, now, consumer, &request),
            Event::Poll { consumer, want } => raw::vosdrieng_poll(cache, now, consumer, want),
            Event::Cancel { consumer } => raw::vosdrieng_cancel(cache, now, consumer),
            // Each pointer is to as many bytes, which are read in the call alone.
            Event::Doom { target } => unsafe {
                raw::vosdrieng_doom(cache, now, target.as_ptr(), target.len())
            },
            Event::Head { exchange, status, fields } => unsafe {
                let status = u32::from(status);
                raw::vosdrieng_head(cache, now, exchange, status, fields.as_ptr(), fields.len())
            },
            Event::Piece { exchange, bytes } => unsafe {
                raw::vosdrieng_piece(cache, now, exchange, bytes.as_ptr(), bytes.len())
            },
            Event::End { exchange } => raw::vosdrieng_end(cache, now, exchange),
            Event::Fault { exchange } => raw::vosdrieng_fault(cache, now, exchange),
        }
    }

    /// Takes all acts of the last event.
    fn collect(&mut self) -> Result<(), Error> {
        self.acts.clear();
        self.bytes.clear();
        let mut numbers = Numbers::default();
        while raw::vosdrieng_next_act(&mut self.handle, &mut numbers) == 1 {
            let length = usize::try_from(numbers.length).map_err(|_| Error::NoMemory)?;
            self.acts.try_reserve(1).map_err(|_| Error::NoMemory)?;
            self.bytes.try_reserve(length).map_err(|_| Error::NoMemory)?;
            self.copy_bytes(length);
            self.acts.push(Told { numbers, end: self.bytes.len() });
        }
        Ok(())
    }

    /// Appends the bytes of the act that was told last. There is room for them.
    fn copy_bytes(&mut self, length: usize) {
        if length == 0 {
            return;
        }
        let at = self.bytes.len();
        let room = &mut self.bytes.spare_capacity_mut()[..length];
        // The pointer is to as many bytes, which are written in the call alone. Those that it copied are there then.
        unsafe {
            let copied = raw::vosdrieng_act_bytes(&mut self.handle, room.as_mut_ptr().cast(), length);
            self.bytes.set_len(at + copied);
        }
    }

    /// Reads a further piece of the text of a schedule, cut anywhere, and answers the report of the events
    /// whose items end in it. However the text is cut, the reports one after another are that of the
    /// whole text, as `vosdrieng replay` writes it. A text begins before any event of [`Cache::step`].
    ///
    /// At [`Error::BadText`] the events before the refused line were answered: [`Cache::report`] has their
    /// report.
    pub fn schedule(&mut self, text: &[u8]) -> Result<&[u8], Error> {
        let (mut line, mut why) = (0, 0);
        let handle = &mut self.handle;
        // The pointer is to as many bytes, which are read in the call alone.
        let answer =
            unsafe { raw::vosdrieng_schedule(handle, text.as_ptr(), text.len(), &mut line, &mut why) };
        Error::told_of_text(answer, line, why)?;
        self.report()
    }

    /// Tells that the text ends here: at [`Error::BadText`] a line or field lines are missing, or the text
    /// was refused.
    pub fn schedule_end(&mut self) -> Result<(), Error> {
        let (mut line, mut why) = (0, 0);
        let answer = raw::vosdrieng_schedule_end(&mut self.handle, &mut line, &mut why);
        Error::told_of_text(answer, line, why)
    }

    /// The report of the last piece of a text.
    pub fn report(&mut self) -> Result<&[u8], Error> {
        self.acts.clear();
        self.bytes.clear();
        let handle = &mut self.handle;
        // The pointer is to no bytes.
        let len = unsafe { raw::vosdrieng_report(handle, self.bytes.as_mut_ptr(), 0) };
        self.bytes.try_reserve(len).map_err(|_| Error::NoMemory)?;
        self.bytes.resize(len, 0);
        // The pointer is to as many bytes, which are written in the call alone.
        unsafe { raw::vosdrieng_report(handle, self.bytes.as_mut_ptr(), len) };
        Ok(&self.bytes)
    }

    /// The image of what the store has, with which [`Cache::open`] begins. Nobody may be live.
    pub fn image(&mut self) -> Result<Vec<u8>, Error> {
        let mut image = Vec::new();
        loop {
            let mut len = 0;
            let handle = &mut self.handle;
            // The pointer is to as many bytes, which are written in the call alone.
            Error::told(unsafe { raw::vosdrieng_image(handle, image.as_mut_ptr(), image.len(), &mut len) })?;
            if len <= image.len() {
                image.truncate(len);
                return Ok(image);
            }
            image.try_reserve(len - image.len()).map_err(|_| Error::NoMemory)?;
            image.resize(len, 0);
        }
    }

    /// How often the store failed. One in memory never does.
    pub fn faults(&mut self) -> u64 {
        raw::vosdrieng_faults(&mut self.handle)
    }

    /// The moment of the last event; before the first that of the image, or 0.
    pub fn moment(&mut self) -> u64 {
        raw::vosdrieng_moment(&mut self.handle)
    }

    /// How many consumers are live.
    pub fn live(&mut self) -> u64 {
        raw::vosdrieng_live(&mut self.handle)
    }
}

fn mode_of(load: Load) -> u32 {
    match load {
        Load::Normal => 0,
        Load::Validate => 1,
        Load::Bypass => 2,
        Load::Skip => 3,
        Load::Only => 4,
        Load::Disable => 5,
    }
}

fn start(cache: &mut Handle, now: u64, consumer: u64, request: &Request<'_>) -> u32 {
    let Request { method, load, target, fields } = *request;
    // Each pointer is to as many bytes, which are read in the call alone.
    unsafe {
        raw::vosdrieng_start(
            cache,
            now,
            consumer,
            method.as_ptr(),
            method.len(),
            mode_of(load),
            target.as_ptr(),
            target.len(),
            fields.as_ptr(),
            fields.len(),
        )
    }
}

impl Drop for Cache {
    fn drop(&mut self) {
        raw::vosdrieng_free(&mut self.handle);
    }
}

impl fmt::Debug for Cache {
    fn fmt(&self, f: &mut fmt::Formatter<'_>) -> fmt::Result {
        f.debug_struct("Cache").finish_non_exhaustive()
    }
}
