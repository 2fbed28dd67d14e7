//! The functions of the header as a trait, the archive that is tested, and the model behind the same trait.

use crate::check::Rules;
use crate::weaken::weaken_texts;

/// Lent memory between guards. A checker is given the middle part; every item, guards too, is compared afterwards.
#[derive(Clone, PartialEq, Eq, Debug)]
pub struct Lent<T> {
    pub all: Vec<T>,
    pub start: usize,
    pub length: usize,
}

pub const GUARD: usize = 16;

impl<T: Copy> Lent<T> {
    /// A part of the given length, filled by a function of the place so that a moved item shows.
    pub fn new(length: usize, fill: impl Fn(usize) -> T) -> Lent<T> {
        Lent { all: (0..length + 2 * GUARD).map(fill).collect(), start: GUARD, length }
    }

    pub fn part(&mut self) -> &mut [T] {
        &mut self.all[self.start..self.start + self.length]
    }
}

pub trait Checker {
    fn check(&self, history: &[u8], certificate: &[u8]) -> u32;
    fn verdict(&self, history: &[u8], certificate: &[u8], places: &mut Lent<u32>) -> u32;
    fn rewrite_history(&self, history: &[u8], buffer: &mut Lent<u8>, length: &mut u64) -> u32;
    fn rewrite_certificate(&self, history: &[u8], certificate: &[u8], buffer: &mut Lent<u8>, length: &mut u64) -> u32;
    fn weaken(&self, history: &[u8], certificate: &[u8], wanted: u32, buffer: &mut Lent<u8>, length: &mut u64) -> u32;
    fn sequential(&self, history: &[u8], certificate: &[u8], buffer: &mut Lent<u8>, length: &mut u64) -> u32;
}

extern "C" {
    fn walnutgleam_check(history: *const u8, history_length: usize, certificate: *const u8, certificate_length: usize) -> u32;
    fn walnutgleam_verdict(
        history: *const u8,
        history_length: usize,
        certificate: *const u8,
        certificate_length: usize,
        places: *mut u32,
        places_length: usize,
    ) -> u32;
    fn walnutgleam_rewrite_history(
        history: *const u8,
        history_length: usize,
        buffer: *mut u8,
        buffer_length: usize,
        length: *mut u64,
    ) -> u32;
    fn walnutgleam_rewrite_certificate(
        history: *const u8,
        history_length: usize,
        certificate: *const u8,
        certificate_length: usize,
        buffer: *mut u8,
        buffer_length: usize,
        length: *mut u64,
    ) -> u32;
    fn walnutgleam_weaken(
        history: *const u8,
        history_length: usize,
        certificate: *const u8,
        certificate_length: usize,
        wanted: u32,
        buffer: *mut u8,
        buffer_length: usize,
        length: *mut u64,
    ) -> u32;
    fn walnutgleam_sequential(
        history: *const u8,
        history_length: usize,
        certificate: *const u8,
        certificate_length: usize,
        buffer: *mut u8,
        buffer_length: usize,
        length: *mut u64,
    ) -> u32;
}

/// The archive that the build linked.
pub struct Archive;

/// The same archive, given NULL for every slice that is empty.
pub struct ArchiveGivenNull;

/// The pointers that the archive is given.
pub trait Pointers {
    /// Is NULL given for a slice that is empty? Else the slice's own pointer is.
    const NULL: bool;

    fn of_text(text: &[u8]) -> *const u8 {
        if Self::NULL && text.is_empty() { std::ptr::null() } else { text.as_ptr() }
    }

    fn of_lent<T>(lent: &mut Lent<T>) -> *mut T {
        if Self::NULL && lent.length == 0 { std::ptr::null_mut() } else { lent.all.as_mut_ptr().wrapping_add(lent.start) }
    }
}

impl Pointers for Archive {
    const NULL: bool = false;
}

impl Pointers for ArchiveGivenNull {
    const NULL: bool = true;
}

// SAFETY of the calls below: every pointer comes from a slice or a reference and goes with its length, or is NULL and goes with the
// length 0, as the header allows. A part of a lent buffer lies within its guards, so that even a small overrun is seen and does no harm.

/// What one of the functions writes from the two texts.
fn write_from<P: Pointers>(
    function: unsafe extern "C" fn(*const u8, usize, *const u8, usize, *mut u8, usize, *mut u64) -> u32,
    history: &[u8],
    certificate: &[u8],
    buffer: &mut Lent<u8>,
    length: &mut u64,
) -> u32 {
    unsafe {
        function(
            P::of_text(history),
            history.len(),
            P::of_text(certificate),
            certificate.len(),
            P::of_lent(buffer),
            buffer.length,
            length,
        )
    }
}

impl<P: Pointers> Checker for P {
    fn check(&self, history: &[u8], certificate: &[u8]) -> u32 {
        unsafe { walnutgleam_check(P::of_text(history), history.len(), P::of_text(certificate), certificate.len()) }
    }

    fn verdict(&self, history: &[u8], certificate: &[u8], places: &mut Lent<u32>) -> u32 {
        unsafe {
            walnutgleam_verdict(
                P::of_text(history),
                history.len(),
                P::of_text(certificate),
                certificate.len(),
                P::of_lent(places),
                places.length,
            )
        }
    }

    fn rewrite_history(&self, history: &[u8], buffer: &mut Lent<u8>, length: &mut u64) -> u32 {
        unsafe { walnutgleam_rewrite_history(P::of_text(history), history.len(), P::of_lent(buffer), buffer.length, length) }
    }

    fn rewrite_certificate(&self, history: &[u8], certificate: &[u8], buffer: &mut Lent<u8>, length: &mut u64) -> u32 {
        write_from::<P>(walnutgleam_rewrite_certificate, history, certificate, buffer, length)
    }

    fn weaken(&self, history: &[u8], certificate: &[u8], wanted: u32, buffer: &mut Lent<u8>, length: &mut u64) -> u32 {
        unsafe {
            walnutgleam_weaken(
                P::of_text(history),
                history.len(),
                P::of_text(certificate),
                certificate.len(),
                wanted,
                P::of_lent(buffer),
                buffer.length,
                length,
            )
        }
    }

    fn sequential(&self, history: &[u8], certificate: &[u8], buffer: &mut Lent<u8>, length: &mut u64) -> u32 {
        write_from::<P>(walnutgleam_sequential, history, certificate, buffer, length)
    }
}

/// A model: rules, and what the functions of the header make of them. With document 01's rules it is what the archive is
/// compared with; with other rules it is a wrong checker.
pub struct Model<R>(pub R);

/// A text goes into the buffer's first bytes, or 18; a refusal changes no byte and gives length 0.
fn put(result: Result<Vec<u8>, u32>, buffer: &mut Lent<u8>, length: &mut u64) -> u32 {
    *length = 0;
    match result {
        Err(answer) => answer,
        Ok(text) if buffer.length < text.len() => 18,
        Ok(text) => {
            buffer.part()[..text.len()].copy_from_slice(&text);
            *length = text.len() as u64;
            0
        }
    }
}

impl<R: Rules> Checker for Model<R> {
    fn check(&self, history: &[u8], certificate: &[u8]) -> u32 {
        self.0.check_texts(history, certificate).answer
    }

    fn verdict(&self, history: &[u8], certificate: &[u8], places: &mut Lent<u32>) -> u32 {
        let verdict = self.0.check_texts(history, certificate);
        for (to, from) in places.part().iter_mut().zip(verdict.places()) {
            *to = from;
        }
        verdict.answer
    }

    fn rewrite_history(&self, history: &[u8], buffer: &mut Lent<u8>, length: &mut u64) -> u32 {
        let result = self.0.read_history(history).map(|record| record.text()).map_err(|refusal| refusal.answer);
        put(result, buffer, length)
    }

    fn rewrite_certificate(&self, history: &[u8], certificate: &[u8], buffer: &mut Lent<u8>, length: &mut u64) -> u32 {
        let result = self.0.read_both(history, certificate);
        put(result.map(|(_, record)| record.text()).map_err(|refusal| refusal.answer), buffer, length)
    }

    fn weaken(&self, history: &[u8], certificate: &[u8], wanted: u32, buffer: &mut Lent<u8>, length: &mut u64) -> u32 {
        put(weaken_texts(&self.0, history, certificate, wanted), buffer, length)
    }

    fn sequential(&self, history: &[u8], certificate: &[u8], buffer: &mut Lent<u8>, length: &mut u64) -> u32 {
        put(self.0.sequential(history, certificate), buffer, length)
    }
}
