//! The register: the licences in force.

use crate::{Flaw, Licence, Refusal, grouped, limits, raw};
use std::fmt;

/// The licences in force. It is a plain value: a refused grant or cancellation leaves the one that the caller has. Two are equal
/// if the same licences are in force in them, with the same widths.
#[derive(Clone, Copy)]
pub struct Register(pub(crate) raw::Register);

impl Register {
    /// The most licences that can be in force.
    pub const LIMIT: usize = limits::LICENCES;

    /// Bytes of a register that is saved.
    pub const BYTES: usize = size_of::<raw::Register>();

    /// The register with no licence in force.
    ///
    /// # Panics
    ///
    /// As [`raw::check_version`].
    pub fn empty() -> Register {
        raw::check_version();
        Register(raw::codwalet_empty())
    }

    /// The register with a licence granted, with its width or, if it has none, without one.
    ///
    /// ```
    /// use codwalet::{Flaw, Licence, Refusal, Register};
    ///
    /// let register = Register::empty().grant(Licence::area(1, 7))?.grant(Licence::area(2, 7).with_width(20))?;
    /// assert_eq!([1, 2].map(|call_sign| register.get(call_sign).map(|licence| licence.width())), [Some(50), Some(20)]);
    /// let refused = register.grant(Licence::area(3, 7).with_width(51));
    /// assert_eq!(refused, Err(Refusal::IllFormed { flaw: Some(Flaw::Width(51)) }));
    /// # Ok::<(), Refusal>(())
    /// ```
    ///
    /// # Errors
    ///
    /// In this order: [`Refusal::IllFormed`], [`Refusal::InForce`], [`Refusal::Full`].
    pub fn grant(self, licence: Licence) -> Result<Register, Refusal> {
        Register::next(licence.grant_in(self.0)).map_err(|refusal| with_flaw(refusal, licence.flaw()))
    }

    /// The register with a licence cancelled.
    ///
    /// # Errors
    ///
    /// [`Refusal::NotInForce`].
    pub fn cancel(self, call_sign: u32) -> Result<Register, Refusal> {
        Register::next(raw::codwalet_cancel(self.0, call_sign))
    }

    /// The licences in force, each with its width, in no order that means anything.
    pub fn licences(&self) -> impl Iterator<Item = Licence> + '_ {
        let raw::Register { places } = &self.0;
        places.iter().filter(|place| place.call_sign != 0).map(Licence::from_raw)
    }

    /// How many licences are in force.
    pub fn len(&self) -> usize {
        self.licences().count()
    }

    /// Whether no licence is in force.
    pub fn is_empty(&self) -> bool {
        self.len() == 0
    }

    /// The licence in force under a call sign.
    pub fn get(&self, call_sign: u32) -> Option<Licence> {
        self.licences().find(|licence| licence.call_sign() == call_sign)
    }

    /// The register as bytes, to be kept: those of the C struct. They belong to version [`raw::VERSION`] of the interface.
    /// Versions 1 and 2 had 0 where a place now has the MHz by which its licence is narrower than 50.
    pub fn to_bytes(&self) -> [u8; Register::BYTES] {
        // SAFETY: the struct is numbers without padding, as the assertion below says.
        unsafe { std::mem::transmute(self.0) }
    }

    /// The register in bytes that were kept, in this version of the interface or in version 1 or 2, whose licences are all 50 MHz
    /// wide. Any bytes are taken, and what is in force in them counts as the engine counts it: a place with call sign 0 is free, a
    /// ground of no kind covers nothing, a box covers what lies between its edges, even where no grant would accept them, and a
    /// licence that is narrower by 50 MHz or more has width 0.
    ///
    /// # Panics
    ///
    /// As [`raw::check_version`].
    pub fn from_bytes(bytes: &[u8; Register::BYTES]) -> Register {
        raw::check_version();
        // SAFETY: the struct is numbers alone, which take any bytes.
        Register(unsafe { std::mem::transmute::<[u8; Register::BYTES], raw::Register>(*bytes) })
    }

    fn next(step: raw::Step) -> Result<Register, Refusal> {
        Refusal::accepted(step.refusal)?;
        Ok(Register(step.next))
    }

    /// The licences in force, in an order that doesn't ask for their places.
    fn in_order(&self) -> Vec<Licence> {
        let mut licences: Vec<Licence> = self.licences().collect();
        licences.sort();
        licences
    }
}

/// Every byte of a register belongs to a number: a call sign, an area, a kind, what a width lacks to 50, or one of four edges.
const _: () = assert!(size_of::<raw::Register>() == raw::LIMIT * (4 + 2 + 1 + 1 + 4 * 4));

/// A refusal by 6, with what is wrong.
fn with_flaw(refusal: Refusal, flaw: Option<Flaw>) -> Refusal {
    match refusal {
        Refusal::IllFormed { .. } => Refusal::IllFormed { flaw },
        other => other,
    }
}

impl Default for Register {
    fn default() -> Register {
        Register::empty()
    }
}

/// Bytes that can't be a saved register, since there are too few or too many.
#[derive(Clone, Copy, Debug, PartialEq, Eq)]
pub struct WrongLength(pub usize);

impl fmt::Display for WrongLength {
    fn fmt(&self, out: &mut fmt::Formatter) -> fmt::Result {
        let (due, got) = (grouped(Register::BYTES as u64), grouped(self.0 as u64));
        write!(out, "a saved register has {due} bytes, not {got}")
    }
}

impl std::error::Error for WrongLength {}

impl TryFrom<&[u8]> for Register {
    type Error = WrongLength;

    /// As [`Register::from_bytes`].
    fn try_from(bytes: &[u8]) -> Result<Register, WrongLength> {
        bytes.try_into().map(Register::from_bytes).map_err(|_| WrongLength(bytes.len()))
    }
}

impl PartialEq for Register {
    fn eq(&self, other: &Register) -> bool {
        self.in_order() == other.in_order()
    }
}

impl Eq for Register {}

impl fmt::Debug for Register {
    fn fmt(&self, out: &mut fmt::Formatter) -> fmt::Result {
        let call_signs: Vec<u32> = self.in_order().iter().map(Licence::call_sign).collect();
        out.debug_struct("Register").field("call_signs", &call_signs).finish()
    }
}
