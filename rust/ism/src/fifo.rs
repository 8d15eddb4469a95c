//! The chip's FIFO of two items and its error register.

use crate::refusal::Refusal;
use crate::sys;

/// Who puts and who takes: in `Write` the processor puts and the chip takes, in `Read` the other way about.
#[derive(Clone, Copy, Debug, PartialEq, Eq)]
pub enum FifoMode {
    /// the processor puts, the chip takes
    Write,
    /// the chip puts, the processor takes
    Read,
}

/// The FIFO with its error register. An operation that the mode does not give to that side changes nothing and gives 0.
///
/// Register bits: 0 the chip's fault (put when full, take when empty), 1 a mark taken at the data location, 2 the
/// processor's fault. Once one is set, no other is set until the register is read.
#[derive(Clone, Copy, Debug)]
pub struct Fifo {
    state: sys::Fifo,
}

impl Fifo {
    /// An empty FIFO with register 0.
    pub fn new(mode: FifoMode) -> Self {
        let number = match mode {
            FifoMode::Write => 0,
            FifoMode::Read => 1,
        };
        // SAFETY: numbers in, numbers out
        Fifo { state: unsafe { sys::ism_fifo_new(number) } }
    }

    /// The processor puts an item; refused if the number is no item, dropped with a fault if the FIFO is full.
    pub fn put(&mut self, item: u16) -> Result<(), Refusal> {
        // SAFETY: numbers in, numbers out
        self.put_as(unsafe { sys::ism_fifo_put(self.state, item) })
    }

    /// The chip puts an item; refused and dropped as in `put`.
    pub fn chip_put(&mut self, item: u16) -> Result<(), Refusal> {
        // SAFETY: numbers in, numbers out
        self.put_as(unsafe { sys::ism_fifo_chip_put(self.state, item) })
    }

    /// The processor takes at the data location; a mark is handed over with a fault.
    pub fn take_data(&mut self) -> u16 {
        // SAFETY: numbers in, numbers out
        self.given(unsafe { sys::ism_fifo_take_data(self.state) })
    }

    /// The processor takes at the mark location.
    pub fn take_mark(&mut self) -> u16 {
        // SAFETY: numbers in, numbers out
        self.given(unsafe { sys::ism_fifo_take_mark(self.state) })
    }

    /// The chip takes.
    pub fn chip_take(&mut self) -> u16 {
        // SAFETY: numbers in, numbers out
        self.given(unsafe { sys::ism_fifo_chip_take(self.state) })
    }

    /// The value of the error register, which is cleared.
    pub fn read_error(&mut self) -> u16 {
        // SAFETY: numbers in, numbers out
        self.given(unsafe { sys::ism_fifo_read_error(self.state) })
    }

    /// The numbers of the state as the C interface has them.
    pub fn state(&self) -> sys::Fifo {
        self.state
    }

    /// Follows the state of a put, which alone can be refused.
    fn put_as(&mut self, answer: sys::FifoAnswer) -> Result<(), Refusal> {
        self.state = answer.next;
        Refusal::from_numbers(answer.number, answer.place).map_or(Ok(()), Err)
    }

    /// Follows the state of any other operation and gives its item.
    fn given(&mut self, answer: sys::FifoAnswer) -> u16 {
        self.state = answer.next;
        answer.item
    }
}
