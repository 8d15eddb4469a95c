//! FIFO and error register. The state is a queue of at most two items; mode and sides are compared by name.

use super::{is_item, is_mark, refuse, Refused};

#[derive(Clone, Copy, Debug, PartialEq, Eq)]
pub enum Mode {
    Write,
    Read,
}

#[derive(Clone, Copy, Debug, PartialEq, Eq)]
pub enum Operation {
    ProcessorPut(u16),
    ChipPut(u16),
    TakeData,
    TakeMark,
    ChipTake,
    ReadError,
}

#[derive(Clone, Debug, PartialEq, Eq)]
pub struct Fifo {
    pub mode: Mode,
    pub queue: Vec<u16>,
    pub error: u16,
}

const CHIP_FAULT: u16 = 1 << 0;
const MARK_AS_DATA: u16 = 1 << 1;
const PROCESSOR_FAULT: u16 = 1 << 2;

impl Fifo {
    pub fn new(mode: Mode) -> Self {
        Fifo { mode, queue: Vec::new(), error: 0 }
    }

    /// The item that the operation gives, or its refusal, and the state that follows.
    pub fn after(&self, operation: Operation) -> (Result<u16, Refused>, Fifo) {
        let mut next = self.clone();
        let given = next.apply(operation);
        (given, next)
    }

    fn apply(&mut self, operation: Operation) -> Result<u16, Refused> {
        use Mode::{Read, Write};
        use Operation::*;
        match (operation, self.mode) {
            (ProcessorPut(item), Write) => self.put(item, PROCESSOR_FAULT),
            (ChipPut(item), Read) => self.put(item, CHIP_FAULT),
            (ChipTake, Write) => Ok(self.take(CHIP_FAULT)),
            (TakeMark, Read) => Ok(self.take(PROCESSOR_FAULT)),
            (TakeData, Read) => Ok(self.take_at_data_location()),
            (ReadError, _) => Ok(std::mem::take(&mut self.error)),
            _ => Ok(0),
        }
    }

    fn put(&mut self, item: u16, fault: u16) -> Result<u16, Refused> {
        if !is_item(item) {
            return refuse(3, 0);
        }
        if self.queue.len() == 2 {
            self.set(fault);
        } else {
            self.queue.push(item);
        }
        Ok(0)
    }

    fn take(&mut self, fault: u16) -> u16 {
        if self.queue.is_empty() {
            self.set(fault);
            return 0;
        }
        self.queue.remove(0)
    }

    fn take_at_data_location(&mut self) -> u16 {
        let item = self.take(PROCESSOR_FAULT);
        if is_mark(item) {
            self.set(MARK_AS_DATA);
        }
        item
    }

    /// Sets a bit unless one is set already.
    fn set(&mut self, bit: u16) {
        if self.error == 0 {
            self.error = bit;
        }
    }
}
