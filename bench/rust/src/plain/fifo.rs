//! FIFO and error register.

use ism::sys::{Fifo, FifoAnswer};

use super::register::{is_item, is_mark};

const CHIP_FAULT: u16 = 1;
const MARK_AS_DATA: u16 = 2;
const PROCESSOR_FAULT: u16 = 4;

fn given(item: u16, next: Fifo) -> FifoAnswer {
    FifoAnswer { number: 0, place: 0, item, next }
}

fn with_error(fifo: Fifo, bit: u16) -> Fifo {
    Fifo { error: if fifo.error == 0 { bit } else { fifo.error }, ..fifo }
}

fn put(fifo: Fifo, item: u16, fault: u16) -> FifoAnswer {
    if !is_item(item) {
        return FifoAnswer { number: 3, ..given(0, fifo) };
    }
    let next = match fifo.held {
        0 => Fifo { held: 1, first: item, ..fifo },
        1 => Fifo { held: 2, second: item, ..fifo },
        _ => with_error(fifo, fault),
    };
    given(0, next)
}

fn take(fifo: Fifo, fault: u16) -> FifoAnswer {
    match fifo.held {
        0 => given(0, with_error(fifo, fault)),
        1 => given(fifo.first, Fifo { held: 0, ..fifo }),
        _ => given(fifo.first, Fifo { held: 1, first: fifo.second, ..fifo }),
    }
}

pub fn plain_rust_fifo_new(mode: u16) -> Fifo {
    Fifo { mode, held: 0, first: 0, second: 0, error: 0 }
}

pub fn plain_rust_fifo_put(fifo: Fifo, item: u16) -> FifoAnswer {
    if fifo.mode == 0 {
        put(fifo, item, PROCESSOR_FAULT)
    } else {
        given(0, fifo)
    }
}

pub fn plain_rust_fifo_chip_put(fifo: Fifo, item: u16) -> FifoAnswer {
    if fifo.mode == 0 {
        given(0, fifo)
    } else {
        put(fifo, item, CHIP_FAULT)
    }
}

pub fn plain_rust_fifo_take_data(fifo: Fifo) -> FifoAnswer {
    if fifo.mode == 0 {
        return given(0, fifo);
    }
    let answer = take(fifo, PROCESSOR_FAULT);
    if is_mark(answer.item as u16) {
        FifoAnswer { next: with_error(answer.next, MARK_AS_DATA), ..answer }
    } else {
        answer
    }
}

pub fn plain_rust_fifo_take_mark(fifo: Fifo) -> FifoAnswer {
    if fifo.mode == 0 {
        given(0, fifo)
    } else {
        take(fifo, PROCESSOR_FAULT)
    }
}

pub fn plain_rust_fifo_chip_take(fifo: Fifo) -> FifoAnswer {
    if fifo.mode == 0 {
        take(fifo, CHIP_FAULT)
    } else {
        given(0, fifo)
    }
}

pub fn plain_rust_fifo_read_error(fifo: Fifo) -> FifoAnswer {
    given(fifo.error, Fifo { error: 0, ..fifo })
}
