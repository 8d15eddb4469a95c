//! The calls of making and reading an image, as the header declares them.

use ism::sys::Answer;

use crate::call::{Call, Expected};
use crate::compare::{count_answer, from_wrapper, Compare};
use crate::paper::image;

extern "C" {
    pub fn ism_make_image(items: *const u16, n: usize, words: *mut u16, room: usize) -> Answer;
    pub fn ism_read_image(words: *const u16, n: usize, items: *mut u16, room: usize) -> Answer;
}

impl Compare {
    pub fn make_image(&mut self, items: &[u16], room: usize) {
        let call = Call {
            name: "ism_make_image",
            arguments: String::new(),
            room,
            paper: &|items| Expected::new(image::make_image(items, room).map(Expected::list)),
            // SAFETY: each pointer comes with the length of its slice
            interface: &|items: &[u16], out| unsafe {
                ism_make_image(items.as_ptr(), items.len(), out.as_mut_ptr(), out.len())
            },
            wrapper: Some(&|items, out| from_wrapper(ism::make_image(items, out), count_answer)),
        };
        self.run(items, call);
    }

    pub fn read_image(&mut self, words: &[u16], room: usize) {
        let call = Call {
            name: "ism_read_image",
            arguments: String::new(),
            room,
            paper: &|words| Expected::new(image::read_image(words, room).map(Expected::list)),
            // SAFETY: each pointer comes with the length of its slice
            interface: &|words: &[u16], out| unsafe {
                ism_read_image(words.as_ptr(), words.len(), out.as_mut_ptr(), out.len())
            },
            wrapper: Some(&|words, out| from_wrapper(ism::read_image(words, out), count_answer)),
        };
        self.run(words, call);
    }
}

/// The library's image of a list within the limit.
pub fn library_image(items: &[u16]) -> Vec<u16> {
    let mut words = vec![0; 2 * items.len()];
    // SAFETY: each pointer comes with the length of its list
    let answer = unsafe { ism_make_image(items.as_ptr(), items.len(), words.as_mut_ptr(), words.len()) };
    assert_eq!(answer.number, 0, "two words for each item are enough");
    words.truncate(answer.count as usize);
    words
}

/// The items that the library reads from an image, or the refusal's number.
pub fn library_items(words: &[u16]) -> Result<Vec<u16>, u32> {
    let mut items = vec![0; words.len()];
    // SAFETY: each pointer comes with the length of its list
    let answer = unsafe { ism_read_image(words.as_ptr(), words.len(), items.as_mut_ptr(), items.len()) };
    items.truncate(answer.count as usize);
    if answer.number == 0 {
        Ok(items)
    } else {
        Err(answer.number)
    }
}
