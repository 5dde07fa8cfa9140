//! Lists to lend: right behind the last word is an inaccessible page, and the
//! words in front of the first are watched.

use crate::memory::{fenced, WORDS_OF_A_PAGE};
use std::hint::black_box;

/// What every word in front of a list is.
const FRONT: u32 = 0x5eed_f00d;

/// One list at a time. A short one lies in a page of its own, so that there are
/// few words in front of it to look at.
pub struct Guarded {
    short: Pages,
    long: Pages,
    is_long: bool,
}

impl Guarded {
    /// For lists of at most so many words.
    pub fn new(most: usize) -> Guarded {
        Guarded {
            short: Pages::new(WORDS_OF_A_PAGE),
            long: Pages::new(most),
            is_long: false,
        }
    }

    /// The list becomes one of these words.
    pub fn set(&mut self, words: &[u32]) {
        self.is_long = words.len() > WORDS_OF_A_PAGE;
        self.pages_mut().set(words);
    }

    /// As it is by now, whatever was promised of a call that it was lent to.
    pub fn list(&self) -> &[u32] {
        let pages = if self.is_long { &self.long } else { &self.short };
        black_box(&pages.words[pages.start..])
    }

    pub fn list_mut(&mut self) -> &mut [u32] {
        let pages = self.pages_mut();
        &mut pages.words[pages.start..]
    }

    /// How many words in front of the list were written. They are put right.
    pub fn mend_front(&mut self) -> usize {
        self.pages_mut().mend_front()
    }

    fn pages_mut(&mut self) -> &mut Pages {
        match self.is_long {
            true => &mut self.long,
            false => &mut self.short,
        }
    }
}

/// Accessible words. The list is those from `start` on, and each in front of it
/// is FRONT.
struct Pages {
    words: &'static mut [u32],
    start: usize,
}

impl Pages {
    fn new(most: usize) -> Pages {
        let words = fenced(most);
        words.fill(FRONT);
        let start = words.len();
        Pages { words, start }
    }

    fn set(&mut self, words: &[u32]) {
        let start = self.words.len() - words.len();
        if start > self.start {
            self.words[self.start..start].fill(FRONT);
        }
        self.start = start;
        self.words[start..].copy_from_slice(words);
    }

    fn mend_front(&mut self) -> usize {
        let front = black_box(&mut self.words[..self.start]);
        // All are looked at in one pass; there is hardly ever more to do.
        let wrong = front.iter().fold(0, |wrong, word| wrong | (word ^ FRONT));
        if wrong == 0 {
            return 0;
        }
        let written = front.iter().filter(|&&word| word != FRONT).count();
        front.fill(FRONT);
        written
    }
}

#[cfg(test)]
mod tests {
    use super::*;
    use crate::process::{start, End};

    const MOST: usize = 5_000;
    const FAULT: End = End::Signal(11);

    fn list(length: usize) -> Guarded {
        let mut list = Guarded::new(MOST);
        list.set(&vec![7; length]);
        list
    }

    /// How a child ends that reads the word so many words after the list's
    /// first.
    fn end_of_reading(list: &Guarded, word: isize) -> End {
        let first = list.list().as_ptr();
        // SAFETY: none; this is to show what happens.
        let child = start(|| unsafe {
            first.offset(word).read_volatile();
        });
        loop {
            if let Some(end) = child.end() {
                return end;
            }
        }
    }

    #[test]
    fn the_word_behind_a_list_is_inaccessible() {
        for length in [0, 1, WORDS_OF_A_PAGE, WORDS_OF_A_PAGE + 1, MOST] {
            let list = list(length);
            assert_eq!(end_of_reading(&list, length as isize), FAULT);
            if length > 0 {
                assert_eq!(end_of_reading(&list, length as isize - 1), End::Exit(0));
            }
        }
    }

    #[test]
    fn the_page_in_front_is_inaccessible() {
        let list = list(WORDS_OF_A_PAGE);
        assert_eq!(end_of_reading(&list, 0), End::Exit(0));
        assert_eq!(end_of_reading(&list, -1), FAULT);
    }

    #[test]
    fn a_list_is_what_it_was_set_to() {
        let mut list = Guarded::new(MOST);
        for words in [&[1, 2, 3][..], &[], &[9; 3_000], &[4]] {
            list.set(words);
            assert_eq!(list.list(), words);
            assert_eq!(list.mend_front(), 0);
        }
    }

    #[test]
    fn words_written_in_front_are_counted_once() {
        for length in [0, 10, 3_000] {
            let mut list = list(length);
            let pages = list.pages_mut();
            pages.words[0] = 1;
            pages.words[pages.start - 1] = 1;
            assert_eq!([list.mend_front(), list.mend_front()], [2, 0]);
        }
    }
}
