//! What the library's caller must not do, done once so that the run under the address sanitizer shows that it would see it.

use std::slice;

use vizturel::{Set, SetBuf};

#[test]
#[ignore = "undefined but under the address sanitizer, where it ends the process"]
fn one_word_less_is_lent_than_told() {
    let sound = SetBuf::with_capacity(1).unwrap().into_words();
    let less = sound[..sound.len() - 1].to_vec();
    let lent = unsafe { slice::from_raw_parts(less.as_ptr(), sound.len()) };
    println!("{:?}", Set::from_words(lent).get(0));
}
