//! What the check says of a section.

use zilpanud::{Cause, Why};

/// The check refuses a section with this cause and its step, this sentence, and these numbers.
pub fn says(section: &[u64], cause: Cause, sentence: &str, why: Why) {
    let fault = zilpanud::check(section).expect_err(sentence);
    assert_eq!((fault.cause(), fault.to_string().as_str()), (cause, sentence), "{section:x?}");
    assert_eq!(fault.why(), why, "{sentence}");
    assert_eq!(fault.step().map(|step| step as u64), cause.detail(), "{sentence}");
    assert_eq!(zilpanud::check(section), Err(fault), "asked again");
}

pub fn passes(section: &[u64]) {
    assert_eq!(zilpanud::check(section), Ok(()), "{section:x?}");
}
