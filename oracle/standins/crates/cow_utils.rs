//! Stand-in for cow_utils: one method, used for module names only.

use std::borrow::Cow;

pub trait CowUtils {
    fn cow_to_lowercase(&self) -> Cow<'_, str>;
}

impl CowUtils for str {
    fn cow_to_lowercase(&self) -> Cow<'_, str> {
        Cow::Owned(self.to_lowercase())
    }
}
