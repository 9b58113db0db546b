//! A shared string, under the name of `arcstr`.

use std::borrow::Borrow;
use std::fmt;
use std::ops::Deref;
use std::sync::Arc;

#[derive(Clone, Debug, PartialEq, Eq)]
pub struct ArcStr(Arc<str>);

impl ArcStr {
    pub fn as_str(&self) -> &str {
        &self.0
    }
}

impl Deref for ArcStr {
    type Target = str;

    fn deref(&self) -> &str {
        &self.0
    }
}

impl Borrow<str> for ArcStr {
    fn borrow(&self) -> &str {
        &self.0
    }
}

impl fmt::Display for ArcStr {
    fn fmt(&self, f: &mut fmt::Formatter<'_>) -> fmt::Result {
        f.write_str(&self.0)
    }
}

impl From<&str> for ArcStr {
    fn from(text: &str) -> Self {
        ArcStr(text.into())
    }
}

impl From<String> for ArcStr {
    fn from(text: String) -> Self {
        ArcStr(text.into())
    }
}

impl From<&ArcStr> for ArcStr {
    fn from(text: &ArcStr) -> Self {
        text.clone()
    }
}
