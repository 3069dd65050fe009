//! Which records a call may read: the one place that says so. A later call with such a rule is one more case
//! of `Ask` and one more arm in `may_read` here, and one in `calls.rs` that makes it and one that answers.
use crate::keys::Key;
use crate::run::{Call, Model};
use crate::set::{text, Set};
use std::fmt;

#[derive(Clone, Copy)]
pub enum Ask {
    Keyed(Call, Key),
    /// After the resume prefix, if any, at most so many.
    Slice(Option<Key>, usize),
}

/// Records beside the header: those of these nodes, and the first so many of the spare chain.
pub struct Reads {
    pub nodes: Vec<Key>,
    pub spares: usize,
}

/// Paper 01, "A call rests on no more than it reports", and docs/LAYOUT.md, "Which spare records an edit may
/// rest on": the first where the key has no node, the second where a branch node comes above it.
pub fn may_read(ask: Ask, set: &Set) -> Reads {
    let path = |k: Key| set.model.path(k);
    match ask {
        Ask::Keyed(Call::Fetch, k) => Reads { nodes: path(k), spares: 0 },
        Ask::Keyed(Call::Match, k) => Reads { nodes: path(k), spares: 0 },
        Ask::Keyed(Call::Remove, k) => Reads { nodes: path(k), spares: 0 },
        Ask::Keyed(Call::Store(_), k) => Reads { nodes: path(k), spares: set.added(k) },
        Ask::Slice(resume, size) => {
            let mut nodes = resume.map_or(Vec::new(), path);
            nodes.extend(set.passed(resume, size));
            Reads { nodes, spares: 0 }
        }
    }
}

/// Whether the call may write the records that it may read.
pub fn edits(ask: Ask) -> bool {
    matches!(ask, Ask::Keyed(Call::Store(_), _) | Ask::Keyed(Call::Remove, _))
}

impl fmt::Display for Ask {
    fn fmt(&self, f: &mut fmt::Formatter) -> fmt::Result {
        match self {
            Ask::Keyed(Call::Fetch, k) => write!(f, "fetch of {}", text(*k)),
            Ask::Keyed(Call::Match, k) => write!(f, "longest match of {}", text(*k)),
            Ask::Keyed(Call::Remove, k) => write!(f, "remove of {}", text(*k)),
            Ask::Keyed(Call::Store(_), k) => write!(f, "store of {}", text(*k)),
            Ask::Slice(None, size) => write!(f, "slice of {} from the start", size),
            Ask::Slice(Some(k), size) => write!(f, "slice of {} after {}", size, text(*k)),
        }
    }
}
