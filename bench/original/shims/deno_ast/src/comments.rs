//! Comments by position.
use serde::{Deserialize, Serialize};
use std::cell::RefCell;
use std::collections::{BTreeMap, HashMap};
use std::rc::Rc;

use crate::positions::{Atom, BytePos, Span};

#[derive(Debug, Clone, Copy, PartialEq, Eq, Serialize, Deserialize)]
pub enum CommentKind {
    Line,
    Block,
}

#[derive(Debug, Clone, PartialEq, Eq, Serialize, Deserialize)]
pub struct Comment {
    pub kind: CommentKind,
    #[serde(default)]
    pub span: Span,
    pub text: Atom,
}

pub type SingleThreadedCommentsMapInner = HashMap<BytePos, Vec<Comment>>;
type Shared = Rc<RefCell<SingleThreadedCommentsMapInner>>;

#[derive(Debug, Clone, Default)]
pub struct SingleThreadedComments {
    leading: Shared,
    trailing: Shared,
}

impl SingleThreadedComments {
    pub fn take_all(self) -> (Shared, Shared) {
        (self.leading, self.trailing)
    }

    pub fn listed(&self) -> ListedComments {
        let listed = |comments: &Shared| {
            let sorted: BTreeMap<_, _> = comments.borrow().clone().into_iter().collect();
            sorted.into_iter().collect()
        };
        ListedComments { leading: listed(&self.leading), trailing: listed(&self.trailing) }
    }
}

/// Comments as JSON has them: by position, in order.
#[derive(Debug, Clone, Default, Serialize, Deserialize)]
#[serde(default)]
pub struct ListedComments {
    leading: Vec<(BytePos, Vec<Comment>)>,
    trailing: Vec<(BytePos, Vec<Comment>)>,
}

#[derive(Debug, Clone, Default, Deserialize)]
#[serde(from = "ListedComments")]
pub struct MultiThreadedComments {
    leading: SingleThreadedCommentsMapInner,
    trailing: SingleThreadedCommentsMapInner,
}

impl From<ListedComments> for MultiThreadedComments {
    fn from(listed: ListedComments) -> Self {
        Self::from_leading_and_trailing(listed.leading.into_iter().collect(), listed.trailing.into_iter().collect())
    }
}

impl MultiThreadedComments {
    pub fn from_leading_and_trailing(
        leading: SingleThreadedCommentsMapInner,
        trailing: SingleThreadedCommentsMapInner,
    ) -> Self {
        Self { leading, trailing }
    }

    pub fn into_single_threaded(self) -> SingleThreadedComments {
        SingleThreadedComments {
            leading: Rc::new(RefCell::new(self.leading)),
            trailing: Rc::new(RefCell::new(self.trailing)),
        }
    }

    pub fn as_single_threaded(&self) -> SingleThreadedComments {
        self.clone().into_single_threaded()
    }
}
