//! What the original calls of deno_ast and of swc. `nodes.py` writes the trees, `nodes.rs`, from `forms/forms.txt`.
#![allow(dead_code)]

pub mod comments;
pub mod diagnostics;
mod emit;
pub mod nodes;
mod positions;
mod sources;
mod visit;

pub use comments::{MultiThreadedComments, SingleThreadedComments};
pub use emit::{EmitError, EmitOptions, EmittedSource, SourceMap, SourceMapOption, emit};
pub use nodes::{ModuleItem, Program};
pub use positions::*;
pub use sources::{MediaType, ParsedSource, ProgramRef, SourceTextInfo};
pub use url::Url as ModuleSpecifier;

pub mod swc {
    pub mod ast {
        pub use crate::nodes::*;
        pub use crate::positions::{Atom, Id};
    }
    pub mod atoms {
        pub use crate::positions::Atom;
    }
    pub mod common {
        pub use crate::positions::{BytePos, DUMMY_SP, Span, Spanned, SyntaxContext};
        pub mod comments {
            pub use crate::comments::{Comment, CommentKind, SingleThreadedComments, SingleThreadedCommentsMapInner};
        }
    }
    pub mod ecma_visit {
        pub use crate::visit::{Visit, VisitWith};
    }
}
