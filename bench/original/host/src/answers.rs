//! Answers in JSON.
use deno_ast::diagnostics::Diagnostic;
use serde::Deserialize;
use serde_json::{Value, json};

use crate::fast_check::{FastCheckDiagnostic, FastCheckModule};
use crate::requests::Answers;

pub fn json_of(answer: &Result<FastCheckModule, Vec<FastCheckDiagnostic>>) -> Value {
    match answer {
        Ok(module) => json!({ "Ok": module_json(module) }),
        Err(diagnostics) => json!({ "Err": diagnostics.iter().map(diagnostic_json).collect::<Vec<_>>() }),
    }
}

pub fn json_of_all(answers: &Answers) -> Value {
    answers.iter().map(|(specifier, answer)| json!([specifier, json_of(answer)])).collect()
}

/// The emitted text is two JSON texts with a zero byte between them.
fn module_json(module: &FastCheckModule) -> Value {
    let (comments, program) = module.text.split_once('\0').expect("two texts");
    json!({ "comments": parsed(comments), "module_info": *module.module_info, "program": parsed(program) })
}

fn parsed(text: &str) -> Value {
    let mut reader = serde_json::Deserializer::from_str(text);
    reader.disable_recursion_limit();
    Value::deserialize(&mut reader).expect("JSON")
}

fn diagnostic_json(diagnostic: &FastCheckDiagnostic) -> Value {
    let range = diagnostic.range().map(|at| [at.range.start.as_byte_pos(), at.range.end.as_byte_pos()]);
    json!({
        "code": diagnostic.code(),
        "docs_url": diagnostic.docs_url(),
        "hint": diagnostic.hint(),
        "info": diagnostic.info(),
        "level": format!("{:?}", diagnostic.level()),
        "message": diagnostic.message(),
        "range": range,
        "specifier": diagnostic.specifier(),
    })
}
