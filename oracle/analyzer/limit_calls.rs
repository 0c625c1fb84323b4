//! Where the feature `limited` puts document 01's limit on trees (refusal 8)
//! into resolver.rs. Nothing is taken away from it.

/// A call, between two texts that stand next to each other once in resolver.rs.
struct Call {
    behind: &'static str,
    call: &'static str,
    before: &'static str,
}

const fn behind(behind: &'static str, call: &'static str) -> Call {
    Call {
        behind,
        call,
        before: "",
    }
}

const fn before(before: &'static str, call: &'static str) -> Call {
    Call {
        behind: "",
        call,
        before,
    }
}

const CALLS: [Call; 14] = [
    // `TypeDefaults::of` begins a file, and each declared type is resolved
    // whatever came of those before it.
    behind(
        "let declarations = Declarations::of(types, library);",
        "access::limit::forget_types();",
    ),
    behind("for id in declarations.ids() {", "access::limit::start();"),
    // `type_default`: a type that is too large stays so, and so does each type
    // that was in progress above it.
    behind(
        "if let Some(value) = self.defaults.get(&id) {",
        "access::limit::known(id)?;",
    ),
    behind(
        "self.resolving.remove(&id);",
        "access::limit::resolved(id);",
    ),
    // A subrange's own start value wins over a base that is none, but the work
    // has ended at a base that is too large.
    behind(
        "SpecificationKind::Inline(_) => self.implicit(&place),\n                };",
        "access::limit::not_met()?;",
    ),
    // The fields of a declared structure, a declared block and an implicit
    // structure or block after each push.
    behind(
        "value: self.initializer(&element.init, &field)?,\n                    });",
        "access::limit::structure(&fields)?;",
    ),
    behind(
        "value: self.declaration(variable)?,\n            });",
        "access::limit::structure(&fields)?;",
    ),
    behind(
        "value: self.default_of(&field)?,\n                    });",
        "access::limit::structure(&values)?;",
    ),
    // The fields in `members` after each replacement.
    behind(
        "value: self.member(&element.init, &field, current)?,\n            };",
        "access::limit::structure(&fields)?;",
    ),
    // `element_defaults`: an array's defaults once the element's is known.
    behind(
        "let total = count.checked_mul(default.len())?;",
        "access::limit::defaults(&default, count)?;",
    ),
    // `expand`: an array's values, or a repetition's, after each push and copy,
    // ahead of the check that they aren't too many.
    behind(
        "values.extend_from_slice(&repetition);",
        "access::limit::array(values)?;",
    ),
    behind(
        "values.push(defaults.get(values.len())?.clone());",
        "access::limit::array(values)?;",
    ),
    before(
        "(values.len() <= total).then_some(())",
        "access::limit::array(values)?;",
    ),
    // `array`: the whole array.
    behind(
        "values.extend_from_slice(&defaults[values.len()..]);",
        "access::limit::array(&values)?;",
    ),
];

/// `source`, which is resolver.rs, with the calls. An error where a text that a
/// call stands next to isn't there exactly once.
pub fn with_limit(source: &str) -> Result<String, String> {
    let mut copy = source.to_string();
    for Call {
        behind,
        call,
        before,
    } in CALLS
    {
        let text = format!("{behind}{before}");
        match copy.matches(&text).count() {
            1 => copy = copy.replacen(&text, &format!("{behind} {call} {before}"), 1),
            count => return Err(format!("{text:?} stands {count} times in resolver.rs")),
        }
    }
    Ok(copy)
}
