//! Compares a header for C with the library whose calls it declares: a C compiler compares what the
//! header has with what is in the library's source.
use std::collections::{BTreeMap, BTreeSet};
use std::fmt::Write as _;
use std::io::Write as _;
use std::process::{Command, Stdio};

/// What types of the library are in C.
pub type Types<'t> = [(&'t str, &'t str)];

/// The calls that the source exports, with the type in C of a pointer to each.
pub fn exports(source: &str, types: &Types<'_>) -> BTreeMap<String, String> {
    let calls = source.split("#[unsafe(no_mangle)]").skip(1);
    calls.flat_map(|call| calls_of(call, source, types)).collect()
}

/// The call that this text begins with, by its name; or, if that is a parameter of a macro, each that
/// the macro of the same name defines, of an owner.
fn calls_of(call: &str, source: &str, types: &Types<'_>) -> Vec<(String, String)> {
    let (name, rest) = call.split_once("fn ").unwrap().1.split_once('(').unwrap();
    let Some(name) = name.strip_prefix('$') else {
        return vec![(name.to_string(), pointer_type(rest, "", types))];
    };
    let call_of_macro = format!("\n{name}!(");
    let defined = source.split(&call_of_macro).skip(1).map(|words| {
        let mut words = words.split(", ");
        let name = words.next().unwrap().to_string();
        (name, pointer_type(rest, words.next().unwrap(), types))
    });
    defined.collect()
}

/// The type in C of a pointer to a call with these parameters and this result, of this owner.
fn pointer_type(call: &str, owner: &str, types: &Types<'_>) -> String {
    let c_type = |rust: &str| {
        let found = types.iter().find(|(name, _)| *name == rust);
        found.unwrap_or_else(|| panic!("no C type is known for {rust}")).1
    };
    let (parameters, rest) = call.split_once(')').unwrap();
    let result = rest.split_once('{').unwrap().0.trim().strip_prefix("->");
    let parameters = parameters.split(',').filter_map(|it| it.split_once(':'));
    let kinds = parameters.map(|(_, kind)| kind.trim().replace("$owner", owner));
    let kinds: Vec<_> = kinds.map(|kind| c_type(&kind)).collect();
    let result = result.map_or("void", |kind| c_type(kind.trim()));
    let kinds = if kinds.is_empty() { "void".into() } else { kinds.join(", ") };
    format!("{result} (*)({kinds})")
}

/// The header's code.
pub fn without_comments(header: &str) -> String {
    let parts = header.split("/*");
    parts.map(|part| part.split_once("*/").map_or(part, |(_, code)| code)).collect()
}

/// The calls that a header declares whose names begin so.
pub fn declared(header: &str, prefixes: &[&str]) -> BTreeSet<String> {
    let code = without_comments(header);
    let before = code.split('(').map(|text| {
        text.rsplit(|c: char| !(c.is_ascii_alphanumeric() || c == '_')).next().unwrap_or("")
    });
    let is_call = |name: &&str| prefixes.iter().any(|prefix| name.starts_with(prefix));
    before.filter(is_call).map(String::from).collect()
}

/// A program in C that compiles if the header declares these calls and has these constants.
pub fn program(
    header: &str,
    exports: &BTreeMap<String, String>,
    numbers: &[(&str, i128)],
) -> String {
    let mut program = header.to_string();
    for (name, kind) in exports {
        let is_same = format!("_Generic(&{name}, {kind}: 1, default: 0)");
        writeln!(program, "_Static_assert({is_same}, \"{name}\");").unwrap();
    }
    for (name, number) in numbers {
        let suffix = if *number < 0 { "" } else { "u" };
        writeln!(program, "_Static_assert({name} == {number}{suffix}, \"{name}\");").unwrap();
    }
    program
}

/// Adds to a program that a struct is laid out in C as it is here.
#[macro_export]
macro_rules! layout {
    ($program:ident, $rust:ty, $c:literal, $($field:ident)*) => {
        let (size, align) = (size_of::<$rust>(), align_of::<$rust>());
        writeln!($program, "_Static_assert(sizeof({}) == {size}, \"its size\");", $c).unwrap();
        writeln!($program, "_Static_assert(_Alignof({}) == {align}, \"\");", $c).unwrap();
        $(
            let (field, offset) = (stringify!($field), std::mem::offset_of!($rust, $field));
            let is_there = format!("offsetof({}, {field}) == {offset}", $c);
            writeln!($program, "_Static_assert({is_there}, \"{field}\");").unwrap();
            let size = $crate::header::size_of_field(|all: &$rust| &all.$field);
            let is_so_large = format!("sizeof((({} *)0)->{field}) == {size}", $c);
            writeln!($program, "_Static_assert({is_so_large}, \"{field}\");").unwrap();
        )*
    };
}

/// The size of a field of a struct.
pub fn size_of_field<Struct, Field>(_: fn(&Struct) -> &Field) -> usize {
    size_of::<Field>()
}

/// Whether a C compiler takes the program. It shows why not if that is expected.
pub fn compiles(program: &str, is_expected: bool) -> bool {
    let mut compiler = Command::new("cc")
        .args(["-std=c11", "-Wall", "-Wextra", "-Wpedantic", "-Werror", "-fsyntax-only"])
        .args(["-x", "c", "-"])
        .stdin(Stdio::piped())
        .stderr(if is_expected { Stdio::inherit() } else { Stdio::null() })
        .spawn()
        .expect("a C compiler `cc` is needed");
    // A compiler that has found an error need not read the rest.
    let _ = compiler.stdin.take().unwrap().write_all(program.as_bytes());
    compiler.wait().unwrap().success()
}
