//! What is known of the kit's library and of Rust's: functions, constants, methods, traits and names. Each means the same in both.

/// Functions, but for those of numbers and the sums and differences that wrap.
const FUNCTIONS: [&str; 10] = [
    "Option::Some",
    "Ord::max",
    "Ord::min",
    "std::array::from_fn",
    "std::cmp::max",
    "std::cmp::min",
    "u16::from_le_bytes",
    "u32::from_le_bytes",
    "u64::from_le_bytes",
    "u64::trailing_zeros",
];
/// The one of them that takes a closure.
pub const TAKES_CLOSURE: &str = "from_fn";
pub const NUMBERS: [&str; 8] = ["u8", "u16", "u32", "u64", "usize", "i16", "i32", "i64"];
/// Their functions and constants. A number of 64 bits is not made a usize so: where that has 32 bits, the same number would be refused.
const OF_NUMBERS: [&str; 3] = ["from", "try_from", "MAX"];
const WRAPPED: [&str; 5] = ["u8", "u16", "u32", "u64", "usize"];

/// The methods, and how many values each takes.
const METHODS: [(&str, usize); 44] = [
    ("all", 1),
    ("any", 1),
    ("as_slice", 0),
    ("chunks_exact", 1),
    ("contains", 1),
    ("copied", 0),
    ("copy_from_slice", 1),
    ("count", 0),
    ("enumerate", 0),
    ("fill", 1),
    ("first", 0),
    ("fold", 2),
    ("into", 0),
    ("is_empty", 0),
    ("is_err", 0),
    ("is_none", 0),
    ("is_ok", 0),
    ("is_some", 0),
    ("iter", 0),
    ("iter_mut", 0),
    ("len", 0),
    ("map", 1),
    ("map_err", 1),
    ("max", 0),
    ("max", 1),
    ("min", 0),
    ("min", 1),
    ("ok", 0),
    ("ok_or", 1),
    ("position", 1),
    ("rev", 0),
    ("rotate_left", 1),
    ("saturating_add", 1),
    ("saturating_sub", 1),
    ("skip", 1),
    ("step_by", 1),
    ("sum", 0),
    ("take", 1),
    ("then_some", 1),
    ("trailing_zeros", 0),
    ("unwrap_or", 1),
    ("wrapping_add", 1),
    ("wrapping_sub", 1),
    ("zip", 1),
];
/// Those of them that take a closure.
const TAKERS: [&str; 6] = ["all", "any", "fold", "map", "map_err", "position"];

/// The traits that a type may meet by an `impl`.
pub const TRAITS: [&str; 2] = ["From", "TryFrom"];
/// The names that stand for themselves in expressions and patterns.
pub const VALUES: [&str; 4] = ["Some", "None", "Ok", "Err"];
/// What may be derived, in the order in which it is written, but for `Drop`, which every type of Rust has.
pub const DERIVED: [&str; 9] = ["Clone", "Copy", "PartialEq", "Eq", "PartialOrd", "Ord", "Hash", "Debug", "Default"];

/// The one macro of the house: what it is handed, in an arm for each form.
pub const BY_FORM: &str = "by_form";

/// How many types stand in angles behind a name.
pub fn angles(name: &str) -> Option<usize> {
    match name {
        "Option" => Some(1),
        "Result" => Some(2),
        _ => None,
    }
}

pub fn is_method(name: &str, values: usize) -> bool {
    METHODS.contains(&(name, values))
}

pub fn takes_closure(name: &str) -> bool {
    TAKERS.contains(&name)
}

/// Whether a path names what is the kit's or Rust's own: by where it begins.
pub fn is_foreign(path: &[String]) -> bool {
    let first = path[0].as_str();
    let own = NUMBERS.contains(&first) || matches!(first, "bool" | "char" | "str" | "Option" | "Result" | "Ord");
    matches!(first, "std" | "core" | "alloc") || (path.len() > 1 && own)
}

/// Whether such a path is known.
pub fn is_known(path: &[String]) -> bool {
    if wrapping(path).is_some() || FUNCTIONS.contains(&path.join("::").as_str()) {
        return true;
    }
    let [number, name] = path else { return false };
    let whole = !(number == "usize" && name == "try_from");
    NUMBERS.contains(&number.as_str()) && OF_NUMBERS.contains(&name.as_str()) && whole
}

/// Whether a `use` line may name it: a known function of `std`, or the module of one.
pub fn is_used(path: &[String]) -> bool {
    let whole = path.join("::");
    let is = |function: &str| function == whole || function.rsplit_once("::").is_some_and(|(module, _)| module == whole);
    path[0] == "std" && path.len() > 1 && FUNCTIONS.iter().any(|function| is(function))
}

/// `std::num::wrapping_add_u16` as Rust has it, and so on for the sums and differences that wrap.
pub fn wrapping(path: &[String]) -> Option<String> {
    let [a, b, name] = path else { return None };
    let (operation, number) = name.strip_prefix("wrapping_")?.split_once('_')?;
    let known = a == "std" && b == "num" && (operation == "add" || operation == "sub") && WRAPPED.contains(&number);
    known.then(|| format!("{number}::wrapping_{operation}"))
}
