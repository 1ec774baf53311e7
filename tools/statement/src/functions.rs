//! The functions of Rattle code: where one stands, which are public, and what the contract of one says.

/// Where a function stands, by its path `crate::function`, `crate::module::function` or `crate::module::Type::function`.
pub struct Place<'a> {
    pub file: String,
    type_name: Option<&'a str>,
    pub name: &'a str,
}

impl Place<'_> {
    /// None where the path names no crate.
    pub fn of(path: &str) -> Option<Place<'_>> {
        let mut parts: Vec<&str> = path.split("::").collect();
        let name = parts.pop()?;
        let type_name = parts.last().copied().filter(|p| p.starts_with(char::is_uppercase));
        if type_name.is_some() {
            parts.pop();
        }
        let (crate_name, modules) = parts.split_first()?;
        let module = if modules.is_empty() { "lib".to_string() } else { modules.join("/") };
        Some(Place { file: format!("crates/{crate_name}/src/{module}.rt"), type_name, name })
    }

    /// Whether the code of its file declares it.
    pub fn is_in(&self, code: &str) -> bool {
        self.head_in(code).is_some()
    }

    /// Whether it is a method, which may stand in another file than its type.
    pub fn is_method(&self) -> bool {
        self.type_name.is_some()
    }

    /// The code from the line on that begins the function: of a method inside its type's `impl`, of another one not indented.
    fn head_in<'c>(&self, code: &'c str) -> Option<(Head<'c>, &'c str)> {
        let mut inside = None;
        let mut rest = code;
        for line in code.split_inclusive('\n') {
            if let Some(of) = impl_of(line) {
                inside = of.split([' ', '<', '{']).next();
            } else if line.starts_with('}') {
                inside = None;
            }
            let head = Head::of(line).filter(|h| h.name == self.name && inside == self.type_name);
            if let Some(head) = head.filter(|_| line.starts_with(' ') == inside.is_some()) {
                return Some((head, rest));
            }
            rest = &rest[line.len()..];
        }
        None
    }
}

/// How a function begins: `fn name(`, `pub fn name(`, `pub const fn name(`, `#[unsafe(no_mangle)] pub extern "C" fn name(`.
struct Head<'a> {
    is_public: bool,
    name: &'a str,
}

impl Head<'_> {
    fn of(line: &str) -> Option<Head<'_>> {
        let line = line.trim_start();
        let line = line.strip_prefix("#[unsafe(no_mangle)] ").unwrap_or(line);
        let public = line.strip_prefix("pub ");
        let mut rest = public.or(line.strip_prefix("pub(crate) ")).or(line.strip_prefix("pub(super) ")).unwrap_or(line);
        for word in ["const ", "unsafe ", "extern \"C\" "] {
            rest = rest.strip_prefix(word).unwrap_or(rest);
        }
        let name = rest.strip_prefix("fn ")?.split(['(', '<']).next()?;
        Some(Head { is_public: public.is_some(), name })
    }
}

/// What an `impl` is of, behind its parameters, if it has some: `Reader<'a> {` of `impl<'a> Reader<'a> {`.
fn impl_of(line: &str) -> Option<&str> {
    let rest = line.strip_prefix("impl")?;
    let behind = match rest.strip_prefix('<') {
        Some(parameters) => {
            let mut depth = 1;
            let end = parameters.find(|c| {
                depth += i32::from(c == '<') - i32::from(c == '>');
                depth == 0
            })?;
            &parameters[end + 1..]
        }
        None => rest,
    };
    behind.strip_prefix(' ')
}

/// Whether two paths are of one function. A method's path may go by the module of its type or by that of its code, and leave out what
/// its type is of.
pub fn is_same(one: &str, other: &str) -> bool {
    let method_of = |path: &str| {
        let parts: Vec<&str> = path.split("::").collect();
        let (first, last) = (parts.first()?, parts.len().checked_sub(2).map(|at| &parts[at..])?);
        let type_name = last[0].split('+').next()?;
        type_name.starts_with(char::is_uppercase).then(|| format!("{first}::{type_name}::{}", last[1]))
    };
    one == other || method_of(one).is_some_and(|m| method_of(other) == Some(m))
}

/// The paths of the functions that a file has, tests aside: what the prover has to prove of it. What a trait declares is proved of each
/// `impl` of it.
pub fn paths_in(file: &str, code: &str) -> Vec<String> {
    let module = module_of(file);
    let mut paths = Vec::new();
    let mut inside = String::new();
    let mut left_out = false;
    for line in code.lines() {
        if let Some(of) = impl_of(line) {
            inside = format!("::{}", type_in(of, &parameters_of(line)));
        } else if ["#[cfg(test)]", "trait ", "pub trait "].iter().any(|begins| line.starts_with(begins)) {
            left_out = true;
        } else if line.starts_with('}') {
            inside.clear();
            left_out = false;
        }
        if let Some(head) = Head::of(line).filter(|_| !left_out) {
            paths.push(format!("{module}{inside}::{}", head.name));
        }
    }
    paths
}

/// `crates/one/src/two.rt` is `one::two`, and a crate's root file is the crate.
fn module_of(file: &str) -> String {
    let inside = file.strip_prefix("crates/").unwrap_or(file).trim_end_matches(".rt");
    let parts = inside.split('/').enumerate().filter(|(at, part)| *at != 1 && !(*at == 2 && matches!(*part, "lib" | "main")));
    parts.map(|(_, part)| part).collect::<Vec<_>>().join("::")
}

/// `Type {` is `Type`, `Type<u8> {` is `Type+u8`, and `Trait for Type<u8> {` is `TypeU8Trait`, as the prover names it.
fn type_in(of: &str, parameters: &[&str]) -> String {
    let name = |text: &str| text.trim().split([' ', '<', '{', '(']).next().unwrap_or("").rsplit("::").next().unwrap_or("").to_string();
    match of.split_once(" for ") {
        Some((of_trait, of_type)) => {
            let of_what: String = types_in(of_type, parameters).iter().map(|t| capital(t)).collect();
            capital(&name(of_type)) + &of_what + &name(of_trait)
        }
        None => types_in(of, parameters).iter().fold(name(of), |so_far, of_what| so_far + "+" + of_what),
    }
}

/// The types that a type is of, its parameters and lifetimes aside: `u8` of `ArrayVec<u8, N> {`, where `N` is a parameter.
fn types_in<'a>(of_type: &'a str, parameters: &[&str]) -> Vec<&'a str> {
    let inside = enclosed(of_type, '<', '>').map_or("", |(inside, _)| inside);
    let each = inside.split(',').map(str::trim);
    each.filter(|t| !t.is_empty() && !t.starts_with('\'') && !parameters.contains(t)).collect()
}

/// The names of an `impl`'s parameters: `N` of `impl<const N: usize> Room for ArrayVec<u8, N> {`.
fn parameters_of(line: &str) -> Vec<&str> {
    let parameters = line.strip_prefix("impl<").and_then(|_| enclosed(line, '<', '>')).map_or("", |(inside, _)| inside);
    let each = parameters.split(',').map(|p| p.trim().trim_start_matches("const "));
    each.filter_map(|p| p.split(':').next()).map(str::trim).collect()
}

/// `U16` of `u16`, as the prover names an `impl` for it.
fn capital(name: &str) -> String {
    let mut rest = name.chars();
    rest.next().map_or(String::new(), |first| first.to_uppercase().chain(rest).collect())
}

/// The names of the public functions, those for C included.
pub fn public_in(code: &str) -> Vec<&str> {
    code.lines().filter_map(Head::of).filter(|h| h.is_public).map(|h| h.name).collect()
}

/// What a function asks for and what it promises: the text of each `requires` and `ensures`, comments left out.
#[derive(Debug, Default, PartialEq)]
pub struct Contract {
    pub requires: Vec<String>,
    pub ensures: Vec<String>,
}

/// The contract of a public function, from the code of its file.
pub fn contract(code: &str, place: &Place) -> Result<Contract, String> {
    let code = without_comments(code);
    let Some((_, text)) = place.head_in(&code).filter(|(head, _)| head.is_public) else {
        return Err(format!("{} has no public function {}", place.file, place.name));
    };
    let behind_name = text.split_once(&format!("fn {}", place.name)).map_or(text, |(_, behind)| behind);
    contract_in(behind_name).ok_or(format!("{}: the contract of {} cannot be read", place.file, place.name))
}

/// The clauses between a function's parameters and its body. The body's brace begins a line, or stands on that of the answer's type.
fn contract_in(behind_name: &str) -> Option<Contract> {
    let mut contract = Contract::default();
    let (_, mut rest) = enclosed(behind_name, '(', ')')?;
    loop {
        let (before, _) = rest.split_once('{')?;
        let (inside, behind) = enclosed(rest, '{', '}')?;
        // a starred clause says something of memory, and counts as well
        let kinds = before.split_whitespace().map(|w| w.trim_end_matches('*'));
        match kinds.into_iter().find(|w| matches!(*w, "requires" | "ensures")) {
            Some("requires") => contract.requires.push(inside.to_string()),
            Some(_) => contract.ensures.push(inside.to_string()),
            None => {
                let is_body = before.rsplit('\n').next().is_some_and(|l| l.trim().is_empty()) || !before.contains('\n');
                return is_body.then_some(contract);
            }
        }
        rest = behind;
    }
}

/// What stands between the first opening mark and its closing one, and what stands behind that.
fn enclosed(text: &str, open: char, close: char) -> Option<(&str, &str)> {
    let (_, behind) = text.split_once(open)?;
    let mut depth = 1;
    for (at, c) in behind.char_indices() {
        depth += i32::from(c == open) - i32::from(c == close);
        if depth == 0 {
            return Some((&behind[..at], &behind[at + close.len_utf8()..]));
        }
    }
    None
}

/// Comments of the code and of the contracts in it: to the line's end, and between two marks.
const COMMENTS: [(&str, &str); 4] = [("//", "\n"), ("--", "\n"), ("/*", "*/"), ("{-", "-}")];

fn without_comments(code: &str) -> String {
    let mut kept = String::new();
    let mut rest = code;
    while let Some((at, close)) = COMMENTS.iter().filter_map(|(open, close)| Some((rest.find(open)?, *close))).min() {
        kept.push_str(&rest[..at]);
        let end = rest[at + 2..].find(close).map_or(rest.len(), |n| at + 2 + n);
        // a line's end is no part of its comment
        rest = if close == "\n" { &rest[end..] } else { rest.get(end + close.len()..).unwrap_or("") };
    }
    kept + rest
}

#[cfg(test)]
mod tests {
    use super::*;

    const CODE: &str = "\
// fn first(x: u8) ensures { Wrong }
pub fn first(
    bytes: &[u8],
    f: (u8, u8),
) -> (u8, u8)
    requires { Asked } // Commented
    ensures bounded { Bounded {x} result }
    -- Noted
    ensures list { promise.Answered result {- Hidden -}
        bytes.now }
{
    second(Body { x: 0 })
}

pub fn bare() -> u8 {
    0
}

fn own(x: u8)
    ensures { Own }
{
}

impl Frame {
    pub fn first<'a>(self) -> Frame
        ensures { Framed }
    {
        self
    }
}

#[unsafe(no_mangle)] pub extern \"C\" fn exported(x: u8) -> u8
    ensures { Exported }
{
    x
}

impl Shown for Frame {
    fn show(&self) {}
}

pub trait Named {
    fn name(&self) -> u8;
}

impl Named for u16 {
    fn name(&self) -> u8 {
        0
    }
}

impl<T: Into<Seq>> Reader<'_, T> {
    pub fn next(&mut self)
        ensures { Read }
    {
    }
}

impl<const N: usize> Named for Vector<u8, N> {
    fn name(&self) -> u8 {
        0
    }
}

impl Call<usize> {
    pub fn told(self) -> u8 {
        0
    }
}

#[cfg(test)]
mod tests {
    #[test]
    fn shows() {}
}

fn last() {}
";

    fn of(path: &str) -> Result<Contract, String> {
        contract(CODE, &Place::of(path).unwrap())
    }

    #[test]
    fn places_of_functions() {
        let place = |path| Place::of(path).map(|p| (p.file, p.type_name, p.name));
        assert_eq!(place("one::f"), Some(("crates/one/src/lib.rt".into(), None, "f")));
        assert_eq!(place("one::two::f"), Some(("crates/one/src/two.rt".into(), None, "f")));
        assert_eq!(place("one::two::Type::f"), Some(("crates/one/src/two.rt".into(), Some("Type"), "f")));
        assert_eq!(place("f"), None);
    }

    #[test]
    fn paths_of_methods() {
        assert!(is_same("one::two::Type::f", "one::Type::f") && is_same("one::f", "one::f"));
        assert!(is_same("one::two::Type+u8::f", "one::two::Type::f") && !is_same("one::Types+u8::f", "one::Type::f"));
        for (one, other) in [("one::Type::f", "one::Type::g"), ("one::Type::f", "two::Type::f"), ("one::two::f", "one::f"), ("one::f", "one::Type::f")] {
            assert!(!is_same(one, other), "{one} {other}");
        }
    }

    #[test]
    fn public_functions() {
        assert_eq!(public_in(CODE), ["first", "bare", "first", "exported", "next", "told"]);
        let code = "pub fn a(x: u8)\n    pub fn b<'a>(x: &'a u8)\nfn c()\npub(crate) fn d()\n#[unsafe(no_mangle)] pub extern \"C\" fn e(\npub const fn f()";
        assert_eq!(public_in(code), ["a", "b", "e", "f"]);
    }

    #[test]
    fn every_function_by_its_path() {
        let paths = paths_in("crates/one/src/two.rt", CODE);
        let wanted = ["first", "bare", "own", "Frame::first", "exported", "FrameShown::show", "U16Named::name", "Reader::next", "VectorU8Named::name", "Call+usize::told", "last"];
        assert_eq!(paths, wanted.map(|name| format!("one::two::{name}")));
        assert_eq!(paths_in("crates/one/src/main.rt", "fn main() {}\n"), ["one::main"]);
        assert_eq!(paths_in("crates/one/src/a/b.rt", "fn c() {}\n"), ["one::a::b::c"]);
    }

    #[test]
    fn every_clause_and_no_comment() {
        let first = of("one::first").unwrap();
        assert_eq!(first.requires, [" Asked "]);
        assert_eq!(first.ensures.len(), 2);
        assert!(first.ensures[0].contains("Bounded {x} result"));
        assert!(first.ensures[1].contains("Answered") && first.ensures[1].contains("bytes.now"));
        assert!(["Wrong", "Commented", "Noted", "Hidden", "Body"].iter().all(|w| !first.ensures.concat().contains(w)));
    }

    #[test]
    fn exactly_that_function() {
        assert_eq!(of("one::Frame::first").unwrap().ensures, [" Framed "]);
        assert_eq!(of("one::Reader::next").unwrap().ensures, [" Read "]);
        assert_eq!(of("one::exported").unwrap().ensures, [" Exported "]);
        assert_eq!(of("one::bare"), Ok(Contract::default()));
        assert!(Place::of("one::own").unwrap().is_in(CODE) && !Place::of("one::Seen::first").unwrap().is_in(CODE));
        assert!(of("one::own").unwrap_err().contains("no public function own"));
    }

    #[test]
    fn a_clause_of_another_kind() {
        let code = "pub fn f(x: u8) -> u8\n    decreases { x }\n    requires { Asked }\n{\n}\n";
        assert!(contract(code, &Place::of("one::f").unwrap()).unwrap_err().contains("cannot be read"));
    }

    #[test]
    fn a_starred_clause() {
        let code = "pub fn f(x: *const u8) -> u8\n    requires* { Lent }\n    ensures* { Given }\n{\n}\n";
        let found = contract(code, &Place::of("one::f").unwrap()).unwrap();
        assert_eq!((found.requires, found.ensures), (vec![" Lent ".to_string()], vec![" Given ".to_string()]));
    }
}
