//! How many bytes the port's structs take: read from their declarations, fields in declared order with C's padding.

use std::collections::HashMap;
use std::path::Path;
use std::{fs, io};

/// The crates whose structs make up a ledger.
const CRATES: [&str; 5] = ["lists", "types", "entry", "store", "ledger"];

#[derive(Clone, Copy)]
pub struct Layout {
    pub size: usize,
    align: usize,
}

/// A struct's parameters and the types of its fields, or the types of the fields of each of an enum's cases.
enum Declared {
    Struct(Vec<String>, Vec<String>),
    Enum(Vec<Vec<String>>),
}

pub struct Layouts {
    declared: HashMap<String, Declared>,
}

impl Layouts {
    /// Read the declarations from the source files below the folder of crates.
    pub fn read(crates: &Path) -> io::Result<Self> {
        let mut declared = HashMap::new();
        for name in CRATES {
            for file in fs::read_dir(crates.join(name).join("src"))? {
                let path = file?.path();
                if path.extension().is_some_and(|end| end == "rt") {
                    declare(&fs::read_to_string(path)?, &mut declared);
                }
            }
        }
        Ok(Self { declared })
    }

    pub fn of(&self, name: &str) -> Result<Layout, String> {
        let number = |size| Ok(Layout { size, align: size });
        if let Some(array) = name.strip_prefix('[') {
            return self.of_array(array);
        }
        if let Some(inner) = name
            .strip_prefix("Option<")
            .and_then(|rest| rest.strip_suffix('>'))
        {
            return self.of_enum(&[Vec::new(), vec![inner.to_string()]]);
        }
        let (head, arguments) = applied(name);
        match head.rsplit("::").next().unwrap_or(head) {
            "u8" | "bool" => number(1),
            "u16" => number(2),
            "u32" => number(4),
            "u64" | "usize" => number(8),
            other => match self.declared.get(other) {
                Some(Declared::Struct(parameters, fields)) => {
                    let given: Vec<String> = fields
                        .iter()
                        .map(|field| with_arguments(field, parameters, &arguments))
                        .collect();
                    self.in_order(&given)
                }
                Some(Declared::Enum(cases)) => self.of_enum(cases),
                None => Err(format!("no declaration of {other} was found")),
            },
        }
    }

    /// An array, from behind its first bracket on.
    fn of_array(&self, array: &str) -> Result<Layout, String> {
        let unread = || format!("the array [{array} was not understood");
        let inside = array.strip_suffix(']').ok_or_else(unread)?;
        let (element, length) = inside.rsplit_once(';').ok_or_else(unread)?;
        let Layout { size, align } = self.of(element.trim())?;
        let length: usize = length.trim().parse().map_err(|_| unread())?;
        let size = size * length;
        Ok(Layout { size, align })
    }

    fn in_order(&self, fields: &[String]) -> Result<Layout, String> {
        let mut all = Layout { size: 0, align: 1 };
        for field in fields {
            all = all.and(self.of(field)?);
        }
        Ok(all.padded())
    }

    /// A byte that tells the case, then room for the largest.
    fn of_enum(&self, cases: &[Vec<String>]) -> Result<Layout, String> {
        let mut room = Layout { size: 0, align: 1 };
        for fields in cases {
            let Layout { size, align } = self.in_order(fields)?;
            room.size = room.size.max(size);
            room.align = room.align.max(align);
        }
        Ok(Layout { size: 1, align: 1 }.and(room).padded())
    }
}

impl Layout {
    /// This, and the next field where it may lie.
    fn and(self, next: Self) -> Self {
        Self {
            size: self.size.next_multiple_of(next.align) + next.size,
            align: self.align.max(next.align),
        }
    }

    fn padded(self) -> Self {
        let size = self.size.next_multiple_of(self.align);
        Self { size, ..self }
    }
}

fn declare(source: &str, declared: &mut HashMap<String, Declared>) {
    let bare: Vec<&str> = source
        .lines()
        .map(|line| line.split("//").next().unwrap_or(line))
        .collect();
    for (at, line) in bare.iter().enumerate() {
        let head = line.strip_prefix("pub ").unwrap_or(line);
        let Some((kind @ ("struct" | "enum"), _)) = head.split_once(' ') else {
            continue;
        };
        let text = head[kind.len()..].to_string() + &bare[at + 1..].concat();
        let body = text.find(['(', '{', ';']).unwrap_or(text.len());
        let parts = parts(enclosed(&text[body..]));
        let (name, parameters) = applied(text[..body].trim());
        let shape = match kind {
            "struct" => Declared::Struct(
                parameters.iter().map(|one| parameter(one)).collect(),
                types(&parts),
            ),
            _ => Declared::Enum(parts.iter().map(|case| types_of_case(case)).collect()),
        };
        declared.insert(name.to_string(), shape);
    }
}

/// A type's name, and what stands behind it in angle brackets.
fn applied(name: &str) -> (&str, Vec<&str>) {
    match name.strip_suffix('>').and_then(|open| open.split_once('<')) {
        Some((head, inside)) => (head, parts(inside)),
        None => (name, Vec::new()),
    }
}

/// The name of a parameter, as of `T`, `T: Copy` or `const N: usize`.
fn parameter(declared: &str) -> String {
    let bare = declared.strip_prefix("const ").unwrap_or(declared);
    bare.split(':').next().unwrap_or(bare).trim().to_string()
}

/// A field's type with the arguments in the place of the parameters.
fn with_arguments(field: &str, parameters: &[String], arguments: &[&str]) -> String {
    let is_name = |letter: char| letter.is_alphanumeric() || letter == '_';
    field
        .split_inclusive(|letter| !is_name(letter))
        .map(|piece| {
            let word = piece.trim_end_matches(|letter| !is_name(letter));
            let place = parameters.iter().position(|one| one == word);
            let argument = place.and_then(|at| arguments.get(at)).unwrap_or(&word);
            argument.to_string() + &piece[word.len()..]
        })
        .collect()
}

/// What stands between the first bracket and its partner; nothing where there is none.
fn enclosed(text: &str) -> &str {
    let mut depth = 0;
    for (at, letter) in text.char_indices() {
        match letter {
            '(' | '{' | '[' => depth += 1,
            ')' | '}' | ']' => depth -= 1,
            _ => {}
        }
        if depth == 0 {
            return text.get(1..at).unwrap_or("");
        }
    }
    ""
}

/// Split at the commas that stand in no bracket. An angle is one where it stands right behind a name; in the fact of a ghost field it is a sign.
fn parts(text: &str) -> Vec<&str> {
    let mut depth = 0;
    let mut angles = 0;
    let mut before = ' ';
    text.split(|letter: char| {
        match letter {
            '(' | '{' | '[' => depth += 1,
            ')' | '}' | ']' => depth -= 1,
            '<' if before.is_alphanumeric() => angles += 1,
            '>' if 0 < angles => angles -= 1,
            _ => {}
        }
        before = letter;
        depth == 0 && angles == 0 && letter == ','
    })
    .map(str::trim)
    .filter(|part| !part.is_empty())
    .collect()
}

/// The types of fields, with or without names. A ghost field takes no room.
fn types(fields: &[&str]) -> Vec<String> {
    fields
        .iter()
        .map(|field| field.strip_prefix("pub ").unwrap_or(field))
        .filter(|field| !field.starts_with("ghost "))
        .map(|field| field.split_once(": ").map_or(field, |(_, of)| of))
        .map(|of| of.trim().to_string())
        .collect()
}

fn types_of_case(case: &str) -> Vec<String> {
    let fields = case.find(['(', '{']).map_or("", |at| enclosed(&case[at..]));
    types(&parts(fields))
}
