//! Small changes of a definition: another number, test, status, part or sign.

/// A part of a line that is replaced.
pub struct Change {
    pub line: usize,
    from: usize,
    to: usize,
    pub new: String,
}

/// What is replaced by what: whole words, and signs.
const WORDS: [(&str, &str); 12] = [
    ("ltb", "leb"),
    ("leb", "ltb"),
    ("eqb", "leb"),
    ("true", "false"),
    ("false", "true"),
    ("cond", "dnoc"),
    ("Running", "Ready"),
    ("Ready", "Suspended"),
    ("Suspended", "Waiting"),
    ("Waiting", "Suspended"),
    ("Lent", "Running"),
    ("Free", "Ready"),
];
const SIGNS: [(&str, &str); 19] = [
    (" && ", " || "),
    (" || ", " && "),
    (" + ", " - "),
    (" - ", " + "),
    (" / ", " % "),
    (" % ", " / "),
    (".lo", ".hi"),
    (".lo", ".mark"),
    (".hi", ".mark"),
    (".hi", ".lo"),
    (".hi", ".ceiling"),
    (".mark", ".lo"),
    (".mark", ".hi"),
    (".ceiling", ".hi"),
    (".ceiling", ".mark"),
    (".from", ".to"),
    (".from", ".ceiling"),
    (".to", ".from"),
    (".to", ".hi"),
];

const PRELUDE: &str = "Rattle.std.specs.Prelude";

/// Where each name that a change may bring in comes from.
const SOURCES: [(&str, &str, &str); 14] = [
    ("ltb", PRELUDE, "ltb"),
    ("leb", PRELUDE, "leb"),
    ("true", PRELUDE, "true"),
    ("false", PRELUDE, "false"),
    ("dnoc", PRELUDE, "Bool"),
    (" && ", PRELUDE, "◌&&◌"),
    (" || ", PRELUDE, "◌||◌"),
    (" + ", PRELUDE, "◌+◌"),
    (" - ", PRELUDE, "◌-◌"),
    (" / ", PRELUDE, "◌/◌"),
    (" % ", PRELUDE, "◌%◌"),
    ("Ready", "Rattle.thread.specs.declared.Status.TheVariants", "Ready"),
    ("Suspended", "Rattle.thread.specs.declared.Status.TheVariants", "Suspended"),
    ("Waiting", "Rattle.thread.specs.declared.Status.TheVariants", "Waiting"),
];

/// A choice by a test, the other way round.
const FLIPPED: &str = "abbrev dnoc : {A : Type 0} → Bool → A → A → A\ndnoc test a b = cond test b a\n";

fn is_import(line: &str) -> bool {
    line.starts_with("use ") || line.starts_with("pub use ")
}

/// The part of a line that defines something: no import, heading, signature or comment.
fn body(line: &str) -> &str {
    let code = line.split("--").next().unwrap_or("");
    let words: Vec<&str> = code.split_whitespace().filter(|word| !["abbrev", "unfoldable", "pub"].contains(word)).collect();
    let heads = ["record", "data", "module", "mod", "infix", "infixr", "infixl", "use"];
    match words.as_slice() {
        ["record", "{", ..] => code,
        [first, ..] if heads.contains(first) => "",
        [_, ":", ..] => "",
        _ => code,
    }
}

fn is_part(c: char) -> bool {
    c.is_alphanumeric() || c == '_' || c == '-'
}

/// Whether a word stands by itself in a line.
fn stands_alone(code: &str, from: usize, to: usize) -> bool {
    let before = code[..from].chars().next_back();
    !before.is_some_and(|c| is_part(c) || c == '.') && !code[to..].chars().next().is_some_and(is_part)
}

/// The changes of a line.
fn changes_of(line: usize, code: &str, changes: &mut Vec<Change>) {
    let mut at = 0;
    for word in code.split_inclusive(|c: char| !c.is_alphanumeric()) {
        let digits = word.trim_end_matches(|c: char| !c.is_alphanumeric());
        let to = at + digits.len();
        let value = match digits.strip_prefix("0x") {
            Some(hexadecimal) => u64::from_str_radix(hexadecimal, 16),
            None => digits.parse(),
        };
        if let (Ok(value), true) = (value, stands_alone(code, at, to)) {
            changes.push(Change { line, from: at, to, new: (value + 1).to_string() });
            if 0 < value {
                changes.push(Change { line, from: at, to, new: (value - 1).to_string() });
            }
        }
        at += word.len();
    }
    for (old, new) in WORDS {
        for (from, _) in code.match_indices(old).filter(|(from, _)| stands_alone(code, *from, from + old.len())) {
            changes.push(Change { line, from, to: from + old.len(), new: new.to_string() });
        }
    }
    for (old, new) in SIGNS {
        for (from, _) in code.match_indices(old) {
            let to = from + old.len();
            if old.ends_with(' ') || !code[to..].chars().next().is_some_and(is_part) {
                changes.push(Change { line, from, to, new: new.to_string() });
            }
        }
    }
}

/// All changes of a module's definitions.
pub fn changes(text: &str) -> Vec<Change> {
    let mut changes = Vec::new();
    for (line, content) in text.lines().enumerate() {
        changes_of(line, body(content), &mut changes);
    }
    changes
}

fn in_scope(text: &str, path: &str, name: &str) -> bool {
    let start = format!("use {path}.{{");
    let mut groups = text.lines().filter_map(|line| line.trim_start_matches("pub ").strip_prefix(start.as_str()));
    groups.any(|group| group.trim_end_matches('}').split(", ").any(|other| other == name))
}

impl Change {
    pub fn old<'a>(&self, text: &'a str) -> &'a str {
        let line = text.lines().nth(self.line).unwrap_or("");
        &line[self.from..self.to]
    }

    /// The text with the change, and with what it needs in scope.
    pub fn applied(&self, text: &str) -> String {
        let mut lines: Vec<String> = text.lines().map(str::to_string).collect();
        lines[self.line].replace_range(self.from..self.to, &self.new);
        if self.new == "dnoc" {
            let last = lines.iter().rposition(|line| is_import(line)).map_or(0, |last| last + 1);
            lines.insert(last, FLIPPED.to_string());
        }
        for (new, path, name) in SOURCES {
            if self.new == new && !in_scope(text, path, name) {
                let first = lines.iter().position(|line| is_import(line)).unwrap_or(0);
                lines.insert(first, format!("use {path}.{{{name}}}"));
            }
        }
        lines.join("\n") + "\n"
    }
}
