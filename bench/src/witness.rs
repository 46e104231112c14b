//! Crates that have definitions and their worked rows and no code, so that the rows alone refuse a changed definition.
use std::fs;
use std::io;
use std::path::Path;

/// Modules of some crates.
type Modules = &'static [(&'static str, &'static [&'static str])];

pub struct Witness {
    pub name: &'static str,
    /// the crate whose proof computes the rows; the witness stands on it and on what it uses
    over: &'static str,
    proof: &'static str,
    pub definitions: Modules,
    rows: Modules,
}

pub const WITNESSES: [Witness; 7] = [
    Witness {
        name: "rules",
        over: "rules",
        proof: "Rows",
        definitions: &[
            ("command", &["Command", "Weight"]),
            ("image", &["Layout"]),
            ("queue", &["Contents"]),
            ("window", &["Rights"]),
            ("stacklets", &["Tops", "Frames"]),
            ("thread", &["Effect", "View", "Thread", "Job"]),
            ("rules", &["State", "Statuses", "Start", "Update", "Turn", "Leave", "Fork", "Return", "Rules", "Runs"]),
        ],
        rows: &[(
            "rules",
            &[
                "Row",
                "RowsForks",
                "RowsJoins",
                "RowsTables",
                "RowsSteals",
                "RowsEntries",
                "RowsCommands",
                "RowsPending",
                "RowsShares",
                "RowsCeilings",
                "RowsSpans",
                "RowsNestedSpans",
                "Rows",
                "RowsFree",
                "WordsRow",
                "RowsWords",
            ],
        )],
    },
    Witness {
        name: "scheduler",
        over: "rounds",
        proof: "Rows",
        definitions: &[("search", &["Search"]), ("rounds", &["Rounds"])],
        rows: &[("rounds", &["Rows"])],
    },
    Witness { name: "serial", over: "serial", proof: "Cases", definitions: &[("serial", &["Serial"])], rows: &[("serial", &["Cases", "SharesCases"])] },
    Witness {
        name: "lonecore",
        over: "lonecore",
        proof: "Rows",
        definitions: &[("lonecore", &["Depth", "Commands"])],
        rows: &[("lonecore", &["Rows"])],
    },
    Witness {
        name: "image",
        over: "image",
        proof: "Cases",
        definitions: &[("image", &["Layout", "Code", "Image"])],
        rows: &[("image", &["Cases", "Worked"])],
    },
    Witness {
        name: "print",
        over: "transcript",
        proof: "Cases",
        definitions: &[("reading", &["Reading"]), ("text", &["Text"]), ("transcript", &["LastLine", "Job", "Transcript"])],
        rows: &[("transcript", &["Cases"])],
    },
    Witness {
        name: "hex",
        over: "hex_format",
        proof: "Cases",
        definitions: &[("hex_format", &["Digits", "Text", "Lines", "Record", "Reading"])],
        rows: &[("hex_format", &["Cases"])],
    },
];

/// A module's name in the witness: `RulesFork` for `Fork` of `rules`.
pub fn renamed(name: &str, module: &str) -> String {
    name[..1].to_uppercase() + &name[1..] + module
}

/// Copies a folder, without what `rt` makes in it.
fn copy(from: &Path, to: &Path) -> io::Result<()> {
    fs::create_dir_all(to)?;
    for entry in fs::read_dir(from)? {
        let entry = entry?;
        let place = to.join(entry.file_name());
        if !entry.file_type()?.is_dir() {
            fs::copy(entry.path(), place)?;
        } else if entry.file_name() != "out" {
            copy(&entry.path(), &place)?;
        }
    }
    Ok(())
}

impl Witness {
    fn has(&self, name: &str, module: &str) -> bool {
        [self.definitions, self.rows].concat().iter().any(|(n, modules)| *n == name && modules.contains(&module))
    }

    /// A module's text with the paths of modules that the witness has, and of all others as another crate writes them.
    fn moved(&self, text: &str) -> String {
        let mut parts = text.split("Rattle.");
        let mut out = parts.next().unwrap_or("").to_string();
        for part in parts {
            let name = &part[..part.find('.').expect("a crate's name")];
            let rest = part[name.len()..].trim_start_matches(".specs.");
            let module = &rest[..rest.find('.').expect("a module's name")];
            if self.has(name, module) {
                out += &format!("Rattle.witness.specs.{}", renamed(name, module));
                out += &rest[module.len()..];
            } else {
                out += &format!("Rattle.{part}");
            }
        }
        out
    }

    /// Writes the witness and a repository for it, whose other crates are copies of those of `root`, to `room`.
    pub fn write(&self, root: &Path, room: &Path) -> io::Result<()> {
        let _ = fs::remove_dir_all(room);
        let place = room.join("crates/witness");
        for folder in ["src", "specs", "proofs"] {
            fs::create_dir_all(place.join(folder))?;
        }
        copy(&root.join("crates"), &room.join("crates"))?;
        let crates = fs::read_to_string(root.join("crates.txt"))?;
        let line = crates.lines().find_map(|line| line.strip_prefix(&format!("{}:", self.over))).expect("a line of crates.txt");
        fs::write(room.join("crates.txt"), format!("{crates}\nwitness:{line} {}\n", self.over))?;
        fs::write(place.join("src/lib.rt"), "// Definitions and their worked rows, and no code.\n#![tactic(auto)]\n")?;
        let mut all = String::new();
        for (name, modules) in [self.definitions, self.rows].concat() {
            for module in modules {
                let text = fs::read_to_string(root.join(format!("crates/{name}/specs/{module}.antt")))?;
                fs::write(place.join(format!("specs/{}.antt", renamed(name, module))), self.moved(&text))?;
                all += &format!("pub mod {}\n", renamed(name, module));
            }
        }
        fs::write(place.join("specs/Lib.antt"), all)?;
        let proof = fs::read_to_string(root.join(format!("crates/{}/proofs/{}.antt", self.over, self.proof)))?;
        fs::write(place.join("proofs/Rows.antt"), self.moved(&proof))?;
        fs::write(place.join("proofs/Lib.antt"), "pub mod Rows\n")
    }
}
