//! The definitions of a repository: which crate has a module, what it imports, and the names that
//! open it.

use std::collections::{BTreeMap, BTreeSet};
use std::fs;
use std::io::{Error, Result};
use std::path::Path;

/// `crates/CRATE/specs/NAME.antt`, as (CRATE, NAME).
type Module = (String, String);

/// The lines of `crates.txt` by their crates, and the text of each module of definitions.
pub struct Definitions {
    lines: BTreeMap<String, String>,
    texts: BTreeMap<Module, String>,
}

/// What a module of cases begins with, and the crates that it imports from.
pub struct Header {
    pub text: String,
    pub crates: BTreeSet<String>,
}

impl Definitions {
    pub fn read(repository: &Path) -> Result<Definitions> {
        let listed = fs::read_to_string(repository.join("crates.txt"))?;
        let (mut lines, mut texts) = (BTreeMap::new(), BTreeMap::new());
        for line in listed.lines().filter(|line| !line.starts_with('#')) {
            let Some((name, _)) = line.split_once([':', ' ']) else { continue };
            lines.insert(name.to_string(), line.to_string());
            read_modules(repository, name, &mut texts)?;
        }
        Ok(Definitions { lines, texts })
    }

    /// Fills in a template. A line `use specs.NAME` there names no crate: it is the one that has the
    /// module. `OPENERS` stands for the names that open these modules and all that they import.
    pub fn header(&self, template: &str) -> Result<Header> {
        let roots =
            template.lines().filter_map(cited).map(|name| self.the_one(name)).collect::<Result<_>>()?;
        let modules = self.closure(roots);
        let openers: Vec<(&Module, &str)> = modules
            .iter()
            .flat_map(|module| openers(&self.texts[module]).map(move |opener| (module, opener)))
            .collect();
        let mut text = String::new();
        for line in template.lines() {
            if let Some(name) = cited(line) {
                text += &line.replacen("specs", &format!("Rattle.{}.specs", self.the_one(name)?.0), 1);
            } else if line == "use OPENERS" {
                let uses = openers
                    .iter()
                    .map(|((of, name), opener)| format!("use Rattle.{of}.specs.{name}.{{{opener}}}"));
                text += &uses.collect::<Vec<_>>().join("\n");
            } else {
                let names: Vec<&str> = openers.iter().map(|(_, opener)| *opener).collect();
                text += &line.replace("OPENERS", &names.join(" "));
            }
            text.push('\n');
        }
        Ok(Header { text, crates: modules.into_iter().map(|(of, _)| of).collect() })
    }

    /// The lines of these crates and of all that they use.
    pub fn lines_of(&self, crates: &BTreeSet<String>) -> BTreeMap<&str, &str> {
        let mut found = BTreeMap::new();
        let mut open: Vec<&str> = crates.iter().map(String::as_str).collect();
        while let Some(name) = open.pop() {
            let Some((name, line)) = self.lines.get_key_value(name) else { continue };
            if found.insert(name.as_str(), line.as_str()).is_none() {
                open.extend(line.split_whitespace().skip(1));
            }
        }
        found
    }

    /// The module of this name, where one crate alone has it.
    fn the_one(&self, name: &str) -> Result<Module> {
        let found: Vec<&Module> = self.texts.keys().filter(|module| module.1 == name).collect();
        let [module] = found[..] else {
            return Err(Error::other(format!("{} crates have a module specs/{name}.antt", found.len())));
        };
        Ok(module.clone())
    }

    /// These modules and all that they import.
    fn closure(&self, mut open: Vec<Module>) -> BTreeSet<Module> {
        let mut found = BTreeSet::new();
        while let Some(module) = open.pop() {
            let Some(text) = self.texts.get(&module) else { continue };
            if found.insert(module) {
                open.extend(text.lines().filter_map(imported));
            }
        }
        found
    }
}

/// The modules of a crate; a crate may have none.
fn read_modules(repository: &Path, of: &str, texts: &mut BTreeMap<Module, String>) -> Result<()> {
    let Ok(entries) = fs::read_dir(repository.join("crates").join(of).join("specs")) else {
        return Ok(());
    };
    for entry in entries {
        let path = entry?.path();
        let (Some(name), Some(end)) = (path.file_stem(), path.extension()) else { continue };
        if end == "antt" {
            texts.insert((of.to_string(), name.to_string_lossy().into_owned()), fs::read_to_string(&path)?);
        }
    }
    Ok(())
}

/// The module that a line of the template cites.
fn cited(line: &str) -> Option<&str> {
    line.strip_prefix("use specs.")?.split('.').next()
}

/// The module that a line of antt imports: `use Rattle.CRATE.specs.NAME`.
fn imported(line: &str) -> Option<Module> {
    let (of, rest) = line.strip_prefix("use Rattle.")?.split_once(".specs.")?;
    let name = rest.split(['.', ' ']).next()?;
    Some((of.to_string(), name.to_string()))
}

/// The names that open definitions of a module on an `unfolding` line: `unfoldable pub NAME : Unit {0}`.
fn openers(text: &str) -> impl Iterator<Item = &str> {
    text.lines().filter_map(|line| line.strip_prefix("unfoldable pub ")?.strip_suffix(" : Unit {0}"))
}
