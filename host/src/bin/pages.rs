//! Whether the reader's pages are all that a reader has to believe: from the contracts of the public calls and from the
//! statements on the claims' pages, every definition reached stands on a page that the architecture names.
//!
//! `pages`, in the folder of this package. It reads the specs as text: who defines a name, and which names a definition
//! speaks of. What the kit's libraries define is the language's, and no page's.
use std::collections::{BTreeMap, BTreeSet, HashMap};
use std::fs::{read_dir, read_to_string};
use std::path::{Path, PathBuf};
use std::process::ExitCode;

const ROOT: &str = "..";
const ARCHITECTURE: &str = "../docs/ARCHITECTURE.md";
const SECTION: &str = "## What a reader must believe";
/// Where the public contracts stand, those of the C names too, the program that uses them, and where the statements that
/// follow from them.
const SERVERS: [&str; 2] = ["ushanderi", "ushanderi_c"];
const PROGRAM: &str = "lister";
const CLAIMS: &str = "claims";

/// The folders whose files are read: definitions, and theorems that rest on them.
const SPECS: [&str; 2] = ["specs", "proofs"];

/// A crate's name, and that of a file of its specs.
type Page = (String, String);

/// A file of specs: from where it takes which names, and what it defines.
#[derive(Default)]
struct Specs {
    named: HashMap<String, Page>,
    /// Files that names are taken from in full, by the name that stands before the dot.
    whole: HashMap<String, Page>,
    /// A definition by its name with all its text, and a law with its statement.
    defined: BTreeMap<String, String>,
}

fn main() -> ExitCode {
    let pages = listed_pages();
    let specs = all_specs();
    let mut reached: BTreeMap<(Page, String), String> = BTreeMap::new();
    let mut open = roots(&pages, &specs);
    while let Some((page, name, from)) = open.pop() {
        let Some(text) = specs.get(&page).and_then(|specs| specs.defined.get(&name)) else { continue };
        if reached.contains_key(&(page.clone(), name.clone())) {
            continue;
        }
        let here = format!("{}/{} {name}", page.0, page.1);
        for (next, name) in spoken_of(&specs, &page, text) {
            open.push((next, name, here.clone()));
        }
        reached.insert((page, name), from);
    }
    let outside: Vec<_> = reached.iter().filter(|((page, _), _)| !pages.contains(page)).collect();
    for (((krate, file), name), from) in &outside {
        println!("{krate}/specs/{file}.antt is no page, and has {name}, which {from} speaks of");
    }
    let unused: Vec<_> = pages.iter().filter(|page| !reached.keys().any(|(used, _)| used == *page)).collect();
    for (krate, file) in &unused {
        println!("{krate}/specs/{file}.antt is named as a page, and nothing reaches it");
    }
    println!("{} definitions on {} pages", reached.len(), pages.len());
    if outside.is_empty() && unused.is_empty() {
        ExitCode::SUCCESS
    } else {
        ExitCode::FAILURE
    }
}

/// The files that the architecture names in its section: `crate/specs/File.antt`, and after it `Other.antt` of the same.
/// A file of `proofs/` that has the name of one in `specs/` is of the same page.
fn listed_pages() -> BTreeSet<Page> {
    let text = read(Path::new(ARCHITECTURE));
    let section = text.split(SECTION).nth(1).expect("the section on what to believe");
    let list = section.split("\n\n").find(|part| part.starts_with("- ")).expect("the list of pages");
    let mut krate = String::new();
    let mut pages = BTreeSet::new();
    for path in list.split('`').skip(1).step_by(2).filter_map(|quoted| quoted.strip_suffix(".antt")) {
        let file = match path.split_once("/specs/").or_else(|| path.split_once("/proofs/")) {
            Some((of, file)) => {
                krate = of.to_string();
                file
            }
            None => path,
        };
        pages.insert((krate.clone(), file.to_string()));
    }
    pages
}

/// What the contracts of the public calls and of the functions that the program calls name, and every statement on the
/// claims' pages.
fn roots(pages: &BTreeSet<Page>, specs: &HashMap<Page, Specs>) -> Vec<(Page, String, String)> {
    let public = |head: &str| head.starts_with("pub fn ") || head.starts_with("pub extern ");
    let mut roots: Vec<_> = SERVERS.iter().flat_map(|server| contracts(server, public)).collect();
    let program = read(&Path::new(ROOT).join("crates").join(PROGRAM).join("src/main.rt"));
    roots.extend(contracts(PROGRAM, |head| program.contains(&format!("::{}(", function_of(head)))));
    for page in pages.iter().filter(|(krate, _)| krate == CLAIMS) {
        let names = specs.get(page).into_iter().flat_map(|specs| specs.defined.keys());
        roots.extend(names.map(|name| (page.clone(), name.clone(), "the page itself".to_string())));
    }
    roots
}

/// What the contracts of a crate's functions name, of those whose head is such as asked for.
fn contracts(krate: &str, such: impl Fn(&str) -> bool) -> Vec<(Page, String, String)> {
    let mut named = Vec::new();
    for file in files(&Path::new(ROOT).join("crates").join(krate).join("src"), "rt") {
        let text = read(&file);
        let (from, _) = imports(&text, "ghost use ", ";");
        let starts = text.match_indices("\npub").map(|(place, _)| &text[place + 1..]);
        for head in starts.filter(|rest| such(rest)).filter_map(|rest| rest.split("\n{").next()) {
            let pages = words(head).filter_map(|word| Some((from.get(word)?.clone(), word.to_string())));
            named.extend(pages.map(|(page, word)| (page, word, function_of(head).to_string())));
        }
    }
    named
}

/// The name of the function that a text begins with.
fn function_of(head: &str) -> &str {
    let name = head.split_once("fn ").map_or("", |(_, name)| name);
    name.split(['(', '<']).next().unwrap_or_default()
}

/// The definitions that a text on a page names.
fn spoken_of(specs: &HashMap<Page, Specs>, page: &Page, text: &str) -> Vec<(Page, String)> {
    let own = &specs[page];
    let mut named = Vec::new();
    for word in words(text) {
        if own.defined.contains_key(word) {
            named.push((page.clone(), word.to_string()));
        } else if let Some(other) = own.named.get(word) {
            named.push((other.clone(), word.to_string()));
        }
    }
    for (prefix, other) in &own.whole {
        let dotted = format!("{prefix}.");
        let after = text.split(&dotted).skip(1);
        named.extend(after.filter_map(|rest| words(rest).next()).map(|word| (other.clone(), word.to_string())));
    }
    named
}

fn all_specs() -> HashMap<Page, Specs> {
    let mut all: HashMap<Page, Specs> = HashMap::new();
    for krate in read_dir(Path::new(ROOT).join("crates")).expect("the crates").flatten() {
        let name = krate.file_name().to_string_lossy().into_owned();
        for file in SPECS.iter().flat_map(|folder| files(&krate.path().join(folder), "antt")) {
            let stem = file.file_stem().expect("a file's name").to_string_lossy().into_owned();
            let page: &mut Specs = all.entry((name.clone(), stem)).or_default();
            let more = read_specs(&read(&file));
            page.named.extend(more.named);
            page.whole.extend(more.whole);
            page.defined.extend(more.defined);
        }
    }
    all
}

fn read_specs(text: &str) -> Specs {
    let (named, whole) = imports(text, "use ", "");
    let lines: Vec<&str> = text.lines().filter(|line| !line.trim_start().starts_with("--")).collect();
    let mut defined = BTreeMap::new();
    let mut block = 0;
    for (place, line) in lines.iter().enumerate() {
        // Definitions stand at the left, or one step in under `module` and `mutual`.
        if indent(line) == 0 && !line.is_empty() {
            block = if line.starts_with("module ") || line.starts_with("mutual") { 2 } else { 0 };
        }
        if indent(line) > block || line.trim().is_empty() {
            continue;
        }
        if let Some((name, law)) = defined_by(line.trim()) {
            let text = item_text(&lines[place..], name, law);
            defined.entry(name.to_string()).or_insert(text);
        }
    }
    Specs { named, whole, defined }
}

/// The name that a line begins to define, and whether it is a law.
fn defined_by(line: &str) -> Option<(&str, bool)> {
    let words: Vec<&str> = line.split_whitespace().filter(|word| *word != "pub").collect();
    match words.as_slice() {
        ["record" | "data", name, ..] => Some((name, false)),
        ["abbrev" | "unfoldable", name, ":", ..] => Some((name, false)),
        [name, ":", ..] if !name.starts_with('(') => Some((name, true)),
        _ => None,
    }
}

/// A definition with the lines under it and its equations; of a law the statement.
fn item_text(lines: &[&str], name: &str, law: bool) -> String {
    let depth = indent(lines[0]);
    let mut text = lines[0].to_string();
    for line in &lines[1..] {
        let under = line.trim().is_empty() || indent(line) > depth;
        let first = line.split_whitespace().next().unwrap_or_default();
        let equation = !law && (first == name || first == "unfolding");
        if !under && !equation {
            break;
        }
        text.push('\n');
        text.push_str(line);
    }
    text
}

type Imports = (HashMap<String, Page>, HashMap<String, Page>);

/// The names that a file takes from other files of specs, and the files that it takes in full.
fn imports(text: &str, before: &str, after: &str) -> Imports {
    let (mut named, mut whole) = (HashMap::new(), HashMap::new());
    for line in text.lines().filter_map(|line| line.strip_prefix(before)?.strip_suffix(after)) {
        let (path, group) = line.split_once(".{").unwrap_or((line, ""));
        let (path, prefix) = path.split_once(" as ").unwrap_or((path, path.rsplit('.').next().unwrap_or(path)));
        let Some(page) = page_of(path) else { continue };
        if group.is_empty() {
            whole.insert(prefix.to_string(), page);
        } else {
            let names = group.trim_end_matches('}').split(", ");
            named.extend(names.map(|name| (name.to_string(), page.clone())));
        }
    }
    (named, whole)
}

/// `Rattle.table.specs.Words`, and `Rattle.table.proofs.Forms` of the same crate's theorems. What the kit's libraries
/// define is on none of the crates' pages.
fn page_of(path: &str) -> Option<Page> {
    let (krate, place) = path.strip_prefix("Rattle.")?.split_once('.')?;
    let (folder, file) = place.split_once('.')?;
    SPECS.contains(&folder).then(|| (krate.to_string(), file.to_string()))
}

/// The words of a text, as the specs' language cuts them.
fn words(text: &str) -> impl Iterator<Item = &str> {
    text.split(|c: char| c.is_whitespace() || "(){}[],;.⌜⌝λ".contains(c)).filter(|word| !word.is_empty())
}

fn indent(line: &str) -> usize {
    line.len() - line.trim_start().len()
}

fn files(folder: &Path, ending: &str) -> Vec<PathBuf> {
    let entries: Vec<_> = read_dir(folder).map(|entries| entries.flatten().collect()).unwrap_or_default();
    let mut files: Vec<PathBuf> = entries.into_iter().map(|entry| entry.path()).collect();
    files.retain(|file| file.extension().is_some_and(|found| found == ending));
    files.sort();
    files
}

fn read(file: &Path) -> String {
    read_to_string(file).unwrap_or_else(|fault| panic!("{}: {fault}", file.display()))
}
