//! The page of `hemdroas page`, all but what one routine hands in: the template
//! of web/ with its styles, and its script and the library's wasm, packed.

use std::fs;
use std::path::{Component, Path, PathBuf};
use std::process::{Command, Stdio};

/// Where tools/build-for puts the library for a browser.
const WASM: &str = "target/portable/wasm32-unknown-unknown/hemdroas.wasm";

/// The module that imports all others.
const MAIN: &str = "main.mjs";

/// The styles, in the order in which they count.
const STYLES: [&str; 15] = [
    "colours",
    "base",
    "forms",
    "controls",
    "layout",
    "now",
    "routine",
    "registers",
    "policy",
    "record",
    "memory",
    "checks",
    "preview",
    "setup",
    "narrow",
];

fn read(path: &Path) -> String {
    let text = fs::read_to_string(path);
    text.unwrap_or_else(|error| panic!("{}: {error}", path.display()))
}

/// A path without `..`: that of a module which another names.
fn joined(folder: &Path, named: &str) -> PathBuf {
    let mut path = folder.to_path_buf();
    for part in Path::new(named).components() {
        match part {
            Component::ParentDir => drop(path.pop()),
            Component::CurDir => (),
            other => path.push(other),
        }
    }
    path
}

/// What a line `import { names } from "module";` names.
fn imported(line: &str) -> Option<(&str, &str)> {
    let (names, rest) = line.strip_prefix("import ")?.split_once(" from \"")?;
    Some((names, rest.strip_suffix("\";")?))
}

/// The name that a line exports: the word after `const`, `function` or `class`.
fn exported(line: &str) -> Option<&str> {
    let said = line.strip_prefix("export ")?;
    let is_end = |c: char| !c.is_ascii_alphanumeric() && c != '_';
    let is_keyword = |word: &&str| ["", "async", "const", "function", "class"].contains(word);
    said.split(is_end).find(|word| !is_keyword(word))
}

/// The modules as one script, each a block after those that it imports from. A
/// block takes what it imports from `modules` and puts there what it exports.
struct Script {
    web: PathBuf,
    done: Vec<PathBuf>,
    text: String,
}

impl Script {
    fn add(&mut self, path: &Path) {
        if self.done.iter().any(|done| done == path) {
            return;
        }
        self.done.push(path.to_path_buf());
        let folder = path.parent().unwrap_or(Path::new(""));
        let (mut block, mut names) = (String::new(), Vec::new());
        for line in read(&self.web.join(path)).lines() {
            if let Some((wanted, module)) = imported(line) {
                let module = joined(folder, module);
                self.add(&module);
                block += &format!("const {wanted} = modules[\"{}\"];\n", module.display());
                continue;
            }
            names.extend(exported(line).map(str::to_string));
            block += line.strip_prefix("export ").unwrap_or(line);
            block += "\n";
        }
        let exports = names.join(", ");
        let shown = path.display();
        self.text += &format!("{{\n{block}modules[\"{shown}\"] = {{ {exports} }};\n}}\n");
    }
}

/// A file, or a text in one, as gzip has it; none where there is no gzip.
fn packed(path: &Path) -> Option<Vec<u8>> {
    let file = fs::File::open(path).ok()?;
    let gzip = Command::new("gzip")
        .arg("-9nc")
        .stdin(file)
        .stderr(Stdio::inherit())
        .output();
    let output = gzip.ok()?;
    output.status.success().then_some(output.stdout)
}

const DIGITS: &[u8; 64] = b"ABCDEFGHIJKLMNOPQRSTUVWXYZabcdefghijklmnopqrstuvwxyz0123456789+/";
const BYTE_BITS: usize = 8;
const DIGIT_BITS: usize = 6;

/// Bytes in base64: four digits for three bytes.
fn base64(bytes: &[u8]) -> String {
    let mut text = String::new();
    for group in bytes.chunks(3) {
        let mut three = [0; 3];
        three[..group.len()].copy_from_slice(group);
        let bits = three
            .iter()
            .fold(0, |bits, &byte| bits << BYTE_BITS | usize::from(byte));
        for place in 0..4 {
            let digit = bits >> (DIGIT_BITS * (3 - place)) & (DIGITS.len() - 1);
            let is_there = place <= group.len();
            text.push(if is_there { DIGITS[digit].into() } else { '=' });
        }
    }
    text
}

/// The page, or why it cannot be made.
fn page(root: &Path, out: &Path) -> Result<String, &'static str> {
    let web = root.join("web");
    let mut script = Script {
        web: web.clone(),
        done: Vec::new(),
        text: "const modules = {};\n".to_string(),
    };
    script.add(Path::new(MAIN));
    let joined = out.join("page.mjs");
    fs::write(&joined, &script.text).expect("OUT_DIR takes files");
    let wasm = root.join(WASM);
    if !wasm.exists() {
        return Err("no library for the page: tools/build-for wasm32-unknown-unknown makes it");
    }
    let (Some(script), Some(wasm)) = (packed(&joined), packed(&wasm)) else {
        return Err("no gzip, which packs the page");
    };
    let style = |name: &str| read(&web.join("style").join(name).with_extension("css"));
    let styles: Vec<String> = STYLES.iter().map(|name| style(name)).collect();
    Ok(read(&web.join("page.html"))
        .replace("{{STYLE}}", &styles.join("\n"))
        .replace("{{SCRIPT}}", &base64(&script))
        .replace("{{WASM}}", &base64(&wasm)))
}

/// Writes OUT_DIR/page.html, empty where the page cannot be made.
pub fn build(root: &Path, out: &Path) {
    for watched in ["web", WASM] {
        println!("cargo:rerun-if-changed={}", root.join(watched).display());
    }
    let text = page(root, out).unwrap_or_else(|why| {
        println!("cargo:warning=hemdroas page will not work: {why}");
        String::new()
    });
    fs::write(out.join("page.html"), text).expect("OUT_DIR takes files");
}
