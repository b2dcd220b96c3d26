//! Syntax highlighting for VS Code (and other editors that take TextMate grammars) and for Vim, made from the table of words.
//! `editors FOLDER` writes the files; `editors FOLDER --check` says which are not as they would be written, with exit status 1.
use explain::word::{table, Role};
use std::path::Path;
use std::process::ExitCode;

const ROLES: [Role; 9] =
    [Role::Line, Role::Type, Role::Statement, Role::Part, Role::Target, Role::Function, Role::Operator, Role::TypeName, Role::Value];

/// Where a word begins and ends: at a space, a bracket or the line's.
const BEFORE: &str = "(?<![^\\\\s()])";
const AFTER: &str = "(?![^\\\\s()])";

fn main() -> ExitCode {
    let words: Vec<String> = std::env::args().skip(1).collect();
    let (folder, check) = match words.as_slice() {
        [folder] => (Path::new(folder), false),
        [folder, word] if word == "--check" => (Path::new(folder), true),
        _ => {
            eprintln!("usage: editors FOLDER [--check]");
            return ExitCode::from(2);
        }
    };
    let mut stale = 0;
    for (name, content) in files() {
        let path = folder.join(name);
        if !check {
            std::fs::create_dir_all(path.parent().expect("a folder")).expect("a folder can be made");
            std::fs::write(&path, content).expect("a file can be written");
        } else if std::fs::read_to_string(&path).ok().as_ref() != Some(&content) {
            eprintln!("editors: {} is not current; run tools/editors", path.display());
            stale += 1;
        }
    }
    ExitCode::from(u8::from(stale > 0))
}

fn files() -> [(&'static str, String); 5] {
    [
        ("vscode/package.json", PACKAGE.to_string()),
        ("vscode/language-configuration.json", CONFIGURATION.to_string()),
        ("vscode/syntaxes/drive.tmLanguage.json", textmate()),
        ("vim/syntax/drive.vim", vim()),
        ("vim/ftdetect/drive.vim", DETECT.to_string()),
    ]
}

/// The words of a role: those of letters, or the signs.
fn words(role: Role, letters: bool) -> Vec<&'static str> {
    let own = table().filter(|(found, word)| *found == role && word.starts_with(|c: char| c.is_ascii_alphabetic()) == letters);
    let mut list: Vec<&str> = own.map(|(_, word)| word).collect();
    // the longest first, so that `<=` is not read as `<`
    list.sort_by_key(|word| std::cmp::Reverse(word.len()));
    list
}

/// The TextMate scope of a role's words.
fn scope(role: Role) -> &'static str {
    match role {
        Role::Line => "storage.type",
        Role::Type => "storage.modifier",
        Role::Statement | Role::Part => "keyword.control",
        Role::Target | Role::Function => "support.function",
        Role::Operator => "keyword.operator",
        Role::TypeName => "support.type",
        Role::Value => "constant.language",
    }
}

/// The Vim group that a role's words are linked to.
fn linked(role: Role) -> &'static str {
    match role {
        Role::Line => "Define",
        Role::Type => "Structure",
        Role::Statement | Role::Part => "Statement",
        Role::Target | Role::Function => "Function",
        Role::Operator => "Operator",
        Role::TypeName => "Type",
        Role::Value => "Constant",
    }
}

fn escaped(word: &str, special: &str, mark: &str) -> String {
    word.chars().map(|c| if special.contains(c) { format!("{mark}{c}") } else { c.to_string() }).collect()
}

fn textmate() -> String {
    let mut patterns = Vec::new();
    let mut pattern = |scope: &str, regex: String| patterns.push(format!("    {{ \"name\": \"{scope}.drive\", \"match\": \"{regex}\" }}"));
    pattern("invalid.illegal", "[^ -~\\\\n]".to_string());
    pattern("invalid.illegal", format!("{BEFORE}[-+][0-9]+{AFTER}"));
    for role in ROLES {
        for list in [words(role, true), words(role, false)].iter().filter(|list| !list.is_empty()) {
            let any: Vec<String> = list.iter().map(|word| escaped(word, "+*", "\\\\")).collect();
            pattern(scope(role), format!("(?i){BEFORE}(?:{}){AFTER}", any.join("|")));
        }
    }
    // behind the words of the table, so that one of them that is used as a name is seen
    pattern("entity.name.function", format!("(?i)(?<=\\\\(proc )[a-z][a-z0-9_]*{AFTER}"));
    pattern("entity.name.type", format!("(?i)(?<=\\\\(type )[a-z][a-z0-9_]*{AFTER}"));
    pattern("variable.other.definition", format!("(?i)(?<=\\\\(var )[a-z][a-z0-9_]*{AFTER}"));
    pattern("constant.numeric", format!("(?i){BEFORE}(?:[0-9]+|#[0-9a-f]{{1,8}}){AFTER}"));
    pattern("punctuation.bracket.round", "[()]".to_string());
    format!("{{\n  \"name\": \"Drive script\",\n  \"scopeName\": \"source.drive\",\n  \"patterns\": [\n{}\n  ]\n}}\n", patterns.join(",\n"))
}

fn vim() -> String {
    let mut lines = vec![
        "\" Drive scripts; made by tools/editors from the table of words.".to_string(),
        "if exists('b:current_syntax')\n  finish\nendif".to_string(),
        "syntax case ignore".to_string(),
        "syntax match driveBad '[^ -~]'".to_string(),
        "syntax match driveBad '\\%(^\\|[ (]\\)\\@1<=[-+]\\d\\+\\ze\\%([ ()]\\|$\\)'".to_string(),
        "syntax match driveNumber '\\%(^\\|[ (]\\)\\@1<=\\%(\\d\\+\\|#\\x\\{1,8}\\)\\ze\\%([ ()]\\|$\\)'".to_string(),
    ];
    for role in ROLES {
        let group = format!("drive{role:?}");
        let letters = words(role, true);
        if !letters.is_empty() {
            lines.push(format!("syntax keyword {group} {}", letters.join(" ")));
        }
        let signs: Vec<String> = words(role, false).iter().map(|word| escaped(word, "*", "\\")).collect();
        if !signs.is_empty() {
            lines.push(format!("syntax match {group} '\\%(^\\|[ (]\\)\\@1<=\\%({}\\)\\ze\\%([ ()]\\|$\\)'", signs.join("\\|")));
        }
        lines.push(format!("highlight default link {group} {}", linked(role)));
    }
    lines.push("highlight default link driveNumber Number\nhighlight default link driveBad Error".to_string());
    lines.push("let b:current_syntax = 'drive'".to_string());
    lines.join("\n") + "\n"
}

const PACKAGE: &str = r#"{
  "name": "drive-scripts",
  "displayName": "Drive scripts",
  "description": "Highlighting for wheelchair drive scripts",
  "publisher": "mulwethig",
  "version": "0.1.0",
  "engines": { "vscode": "^1.60.0" },
  "categories": ["Programming Languages"],
  "contributes": {
    "languages": [
      {
        "id": "drive",
        "aliases": ["Drive script"],
        "extensions": [".drive"],
        "firstLine": "^ *\\( *(type|var|proc|main)\\b",
        "configuration": "./language-configuration.json"
      }
    ],
    "grammars": [{ "language": "drive", "scopeName": "source.drive", "path": "./syntaxes/drive.tmLanguage.json" }]
  }
}
"#;

const CONFIGURATION: &str = r#"{
  "brackets": [["(", ")"]],
  "autoClosingPairs": [["(", ")"]],
  "surroundingPairs": [["(", ")"]],
  "wordPattern": "[^\\s()]+"
}
"#;

const DETECT: &str = r#"" Drive scripts: by their ending, or a text whose first line starts as one.
autocmd BufRead,BufNewFile *.drive setfiletype drive
autocmd BufRead *.txt if getline(1) =~? '^ *( *\(type\|var\|proc\|main\)\>' | set filetype=drive | endif
"#;
