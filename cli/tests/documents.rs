//! The man page and the completion tell what the program has.

mod common;

use common::{answer, answer_to, Named};
use std::collections::BTreeSet;
use std::path::{Path, PathBuf};
use std::process::Command;
use ventolaire::bench_tree::IMAGE;

const PAGE: &str = include_str!("../../docs/man/ventolaire.1");
const COMPLETION: &str = include_str!("../../completions/ventolaire.bash");
const COMMANDS: [&str; 10] =
    ["check", "show", "build", "pack", "resolve", "lookup", "part", "canonical", "script", "demo"];

fn file(name: &str) -> PathBuf {
    Path::new(env!("CARGO_MANIFEST_DIR")).join("..").join(name)
}

/// The words of a text that begin with a dash, and the names of bits.
fn words(text: &str) -> BTreeSet<String> {
    let is_part = |char: char| char.is_ascii_alphanumeric() || "-_".contains(char);
    let words = text.split(|char| !is_part(char));
    let is_option = |word: &&str| {
        let bare = word.trim_start_matches('-');
        word.starts_with('-') && !bare.is_empty()
            || ["O_", "RESOLVE_"].iter().any(|prefix| word.len() > 8 && word.starts_with(prefix))
            || *word == "O_PATH"
    };
    words.filter(is_option).map(String::from).collect()
}

#[test]
fn man_page_and_completion_name_every_option() {
    let (_, help) = answer(["--help"]);
    // Those of other programs stand in examples.
    let help = help.split("EXAMPLE").next().unwrap();
    let told = words(help);
    assert!(told.len() >= 22, "{told:?}");
    let page = PAGE.replace("\\-", "-");
    for (name, text) in [("the man page", page.as_str()), ("the completion", COMPLETION)] {
        let named = words(text);
        for word in &told {
            assert!(named.contains(word), "{name} does not name {word}");
        }
        for command in COMMANDS {
            assert!(text.contains(command), "{name} does not name {command}");
        }
    }
    for word in words(&COMPLETION.replace(" -o ", " ").replace(" -P ", " ")) {
        let of_bash = word.len() == 2 && !told.contains(&word);
        assert!(of_bash || told.contains(&word) || word == "-eq", "there is no {word}");
    }
}

#[test]
fn the_man_page_has_the_version_and_every_section() {
    let title = format!("\"ventolaire {}\"", env!("CARGO_PKG_VERSION"));
    assert!(PAGE.lines().next().unwrap().contains(&title));
    for section in
        ["NAME", "SYNOPSIS", "OPTIONS", "MANIFESTS", "SCRIPTS", "JSON", "EXIT STATUS", "EXAMPLES"]
    {
        let plain = format!(".SH {section}\n");
        assert!(PAGE.contains(&plain), "{section}");
    }
}

/// Where there is a groff.
#[test]
fn the_man_page_is_set_without_a_warning() {
    let page = file("docs/man/ventolaire.1");
    let groff = Command::new("groff").args(["-man", "-Tutf8", "-ww"]).arg(page).output();
    if let Ok(output) = groff {
        assert_eq!(String::from_utf8_lossy(&output.stderr), "");
        assert!(output.status.success());
    }
}

/// The man page's script is answered as it says there.
#[test]
fn the_man_pages_script_is_answered_so() {
    let page = PAGE.replace("\\-", "-");
    let (_, examples) = page.split_once("\nA script, and what\n").unwrap();
    let mut shown = examples.split("\n.EX\n").skip(1).map(|part| part.split(".EE").next().unwrap());
    let (script, answers) = (shown.next().unwrap(), shown.next().unwrap());
    let image = Named::file(IMAGE);
    let answered = answer_to(script.as_bytes(), ["script", image.path()]);
    assert_eq!(answered, (1, answers.into()));
}

/// So are the names that the man page and the help tell the answers to.
#[test]
fn the_names_told_are_answered_so() {
    let (_, help) = answer(["--help"]);
    let image = Named::file(IMAGE);
    for (text, name) in [(PAGE, "tare"), (PAGE, "nope"), (&help, "loop")] {
        let (_, line) = image.lookup(&["2", name]);
        assert!(text.contains(line.trim_end()), "{line}");
    }
}

/// So is the image that the man page tells the verdict on.
#[test]
fn the_verdict_told_is_given_so() {
    let image = Named::file(IMAGE);
    let (status, line) = answer(["canonical", image.path(), "--check"]);
    assert!(status == 1 && PAGE.contains(line.trim_end()), "{line}");
}

/// So is the part that the man page shows places of, and the handle that it tells as refused.
#[test]
fn the_part_told_is_printed_so() {
    let image = Named::file(IMAGE);
    let page = PAGE.replace("\\-", "-");
    let (_, shown) = page.split_once("has the mount behind it:\n").unwrap();
    let shown = shown.split(".EE").next().unwrap().split(".EX\n").nth(1).unwrap();
    let [lab, pool] =
        ["0:1", "0:7"].map(|handle| answer(["part", image.path(), "--handle", handle]).1);
    for line in shown.lines() {
        assert!(lab.lines().chain(pool.lines()).any(|printed| printed == line), "{line}");
    }
    assert_eq!(shown.lines().count(), 5);
    let (_, line) = answer(["part", image.path(), "--handle", "0:1", "--common", image.path()]);
    let (_, help) = answer(["--help"]);
    assert!(page.contains(line.trim_end()) && help.contains(line.trim_end()), "{line}");
}

/// What bash offers behind these words.
fn completed(words: &[&str]) -> Vec<String> {
    let script = r#". "$0"; COMP_WORDS=("$@"); COMP_CWORD=$(($# - 1)); _ventolaire
        printf '%s\n' "${COMPREPLY[@]}""#;
    let mut bash = Command::new("bash");
    bash.args(["--norc", "-c", script]).arg(file("completions/ventolaire.bash"));
    let output = bash.arg("ventolaire").args(words).current_dir(file("cli")).output().unwrap();
    assert_eq!(String::from_utf8_lossy(&output.stderr), "");
    let lines = String::from_utf8(output.stdout).unwrap();
    lines.lines().filter(|line| !line.is_empty()).map(String::from).collect()
}

/// Where there is a bash.
#[test]
fn the_completion_completes() {
    if Command::new("bash").arg("--version").output().is_err() {
        return;
    }
    let rows: &[(&[&str], &[&str])] = &[
        (&["s"], &["show", "script"]),
        (&["--v"], &["--version"]),
        (&["show", "Cargo.t"], &["Cargo.toml"]),
        (&["show", "x", "--"], &["--manifest", "--dot", "--json", "--help"]),
        (&["build", "x", "--"], &["--output", "--force", "--json", "--help"]),
        (&["pack", "x", "--mo"], &["--mounts"]),
        (&["resolve", "x", "--pa"], &["--paths-from"]),
        (&["resolve", "x", "--flag", "O_D"], &["O_DIRECTORY"]),
        (&["resolve", "x", "--flag", "=", "O_D"], &["O_DIRECTORY"]),
        (&["resolve", "x", "--flag", "O_PATH,O_N"], &["O_PATH,O_NOFOLLOW"]),
        (
            &["resolve", "x", "--resolve", "RESOLVE_NO_"],
            &["RESOLVE_NO_XDEV", "RESOLVE_NO_SYMLINKS", "RESOLVE_NO_MAGICLINKS"],
        ),
        (&["resolve", "x", "--paths-from", "Cargo.t"], &["Cargo.toml"]),
        (&["resolve", "x", "--handle", ""], &[]),
        (&["l"], &["lookup"]),
        (&["lookup", "Cargo.t"], &["Cargo.toml"]),
        (&["lookup", "x", "2", "--n"], &["--names-from", "--null"]),
        (&["lookup", "x", "2", "--names-from", "Cargo.t"], &["Cargo.toml"]),
        (&["p"], &["pack", "part"]),
        (&["part", "Cargo.t"], &["Cargo.toml"]),
        (&["part", "x", "--"], &["--handle", "--common", "--json", "--help"]),
        (&["part", "x", "--common", "Cargo.t"], &["Cargo.toml"]),
        (&["part", "x", "--common", "=", "Cargo.t"], &["Cargo.toml"]),
        (&["part", "x", "--handle", ""], &[]),
        (&["script", "x", "Cargo.t"], &["Cargo.toml"]),
        (&["script", "x", "--j"], &["--json"]),
        (&["can"], &["canonical"]),
        (&["canonical", "x", "--"], &["--output", "--force", "--check", "--json", "--help"]),
        (&["canonical", "x", "-o", "Cargo.t"], &["Cargo.toml"]),
        (&["canonical", "x", "--output", "=", "Cargo.t"], &["Cargo.toml"]),
        (&["nothing", "x"], &[]),
    ];
    for (words, offered) in rows {
        assert_eq!(completed(words), *offered, "{words:?}");
    }
    assert_eq!(completed(&["resolve", "x", "--flag", "="]).len(), 4);
    assert_eq!(completed(&["resolve", "x", "--resolve", ""]).len(), 5);
}

/// The commands that a part of README shows, each with the lines that it prints.
fn shown(section: &str) -> Vec<(String, String)> {
    let readme = std::fs::read_to_string(file("README.md")).unwrap();
    let (_, part) = readme.split_once(&format!("\n## {section}\n")).unwrap();
    let part = part.split("\n## ").next().unwrap();
    let mut commands = Vec::new();
    for line in part.lines().filter_map(|line| line.strip_prefix("    ")) {
        match (line.strip_prefix("$ "), commands.last_mut()) {
            (Some(command), _) => commands.push((command.to_string(), String::new())),
            (None, Some((_, printed))) => printed.extend([line, "\n"]),
            (None, None) => panic!("{line}"),
        }
    }
    commands
}

/// What README shows in these parts is printed, but for the width of blanks.
#[test]
fn readme_is_true() {
    let folder = Named::new();
    std::fs::create_dir(&folder.0).unwrap();
    std::fs::copy(file("README.md"), folder.0.join("README.md")).unwrap();
    let program = Path::new(env!("CARGO_BIN_EXE_ventolaire")).parent().unwrap();
    let path = format!("{}:{}", program.display(), std::env::var("PATH").unwrap());
    let commands = [shown("First minutes"), shown("The program")].concat();
    assert!(commands.len() >= 15, "{commands:?}");
    for (command, printed) in commands {
        if let Some(file) = command.strip_prefix("cat ") {
            std::fs::write(folder.0.join(file), printed).unwrap();
            continue;
        }
        let mut shell = Command::new("sh");
        let shell = shell.args(["-c", &format!("{command} 2>&1")]).env("PATH", &path);
        let output = shell.current_dir(&folder.0).output().unwrap();
        let got = String::from_utf8(output.stdout).unwrap();
        let blanks = |text: &str| text.split_whitespace().collect::<Vec<_>>().join(" ");
        // The demo's own answers are tested elsewhere, and so is what is shown of the bench tree.
        if !printed.is_empty() || !["demo", "show"].iter().any(|word| command.contains(word)) {
            assert_eq!(blanks(&got), blanks(&printed), "{command}");
        }
    }
    std::fs::remove_dir_all(&folder.0).unwrap();
}
