//! Follows docs/TUTORIAL.md word by word: writes the files that it shows, gives the commands behind `$` and the lines behind `>`, and
//! compares what is printed.

use std::io::Write;
use std::path::{Path, PathBuf};
use std::process::{Command, Stdio};

fn folder(name: &str) -> PathBuf {
    let folder = std::env::temp_dir().join(format!("sock-{name}-{}", std::process::id()));
    let _ = std::fs::remove_dir_all(&folder);
    std::fs::create_dir_all(&folder).unwrap();
    folder
}

/// A block of indented lines, with the last file named in backquotes before it; or a command in backquotes, to be given as it stands.
enum Part {
    Block { file: Option<String>, lines: Vec<String> },
    Command(String),
}

fn parts(text: &str) -> Vec<Part> {
    let mut parts: Vec<Part> = Vec::new();
    let mut file = None;
    let mut prose = String::new();
    for line in text.lines() {
        match (line.strip_prefix("    "), parts.last_mut()) {
            (Some(code), Some(Part::Block { lines, .. })) if prose.is_empty() => {
                lines.push(code.to_string());
            }
            (Some(code), _) => {
                parts.extend(commands(&prose));
                prose.clear();
                parts.push(Part::Block { file: file.take(), lines: vec![code.to_string()] });
            }
            (None, Some(Part::Block { lines, .. })) if line.is_empty() && prose.is_empty() => {
                lines.push(String::new());
            }
            (None, _) => {
                prose.push_str(line);
                prose.push(' ');
                let names = quoted(line);
                let mut texts = names
                    .iter()
                    .filter(|word| word.ends_with(".sock") && !word.contains([' ', '/']));
                file = texts.next_back().cloned().or(file);
            }
        }
    }
    parts.extend(commands(&prose));
    parts
}

/// What stands in backquotes.
fn quoted(prose: &str) -> Vec<String> {
    prose.split('`').skip(1).step_by(2).map(str::to_string).collect()
}

fn commands(prose: &str) -> Vec<Part> {
    let all = quoted(prose).into_iter();
    all.filter(|word| word.starts_with("bin/sock ") && !word.contains("COMMAND"))
        .map(Part::Command)
        .collect()
}

/// What is printed by the command, with these lines typed.
fn given(folder: &Path, command: &str, typed: &str) -> String {
    let mut child = Command::new("sh");
    child.arg("-c").arg(format!("{command} 2>&1")).current_dir(folder);
    let mut child = child.stdin(Stdio::piped()).stdout(Stdio::piped()).spawn().unwrap();
    let _ = child.stdin.take().unwrap().write_all(typed.as_bytes());
    String::from_utf8(child.wait_with_output().unwrap().stdout).unwrap()
}

fn session(folder: &Path, lines: &[String]) -> usize {
    let mut commands = 0;
    let mut rest = lines;
    while let Some(command) = rest.first().and_then(|line| line.strip_prefix("$ ")) {
        let end = rest[1..]
            .iter()
            .position(|line| line.starts_with("$ "))
            .map_or(rest.len(), |end| end + 1);
        let expected = rest[1..end].join("\n");
        let typed: String = rest[1..end]
            .iter()
            .filter_map(|line| line.strip_prefix("> "))
            .map(|line| format!("{line}\n"))
            .collect();
        let printed = given(folder, command, &typed);
        assert_eq!(printed.trim_end(), expected.trim_end(), "{command}");
        commands += 1;
        rest = &rest[end..];
    }
    commands
}

/// Follows a page in a folder that has what the names of the repository lead to; answers how many files and commands there were.
fn followed(text: &str, name: &str, linked: &[&str]) -> (usize, usize) {
    let root = std::fs::canonicalize("../..").unwrap();
    let folder = folder(name);
    for link in linked {
        std::os::unix::fs::symlink(root.join(link), folder.join(link)).unwrap();
    }
    let (mut files, mut commands) = (0, 0);
    for part in parts(text) {
        let (file, lines) = match part {
            Part::Block { file, lines } => (file, lines),
            Part::Command(command) => {
                let given =
                    Command::new("sh").arg("-c").arg(&command).current_dir(&folder).output();
                assert!(given.unwrap().status.success(), "{command}");
                commands += 1;
                continue;
            }
        };
        let begins = lines.iter().position(|line| line.starts_with("$ ")).unwrap_or(lines.len());
        let content = lines[..begins].join("\n");
        if !content.trim().is_empty() {
            let file = file.unwrap_or_else(|| panic!("no file is named before:\n{content}"));
            std::fs::write(folder.join(file), content.trim_end().to_string() + "\n").unwrap();
            files += 1;
        }
        commands += session(&folder, &lines[begins..]);
    }
    std::fs::remove_dir_all(folder).unwrap();
    (files, commands)
}

fn page(name: &str) -> String {
    std::fs::read_to_string(format!("../../{name}")).unwrap()
}

#[test]
fn the_tutorial_word_by_word() {
    let (files, commands) = followed(&page("docs/TUTORIAL.md"), "tutorial", &["bin"]);
    assert!(files >= 3 && commands >= 12, "{files} files, {commands} commands");
}

/// The examples of the README's section on the command.
#[test]
fn the_readme() {
    let text = page("README.md");
    let (_, section) = text.split_once("## For people: `bin/sock`\n").unwrap();
    let (section, _) = section.split_once("\n## ").unwrap();
    let (files, commands) = followed(section, "readme", &["bin", "examples", "tests"]);
    assert!(files == 0 && commands >= 6, "{commands} commands");
}

/// The example that docs/TEXT.md shows is the one in examples/, up to its steps.
#[test]
fn the_example_of_the_text_form() {
    let text = page("docs/TEXT.md");
    let Some(Part::Block { lines, .. }) =
        parts(&text).into_iter().find(|part| matches!(part, Part::Block { .. }))
    else {
        panic!("no example");
    };
    let shown = sock::assemble::assemble(&lines.join("\n")).unwrap();
    let whole = sock::assemble::assemble(&page("examples/bridge.sock")).unwrap();
    assert_eq!(shown.input.words, whole.input.words);
    assert_eq!(shown.input.steps.len(), 4);
    assert!(text.lines().count() < 110, "more than a page");
}
