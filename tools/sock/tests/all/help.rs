//! What the command says of itself, and of wrong usage; versions, words and figures as the header has them.

use crate::given::{example, prints, says};
use sock::library;

#[test]
fn help_for_every_command() {
    let general = prints(0, &["--help"], "");
    for command in ["asm", "dis", "check", "show", "moves", "run"] {
        assert!(general.contains(&format!("    {command} ")), "{command}");
        let help = prints(0, &[command, "--help"], "");
        assert!(help.starts_with(&format!("usage: sock {command} ")), "{help}");
        assert!(help.lines().count() > 5 && help.lines().all(|line| line.len() <= 150), "{help}");
    }
    assert!(prints(0, &["-h"], "") == general && prints(0, &["help"], "") == general);
    assert!(says(2, &["help", "assemble"]).contains("no such command: assemble"));
    let help = prints(0, &["run", "--help"], "");
    assert!(help == prints(0, &["help", "run"], "") && help == prints(0, &["run", "-h"], ""));
    assert!(sock::run::COMMANDS.lines().all(|line| help.contains(line)), "{help}");
}

/// Every option is explained by its command's help, and named by the man page; what the help of the whole names is there.
#[test]
fn every_option_is_explained() {
    let page = std::fs::read_to_string("../../docs/sock.1").unwrap().replace("\\-", "-");
    for command in ["asm", "dis", "check", "show", "moves", "run"] {
        let help = prints(0, &[command, "--help"], "");
        let (usage, text) = help.split_once('\n').unwrap();
        let options = usage.split(['[', ']', ' ']).filter(|word| word.starts_with('-'));
        for option in options {
            assert!(text.contains(&format!("    {option} ")), "{command} {option}: {help}");
            assert!(page.contains(option), "{option} is not in the man page");
        }
        let unknown = says(2, &[command, "--wrong", "file"]);
        assert!(unknown.contains(&format!("sock {command} --help")), "{unknown}");
        assert!(page.contains(&format!(".B sock {command}\n")), "{command}");
    }
}

/// The version is the header's, and the newest in CHANGELOG.md.
#[test]
fn the_version() {
    let version = prints(0, &["--version"], "").trim().replace("sock ", "");
    let header = std::fs::read_to_string("../../include/sock.h").unwrap();
    assert!(header.contains(&format!("#define SOCK_VERSION \"{version}\"")), "{version}");
    let changes = std::fs::read_to_string("../../CHANGELOG.md").unwrap();
    assert_eq!(changes.lines().find_map(|line| line.strip_prefix("## ")), Some(version.as_str()));
}

/// The words for numbers, the names of kinds and the figures are those of the header.
#[test]
fn as_the_header_says() {
    let header = std::fs::read_to_string("../../include/sock.h").unwrap();
    let numbered = |name: &str| {
        let line = header.lines().find(|line| line.contains(&format!(" {name} = "))).unwrap();
        let digits = line.split(" = ").nth(1).unwrap().split([',', ' ']).next().unwrap();
        digits.parse::<u8>().unwrap()
    };
    let mut words = 0;
    for line in header.lines().filter(|line| line.trim().starts_with("case SOCK_")) {
        let (name, word) = line.trim()["case ".len()..].split_once(": return \"").unwrap();
        let number = numbered(name);
        if number <= 14 {
            assert_eq!(library::word_for(number), word.trim_end_matches("\";"), "{name}");
            words += 1;
        }
    }
    assert_eq!(words, 15);
    for (number, (_, name)) in sock::tree::KINDS.iter().enumerate() {
        let constant = format!("SOCK_{}", name.to_uppercase().replace('-', "_"));
        assert_eq!(usize::from(numbered(&constant)), number, "{name}");
    }
    assert!(header.contains(&format!("#define SOCK_WORDS {}\n", library::WORDS)));
}

#[test]
fn wrong_usage() {
    assert!(says(2, &[]).contains("usage:"));
    assert!(says(2, &["assemble"]).contains("no such command: assemble"));
    assert!(says(2, &["asm"]).contains("a file is expected"));
    assert!(says(2, &["asm", &example("worked.hex")]).contains("a text is expected"));
    assert!(says(2, &["show", "--png", &example("worked.hex")]).contains("no such option: --png"));
    assert!(says(2, &["show", &example("worked.hex"), "x"]).contains("a step's number is expected"));
    assert!(says(2, &["show", &example("worked.hex"), "99"]).contains("has 5 steps, not 99"));
    assert!(says(2, &["run", "--random", "1"]).contains("--random wants 2 more"));
    assert!(says(2, &["check", "a", "b"]).contains("more than is expected: b"));
    assert!(says(2, &["check", "no-such-file"]).contains("cannot be read"));
    assert!(says(3, &["asm", "-o", "/no/such/folder", &example("worked.sock")])
        .contains("could not be written"));
    assert!(says(2, &["run", "--random", "1", "x", &example("worked.hex")])
        .contains("a number is expected, not x"));
}
