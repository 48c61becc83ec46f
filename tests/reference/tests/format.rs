//! `docs/FORMAT.md` says what is so: its drawing of the kinds is what the second implementation
//! writes, and the process that it takes apart word by word is the one in its file.

use reference::build;
use reference::context::enabled;
use reference::process::{Key, Mark, Part};
use reference::variables::Variables;
use reference::{process_range, readable, write, STANDARD};

const DOCUMENT: &str = include_str!("../../../docs/FORMAT.md");

/// The lines of a section.
fn section(title: &str) -> Vec<&'static str> {
    let lines = DOCUMENT.lines().skip_while(|line| line.strip_prefix("## ") != Some(title));
    lines.skip(1).take_while(|line| !line.starts_with("## ")).collect()
}

/// What each letter of the drawing stands for here: all different, and not the same backwards.
fn value(letter: char) -> u16 {
    match letter {
        'v' => 0b10110,
        'c' => 3,
        'o' => 0b101100,
        'x' => 0b11010,
        'y' => 0b01011,
        'z' => 0b10010,
        'n' => 0b110100,
        'f' => 0b001011,
        'm' | 'k' | 'd' => 1,
        'e' => 0b110,
        's' => 0b1011_0110_0101_0001,
        _ => panic!("a letter without a meaning: {letter}"),
    }
}

/// The words that a drawing stands for: a group of letters is a field, a group of digits is itself.
fn drawn(words: &str) -> Vec<u16> {
    let word = |groups: &str| {
        let mut bits = String::new();
        for group in groups.split_whitespace() {
            let letter = group.chars().next().unwrap_or('0');
            match letter.is_alphabetic() {
                true => {
                    assert!(group.chars().all(|each| each == letter), "two fields in {group}");
                    bits += &format!("{:0width$b}", value(letter), width = group.len());
                }
                false => bits += group,
            }
        }
        assert_eq!(bits.len(), 16, "{groups}");
        u16::from_str_radix(&bits, 2).expect("bits")
    };
    words.split('|').map(word).collect()
}

/// The variables of a message here: of x and of y another count.
fn variables(letter: char) -> Variables {
    let first = value(letter) as u8;
    match letter {
        'x' => Variables::from([first, 1, 30, 7]),
        _ => Variables::from([first, 29, first]),
    }
}

/// The words of a list of variables behind the first: a count and a word for each further one.
fn listed(letter: char) -> Vec<u16> {
    let Variables(all) = variables(letter);
    let further = all[1..].iter().map(|each| u16::from(*each) * 0x800);
    [all.len() as u16].into_iter().chain(further).collect()
}

/// A process of the kind with these fields.
fn built(kind: u8) -> Part {
    let [v, o, z, n, f, e] = ['v', 'o', 'z', 'n', 'f', 'e'].map(|letter| value(letter) as u8);
    let (x, y) = (variables('x'), variables('y'));
    let (nil, leaf) = (build::nil, || build::comp(1));
    let none = || build::list([]);
    let one = || build::constant(1);
    match kind {
        0 => nil(),
        1 => build::assign(v, one()),
        2 => build::seq(leaf(), nil()),
        3 => build::par(leaf(), leaf()),
        4 => build::if_else(one(), nil(), nil()),
        5 => build::while_true(one(), nil()),
        6 => build::choice(vec![(build::one_way(o, x), nil()); usize::from(value('c'))]),
        7 => build::one_way(o, x),
        8 => build::request(o, x, y, nil()),
        9 => build::notify(o, y, z),
        10 => build::solicit(o, y, z, x, none()),
        11 => {
            let list = build::list([(Key::Fault(f), nil())]);
            build::scope_with(n, Mark::Fault(f), true, list, nil())
        }
        12 => build::inst(none()),
        13 => build::throw(f),
        14 => build::comp(n),
        15 => build::current_handler(),
        16 => build::executor(o, y, e, value('s'), nil()),
        17 => build::waiter(o, x, true, e, value('s'), none()),
        _ => build::notice(o, f, e, value('s')),
    }
}

#[test]
fn kinds_are_drawn_as_they_are_written() {
    let mut kinds = 0;
    for line in section("Kinds of process") {
        let Some(drawing) = line.strip_prefix("    ") else { continue };
        let Ok(kind) = drawing[..2].trim().parse::<u8>() else { continue };
        // Number and name, the bits, what follows; of that, the lists of variables come first.
        let end = drawing.len().min(86);
        let mut words = drawn(&drawing[15..end]);
        let lists = drawing[end..].split(", ").filter_map(|each| each.strip_prefix("variables "));
        let lists: Vec<char> = lists.filter_map(|letter| letter.chars().next()).collect();
        let expected: &[char] = match kind {
            7 | 17 => &['x'],
            8 => &['x', 'y'],
            9 | 16 => &['y'],
            10 => &['y', 'x'],
            _ => &[],
        };
        assert_eq!(lists, expected, "{line}");
        words.extend(lists.into_iter().flat_map(listed));
        let process = built(kind);
        assert_eq!(process.kind(), kind);
        assert_eq!(write::process(&process)[..words.len()], words, "{line}");
        assert_eq!(kind, kinds, "kinds in their order");
        kinds += 1;
    }
    assert_eq!(kinds, 19);
}

/// Each row of the table of lists is a process of the kind, with the variables, that it says.
#[test]
fn lists_of_variables_are_as_they_are_written() {
    let none = || build::list([]);
    let processes = [
        build::notify(2, 2, 1),
        build::notify(2, [2, 3, 4, 2], 1),
        build::one_way(2, [5, 6, 0, 8]),
        build::solicit(1, [2, 3], 1, 6, none()),
        build::request(1, [2, 3], 6, build::nil()),
    ];
    let lines = section("Variables of a message");
    let rows = lines.iter().filter(|line| line.starts_with("| ")).skip(1);
    let mut count = 0;
    for (row, process) in rows.zip(&processes) {
        let words = row.trim_matches('|').split('|').next().unwrap_or("").split_whitespace();
        let words: Vec<u16> =
            words.map(|word| u16::from_str_radix(word, 16).expect("a word")).collect();
        assert_eq!(write::process(process), words, "{row}");
        let root = build::configuration(0, vec![build::scope(1, process.clone())]);
        assert!(readable::read(&STANDARD, &write::configuration(&root)).is_some(), "{row}");
        count += 1;
    }
    assert_eq!(count, processes.len());
}

/// The words of the text in "A whole file"; `0000*3` is three of them.
fn file() -> Vec<u16> {
    let lines = section("A whole file").into_iter().take_while(|line| *line != "It prints:");
    let mut words = Vec::new();
    for line in lines.filter_map(|line| line.strip_prefix("    ")) {
        for item in line.split('#').next().unwrap_or("").split_whitespace() {
            let (word, times) = item.split_once('*').unwrap_or((item, "1"));
            let word = u16::from_str_radix(word, 16).expect("a word");
            words.extend(vec![word; times.parse().expect("a count")]);
        }
    }
    words
}

#[test]
fn the_process_taken_apart_is_the_one_in_the_file() {
    let file = file();
    let words = &file[1..1 + usize::from(file[0])];
    let configuration = readable::read(&STANDARD, words).expect("readable");
    let process = &words[process_range(&STANDARD, words, 0)];
    let lines = section("One process, word by word");
    let rows = lines.iter().filter(|line| line.starts_with("| ")).skip(1);
    let mut count = 0;
    for row in rows {
        let cells: Vec<&str> = row.trim_matches('|').split(" | ").map(str::trim).collect();
        let [position, word, bits, _] = cells[..] else { panic!("not four columns: {row}") };
        assert_eq!(position, count.to_string());
        assert_eq!(word, format!("{:04x}", process[count]), "{row}");
        if !bits.is_empty() {
            assert_eq!(drawn(bits), [process[count]], "{row}");
        }
        count += 1;
    }
    assert_eq!(count, process.len());
    let standing: Vec<usize> =
        enabled(&configuration.engines[0].process).iter().map(|each| each.0).collect();
    assert_eq!(standing, [0, 3, 4], "what the document says is enabled");
}
