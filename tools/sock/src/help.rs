//! What `sock --help` and the help of each subcommand say.

use crate::run::COMMANDS;

/// The help of a subcommand, if there is one of that name.
pub fn of(command: &str) -> Option<String> {
    let text = match command {
        "asm" => ASM,
        "dis" => DIS,
        "check" => CHECK,
        "show" => SHOW,
        "moves" => MOVES,
        "run" => RUN,
        _ => return None,
    };
    Some(text.replace("@COMMANDS@\n", COMMANDS))
}

pub const GENERAL: &str = "usage: sock COMMAND [OPTIONS] FILE

For people who write and run configurations of SOCK engines.

    asm FILE.sock        assemble a text: words for bin/handover, or an error with line and column
    dis FILE             the text of words
    check FILE           the two checks, and where and why words are unreadable
    show FILE [STEP]     the configuration as a tree; before and after a step of the file
    moves FILE [STEP]    every step that is accepted now
    run FILE             take steps by number, go back, write what came out; or a random run, or a trace

`sock COMMAND --help` says more of one, with examples; docs/TUTORIAL.md leads from an empty file to a run. FILE is a text if its name ends
in .sock (docs/TEXT.md), hexadecimal words if it ends in .hex, and bytes otherwise (docs/FORMAT.md): a configuration, and steps behind it if
there are any. With `--plan`, which all but asm take, FILE holds words of a planners' start (docs/FORMAT.md): the proved library translates
it first, and the steps are for the start that it becomes.

Steps, checks, ends and translations come from the proved library. All else here (the text form, the reasons of `check`, the tree) is not
proved; it is tested against the library.

    --help       say this
    --version    say the version

status: 0 done    1 the text or the words are refused, or wrong    2 wrong usage, or a file that cannot be read    3 not all could be written
";

const ASM: &str = "usage: sock asm [-o OUT] FILE.sock

Assembles a text (docs/TEXT.md). Lengths and positions are computed, and labels in its steps become positions: the steps before are taken by
the proved step to know where a labelled process stands. The result goes through the proved start check. What is wrong in the text is said
with file, line, column and what was expected.

    -o OUT    write to OUT: hexadecimal text if its name ends in .hex, the text form if .sock, otherwise bytes.
              Without it hexadecimal text goes to standard output

A configuration in the middle of a run (one that the start check answers with 11) is assembled too, and a line on standard error says
so: `sock run` goes on from it, but bin/handover begins with starts only.

    sock asm -o bridge.hex examples/bridge.sock && bin/handover --explain bridge.hex
";

const DIS: &str = "usage: sock dis [--plan] [--names FILE.sock] [-o OUT] FILE

Prints the text of a configuration and its steps; before that it is assembled, and has to give the same words again. Steps name processes by
labels if FILE is a text that has them, else by positions.

    --plan               FILE holds a planners' start (docs/FORMAT.md), which the proved library translates first; steps are for what it becomes
    --names FILE.sock    take the names of engines, variables, operations, faults and scopes from this text; otherwise all are numbers
    -o OUT               write to OUT

    sock dis examples/bridge.hex
    sock dis --names examples/bridge.sock examples/bridge.hex
";

const CHECK: &str = "usage: sock check [--plan] FILE

Makes the two proved checks, readable and start, and prints their numbers with the keeper's words. If the words are unreadable it says
where and why: the word, the process in which it stands, and the sentence of the format that it breaks; of a text also the line and the
column. Of a configuration that is no start it says what is not fresh. The reasons are not the proved part; the two numbers are.

    --plan    FILE holds a planners' start (docs/FORMAT.md), which the proved library translates first; what it becomes is checked

status: 0 if both answer 0, else 1

    sock check examples/bridge.sock
";

const SHOW: &str = "usage: sock show [--plan] [--svg | --dot] [-o OUT] FILE [STEP]

Shows the configuration: each engine's values that are not 0, its process as a tree, a line for each process in it with its position,
and the open serials with both ends.

    >    this process can move now: a step was tried and accepted (at most 20,000 are tried)
    *    enabled

With STEP, a number from 1, it shows the configuration before and after that step of the file, and what changed. Step 0 is the start.

    --plan    FILE holds a planners' start (docs/FORMAT.md), which the proved library translates first; steps are for what it becomes
    --svg     the tree as a picture, in SVG; with STEP the configuration after it
    --dot     the same for graphviz
    -o OUT    write to OUT

Output is in colour on a terminal, unless NO_COLOR is set.

    sock show examples/bridge.sock 4
    sock show --svg -o bridge.svg examples/bridge.sock
";

const MOVES: &str = "usage: sock moves [--plan] [--most N] FILE [STEP]

Lists every step that is accepted now, one on a line: the five words of a step as a .hex file has them, and behind # the step in the text
form and in words. With STEP: after so many of the file's steps (refused ones leave things as they are); without it at the start.

    --plan      FILE holds a planners' start (docs/FORMAT.md), which the proved library translates first; steps are for what it becomes
    --most N    stop after N moves, 1000 if not said, or after 20 N tries; that there may be more is then said in a last line

Only what can fit is tried: processes that move alone, senders with the receivers of their operation in the engine they name, working
ends with the waiter of their serial. Whether a step is accepted is the proved step's answer.

    sock moves examples/lockage.sock 1
";

const RUN: &str = "usage: sock run [--plan] [--replay] [--random SEED N] [--trace] [--write OUT] [--steps OUT] FILE

Runs from the configuration in FILE. Without --random it is interactive: it shows the configuration, lists the moves by number and reads
commands from standard input:

@COMMANDS@

    --plan             FILE holds a planners' start (docs/FORMAT.md), which the proved library translates first; steps are for what it becomes
    --replay           take the steps of FILE first; with it and nothing else that is all
    --random SEED N    take up to N steps at random; the same seed gives the same run
    --trace            print what each step did, with names, values and serials
    --write OUT        at the end write the configuration, with the names and labels of a text if OUT ends in .sock: a run goes on from it
    --steps OUT        at the end write the start and the list of accepted steps

    sock run examples/bridge.sock
    sock run --replay --trace examples/bridge.sock
    sock run --random 1 100 --write later.sock examples/lockage.sock && sock run later.sock
";
