# Says in words what each line of the program handover means. Two files, with part=lines between their names: the input as bytes in decimal,
# from which each step's numbers are taken, and the program's lines.
BEGIN {
    split("unreadable,nobody there,no move,no partner,no fit,installing,serials spent,deep,long,short paper,not fresh,unknown serial,not decimal", word, ",")
}

part == "" {
    for (f = 1; f <= NF; f++) bytes[count++] = $f
    next
}

function word_at(i) { return bytes[2 * i] * 256 + bytes[2 * i + 1] }

# Step i's numbers, from 0 on: engine, position, second engine, second position, branch.
function given(i, k) { return word_at(1 + word_at(0) + 5 * (i - 1) + k) }

function why(number, i) {
    if (number == 2) return "no enabled process begins at word " given(i, 1) " of engine " given(i, 0)
    if (number == 3) return "what stands at word " given(i, 1) " of engine " given(i, 0) " cannot move, or moves alone and was given a partner"
    if (number == 4) return "no enabled process begins at word " given(i, 3) " of engine " given(i, 2)
    if (number == 5) return "engine " given(i, 2) " does not take what engine " given(i, 0) " sends, or not by that branch, or not as many values"
    if (number == 6) return "the fault would kill what still installs its handlers"
    if (number == 7) return "65,535 requests have been sent"
    if (number == 8) return "the result would nest deeper than 64"
    if (number == 9) return "the result would be longer than 8,192 words"
    if (number == 10) return "the output is shorter than the result"
    if (number == 13) return "a decimal operator at word " given(i, 1) " of engine " given(i, 0) " has an operand with a digit above 9"
    return "the configuration cannot be read"
}

function done(kind, serial, i,    who, to) {
    who = "engine " given(i, 0)
    to = "engine " given(i, 2) (given(i, 4) ? " (branch " given(i, 4) ")" : "")
    if (kind == 1) return who " assigns a value"
    if (kind == 4) return who " decides a condition"
    if (kind == 5) return who " tests a loop's condition"
    if (kind == 9) return who " notifies " to
    if (kind == 10) return who " sends a request to " to ", serial " serial " is issued"
    if (kind == 11) return who ": a scope whose body is done ends, or runs the handler that it is marked for"
    if (kind == 12) return who " installs handlers"
    if (kind == 13) return who " throws a fault"
    if (kind == 14) return who " runs a compensation"
    if (kind == 16) return who " replies to " to ", serial " serial " is delivered"
    return who " reports a fault to " to ", serial " serial " is delivered"
}

# Why a start is not readable, as far as that can be told without reading it.
function unreadable() {
    if (count == 0) return "the input is empty"
    if (count == 1) return "the input is one byte"
    if (word_at(0) > 8192) return "the first word says " word_at(0) " words, and 8,192 are the most"
    if (count < 2 * (1 + word_at(0))) return "the first word says " word_at(0) " words, and " int(count / 2) - 1 " follow"
    return "no configuration that can be read (an earlier one, without counts of variables, is rewritten by --rewrite)"
}

# Why a planners' start is not translated.
function untranslated(number) {
    if (number == 14) return "cH in a fixed scope: it stands free in one of a fixed scope's own handlers"
    return word[number] ": " (number == 8 ? "what it is translated into would nest deeper than 64" : "what it is translated into would be longer than 8,192 words")
}

$1 == "start" {
    text = $2 == 0 ? "the run begins" : $2 == 1 ? "unreadable: " unreadable() : $2 == 11 ? "not fresh: readable, but no start" : untranslated($2)
}
$1 == "end" { text = "the configuration's words" }
$1 == "cut" { text = "the input ends inside a step" }
$1 ~ /^[0-9]/ { text = $2 == 0 ? done($3, $4, $1) : word[$2] ": " why($2, $1) }
{ printf "%-16s %s\n", $0, text }
