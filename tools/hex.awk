# From hexadecimal text to the bytes that it stands for, as octal escapes for printf '%b', a line for each line; the environment's NAME is
# what the text is called. A word is four hexadecimal digits; 0000*64 is 64 such words; from # on a line is a comment. Lines may end
# in CR LF, and the text may begin with a byte order mark. Run with LC_ALL=C, so that bytes are characters.
function refuse(why) {
    printf "%s, line %d: %s\n", ENVIRON["NAME"], NR, why > "/dev/stderr"
    exit 2
}

BEGIN {
    for (i = 0; i < 256; i++) byte[sprintf("%02x", i)] = sprintf("\\0%03o", i)
    digit = "[0-9a-f]"
    word = "^" digit digit digit digit "$"
}

NR == 1 { sub(/^\357\273\277/, "") }
{ sub(/\r$/, "") }
/\r/ { refuse("a line break that is CR alone") }

{
    sub(/#.*/, "")
    escapes = ""
    for (f = 1; f <= NF; f++) {
        parts = split(tolower($f), part, "*")
        times = parts == 2 ? part[2] : 1
        if (parts > 2 || part[1] !~ word) refuse("not a word of four hexadecimal digits: " $f)
        if (times !~ /^[0-9]+$/ || times < 1 || times > 16384) refuse("not 1 to 16384 times: " $f)
        one = byte[substr(part[1], 1, 2)] byte[substr(part[1], 3, 2)]
        while (times-- > 0) escapes = escapes one
    }
    print escapes
}
