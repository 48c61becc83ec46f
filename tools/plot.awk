# From the table that bin/bench-step prints (or a document that has it) to a picture, SVG: a row for each step with its name, nanoseconds a
# word from left to right, logarithmic. The colour says whose time it is, the shape of the mark how long the configurations were.
BEGIN {
    FS = "[ \t]*[|][ \t]*"
    left = 285; right = 895; top = 74; height = 18; column = 225
    least = 0.01; most = 1000
    split("library,tree,copy", names, ",")
    split("the library,trees (second implementation),a bare copy", what, ",")
    split("#2471a3,#c0392b,#7f8c8d", colours, ",")
}

function across(time) {
    time = time < least ? least : time > most ? most : time
    return left + log(time / least) / log(most / least) * (right - left)
}

function escaped(text) {
    gsub(/&/, "\\&amp;", text)
    gsub(/</, "\\&lt;", text)
    return text
}

# The lengths stand in a row's columns in the order short, middle, long; where there are two, the short one is missing.
function mark(x, y, length_of, colour, tip,    shape) {
    if (length_of == 1) shape = sprintf("<circle cx=\"%.1f\" cy=\"%.1f\" r=\"3.5\"", x, y)
    else if (length_of == 2) shape = sprintf("<rect x=\"%.1f\" y=\"%.1f\" width=\"6\" height=\"6\"", x - 3, y - 3)
    else shape = sprintf("<path d=\"M%.1f %.1fl4.5 4.5l-4.5 4.5l-4.5 -4.5z\"", x, y - 4.5)
    marks = marks sprintf("%s class=\"mark\" fill=\"%s\" fill-opacity=\"0.7\"><title>%s</title>%s\n", shape, colour, tip,
        length_of == 1 ? "</circle>" : length_of == 2 ? "</rect>" : "</path>")
}

function text(x, y, anchor, class, words) {
    return sprintf("<text x=\"%.0f\" y=\"%.0f\" text-anchor=\"%s\" class=\"%s\">%s</text>\n", x, y, anchor, class, words)
}

# A row of six columns whose second has lengths in words: name, words, library, tree, times faster, bare copies.
NF == 8 && $3 ~ /^[0-9,]+( \/ [0-9,]+)*$/ && $4 ~ /^[0-9]/ {
    y = top + height * rows++ + height / 2
    labels = labels text(left - 8, y + 4, "end", "step", escaped($2))
    count = split($3, words, " / ")
    split($4, library, " / "); split($5, tree, " / "); split($7, copies, " / ")
    for (i = 1; i <= count; i++) {
        times[1] = library[i]; times[2] = tree[i]; times[3] = copies[i] > 0 ? library[i] / copies[i] : 0
        for (k = 1; k <= 3; k++) {
            tip = sprintf("%s, %s words: %s, %.3g ns a word", escaped($2), words[i], names[k], times[k])
            mark(across(times[k]), y, 3 - count + i, colours[k], tip)
        }
    }
}

# Lines at each power of ten, with numbers below.
function axis(bottom,    time, x) {
    for (time = least; time < most * 1.1; time *= 10) {
        x = across(time)
        printf "<line x1=\"%.1f\" y1=\"%d\" x2=\"%.1f\" y2=\"%d\" stroke=\"#ddd\"/>\n", x, top - 6, x, bottom
        printf "%s", text(x, bottom + 16, "middle", "axis", time < 1 ? sprintf("%g", time) : sprintf("%d", time + 0.5))
    }
    printf "%s", text((left + right) / 2, bottom + 34, "middle", "axis", "nanoseconds a word")
}

function legend(    k) {
    for (k = 1; k <= 3; k++) {
        mark(left + column * (k - 1), 20, 1, colours[k], what[k])
        labels = labels text(left + column * (k - 1) + 10, 24, "start", "axis", what[k])
        mark(left + column * (k - 1), 44, k, "#444", "length")
    }
    labels = labels text(left + 10, 48, "start", "axis", "about 200 words")
    labels = labels text(left + column + 10, 48, "start", "axis", "about 2,000, or the shorter")
    labels = labels text(left + 2 * column + 10, 48, "start", "axis", "up to 8,192, the longest")
}

END {
    if (rows == 0) {
        print "plot: no row of the step's table" > "/dev/stderr"
        exit 1
    }
    bottom = top + height * rows
    printf "<svg xmlns=\"http://www.w3.org/2000/svg\" viewBox=\"0 0 %d %d\"", right + 20, bottom + 46
    print " font-family=\"sans-serif\" font-size=\"12\">"
    print "<title>Time of a step, in nanoseconds a word</title>"
    print "<rect width=\"100%\" height=\"100%\" fill=\"white\"/>"
    axis(bottom)
    legend()
    for (y = top + height; y < bottom; y += height) printf "<line x1=\"10\" y1=\"%d\" x2=\"%d\" y2=\"%d\" stroke=\"#eee\"/>\n", y, right, y
    printf "%s%s</svg>\n", labels, marks
}
