# What docs/MAKERS.md shows, in its order: indented texts and outputs, quoted outputs and lines of files, and of each row of its table
# the number and place as the program prints them, for the client and for the server.

# The place of a line in a file, 0 if it has no such line.
function line_of(line, path,   text, n, place) {
    while ((getline text <path) > 0) { n++; if (text == line) place = n }
    close(path)
    return place + 0
}

# A text that begins with des is that of the file named last; any other is an output.
/^    / {
    if (!shown) print /^    des / ? "text " file : "output"
    shown = 1
    print substr($0, 5)
    next
}
{ shown = 0 }

# | Number | Place | `N.aut`: `line`, `line`.. | ..: "that line" is the last line quoted, "the state" the one it goes from.
/^\| [0-9]/ {
    split($0, cell, / *\| */)
    quotes = split(cell[4], part, "`")
    path = "refused/" part[2]
    place = cell[3]
    lost = ""
    for (i = 4; i <= quotes; i += 2) {
        at = line_of(part[i], path)
        if (!at) lost = lost ", which has no line " part[i]
        if (cell[3] == "that line") place = at
        if (cell[3] == "the state") place = substr(part[i], 2) + 0
    }
    print "client", path lost, cell[2], place
    print "server", path lost, cell[2], place
    next
}

{
    quotes = split($0, part, "`")
    for (i = 2; i <= quotes; i += 2)
        if (part[i] ~ /\.aut$/) file = part[i]
        else if (part[i] ~ /^(compliant|stuck|client|server) [0-9]/) print "output\n" part[i]
        else if (part[i] ~ /^\([0-9]/) print "line " file "\n" part[i]
}
