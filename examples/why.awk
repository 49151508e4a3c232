# Draws what `ttplab why` writes as a fault tree, in the language of Graphviz:
#
#   ttplab why LIST SCRIPT NODE | awk -f examples/why.awk | dot -Tsvg > why.svg
#
# Boxes are entries, blue where a node left, the one that was asked for with a thick edge. Ellipses are lines of the
# script, dark where they are needed.

# The words of a line from a place on.
function words_from(place,    words, at) {
    words = $place
    for (at = place + 1; at <= NF; at++) words = words " " $at
    return words
}

# An arrow from each of a list to what it causes.
function arrows(list, to,    names, count, at) {
    if (list == "-") return
    count = split(list, names, ",")
    for (at = 1; at <= count; at++) printf "\"%s\" -> \"%s\"\n", names[at], to
}

BEGIN {
    print "digraph why {"
    print "rankdir=BT"
    print "edge [arrowsize=0.7]"
    print "node [fontname=\"Helvetica\", fontsize=11]"
    colour["yes"] = "#f4b183"
    colour["no"] = "#fbe5d6"
    colour["-"] = "#eeeeee"
}

$1 == "line" {
    printf "\"%s\" [shape=ellipse, style=filled, fillcolor=\"%s\", label=\"line %s\\n%s\"]\n", $2, colour[$4], $2, words_from(5)
}

$1 == "slot" {
    entry = $2 ":" $4
    left = $5 == "denied" || $5 == "unacknowledged" || $5 == "clique"
    printf "\"%s\" [shape=box%s, label=\"slot %s, node %s %s\\n%s\"]\n", entry, left ? ", style=filled, fillcolor=\"#d9e2f3\"" : "", $2, $4, $5, words_from(13)
    arrows($9, entry)
    arrows($11, entry)
}

END {
    printf "\"%s\" [penwidth=2.5]\n}\n", entry
}
