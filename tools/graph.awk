# Reads a table text, prints its neighbourhood graph for Graphviz: one node for each window, with its channel, and
# one edge for each tuple, from the window of a place to that of its right neighbour. An edge is red where the channels
# of its windows differ by less than the table's near. Of a far above 0 the graph's label says that it is not shown.
# A text that does not begin like a table has no graph, and ends it with the status 2.
NR == 1 && /^nbhd-table / { is_table = 1; print "digraph {" }
NR == 1 && !is_table { exit }
/^rounds / {
    identifiers = $4
    near = $8 == "" ? 1 : $8
    if ($10 > 0) print "label=\"far " $10 ": distance two is not shown\""
}
/ : / {
    window = $0
    sub(/ : .*/, "", window)
    windows[++count] = window
    first[window] = $1
    channel[window] = $NF
    print "\"" window "\" [label=\"" window ": " $NF "\"]"
}
END {
    if (!is_table) {
        print "graph.awk: this is no table text, as `nbhd table` prints it" > "/dev/stderr"
        exit 2
    }
    for (i = 1; i <= count; i++) {
        window = windows[i]
        shared = window
        sub(/^[0-9]+ ?/, "", shared)
        for (last = 0; last < identifiers; last++) {
            right = shared == "" ? last "" : shared " " last
            if (last == first[window] || !(right in channel)) continue
            apart = channel[window] - channel[right]
            red = apart < near && -apart < near ? " [color=red]" : ""
            print "\"" window "\" -> \"" right "\"" red
        }
    }
    print "}"
}
