# Netlists of common shapes, each behind a source. To be sourced.

# A ladder of so many sections: a resistor to the next node, and a capacitor from there to ground.
ladder() {
    awk -v sections="$1" 'BEGIN {
        print "V1 a0 0 5"
        for (k = 0; k < sections; k++) print "R" k " a" k " a" k + 1 " 1k\nC" k " a" k + 1 " 0 1u"
    }'
}

# A square grid of so many nodes a side, with a resistor between neighbours and one from the last node to ground.
grid() {
    awk -v side="$1" '
        function resistor(from, to) { print "R" ++count " " from " " to " 1k" }
        function node(i, j) { return "n" i "_" j }

        BEGIN {
            print "V1 " node(0, 0) " 0 5"
            for (i = 0; i < side; i++) for (j = 0; j < side; j++) {
                if (j + 1 < side) resistor(node(i, j), node(i, j + 1))
                if (i + 1 < side) resistor(node(i, j), node(i + 1, j))
            }
            resistor(node(side - 1, side - 1), 0)
        }'
}
