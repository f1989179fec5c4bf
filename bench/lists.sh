# Equation lists of a family with as many equations as unknowns, for the scripts that source this:
#   dense      each place has a constant from 1 to 9,999, so that a list of 1,000 is below the most bytes of an input
#   symbols    three places an equation, drawn at random, each with a symbol
#   constants  the same places, each with a constant from 1 to 65,520
#   mixed      the same places, each with a constant or a symbol at equal odds, and one in 64 with both
#   grid       the points of a square grid, each with 4 at itself and -1 at its neighbours; the size is that of a square

# The equation list of a family with so many equations and unknowns, always the same.
equations() {
    awk -v family="$1" -v size="$2" '
        function draw() { return last = last * 48271 % 2147483647 }

        # Two letters, so that the dense lists stay short.
        function short(number) {
            return substr(letters, 1 + int(number / 52), 1) substr(letters, 1 + number % 52, 1)
        }

        function value(drawn,   constant) {
            constant = int(drawn / 4) % 65520 + 1
            if (family == "symbols" || family == "mixed" && drawn % 4 >= 2 && drawn % 64 != 3) return "?"
            return family == "mixed" && drawn % 64 == 3 ? constant "+?" : constant
        }

        function dense(   line, u) {
            for (u = 0; u < size; u++) line = line " " short(u) "=" 1 + draw() % 9999
            return line
        }

        # Up to three places, since a column may be drawn twice.
        function sparse(   line, place, column, drawn, had) {
            for (place = 1; place <= 3; place++) {
                column = draw() % size
                drawn = draw()
                if (!(column in had)) line = line " x" column + 1 "=" value(drawn)
                had[column]
            }
            return line
        }

        # The Laplace equation at a point: what it has at the point, and at its neighbours within the square.
        function laplace(point, side,   line) {
            line = " x" point "=4"
            if (point > side) line = line " x" point - side "=-1"
            if (point % side != 1) line = line " x" point - 1 "=-1"
            if (point % side != 0) line = line " x" point + 1 "=-1"
            if (point <= size - side) line = line " x" point + side "=-1"
            return line
        }

        function places(equation) {
            if (family == "dense") return dense()
            return family == "grid" ? laplace(equation, int(sqrt(size) + 0.5)) : sparse()
        }

        BEGIN {
            letters = "abcdefghijklmnopqrstuvwxyzABCDEFGHIJKLMNOPQRSTUVWXYZ"
            last = size
            if (family != "dense") for (u = 1; u <= size; u++) print "unknown x" u
            for (e = 1; e <= size; e++) print "eq e" e places(e)
        }'
}
