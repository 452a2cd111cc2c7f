# Programs and traces that several benches run. To be sourced; each writes to standard output.

# A program with so many channels, whose conditions look at the first and the last one.
wide() {
    awk -v count="$1" 'BEGIN {
        print "program wide\noption +s;"
        for (k = 0; k < count; k++) printf "int v%d; assign v%d to \"CHANNEL:%d\"; monitor v%d;\n", k, k, k, k
        printf "ss all {\n  state low { when (v0 + v%d > 1000000) {} state high }\n  state high { when (v0 < 0) {} state low }\n}\n", count - 1
    }'
}

# A trace for so many channels: each is up and has a value, and then lines of a kind follow.
channel_lines() {
    awk -v count="$1" -v kind="$2" -v lines="$3" 'BEGIN {
        for (k = 0; k < count; k++) printf "0 up CHANNEL:%d\n0 val CHANNEL:%d 0\n", k, k
        for (i = 0; i < lines; i++)
            if (kind == "values" || kind == "both" && i % 2 == 0) printf "%d val CHANNEL:%d %d\n", i + 1, (kind == "both" ? i / 2 : i) % count, i % 1000
            else printf "%d tick\n", i + 1
    }'
}

# A program of so many state sets, with its variables inside of them or outside.
sets() {
    awk -v count="$1" -v where="$2" 'BEGIN {
        print "program sets\noption +s;"
        for (k = 0; k < count; k++) {
            variable = sprintf("int v%d; assign v%d to \"CHANNEL:%d\"; monitor v%d;", k, k, k, k)
            if (where == "shared") print variable
            else inside[k] = variable
        }
        for (k = 0; k < count; k++) {
            printf "ss s%d {\n  %s\n", k, inside[k]
            printf "  state low { when (v%d > 1000000) {} state high }\n  state high { when (v%d < 0) {} state low }\n}\n", k, k
        }
    }'
}

# A program with so many state sets, states, links.
magnets() {
    awk -v sets="$1" -v states="$2" -v links="$3" 'BEGIN {
        print "program magnets"
        print "option +s;"
        for (i = 0; i < links; i++) {
            printf "int measured_%d; assign measured_%d to \"MAG:%d\"; monitor measured_%d;\n", i, i, i, i
        }
        for (set = 0; set < sets; set++) {
            first = int(states * set / sets); behind = int(states * (set + 1) / sets)
            printf "ss ramp_%d {\n", set
            for (i = first; i < behind; i++) {
                printf "    state step_%d {\n", i
                printf "        when (measured_%d + %d > 7 && delay(3)) {\n", i % links, i
                printf "            measured_%d = (%d * 2) + 1 - 3;\n", i % links, i
                printf "            if (measured_%d > 1) pvPut(measured_%d); else measured_%d -= 2;\n", i % links, i % links, i % links
                printf "        } state step_%d\n", i + 1 < behind ? i + 1 : first
                printf "    }\n"
            }
            print "}"
        }
    }'
}

# Counts the tokens of such a program: FILE.
tokens_of() {
    grep -oE '"[^"]*"|[A-Za-z_0-9]+|&&|-=|[^ ]' "$1" | wc -l
}
