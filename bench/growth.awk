# Prints how the work of the library grows. The files are as those of beside.awk, without times; where a name stands
# twice in a row, the first trace is taken off the second.
FILENAME == ARGV[1] {
    instructions[FNR] = $3
    counted = FNR
    next
}

FNR == 1 {
    printf "| %-11s | %8s | %8s | %7s | %9s |\n", "what", "bytes", "events", "visits", "instr lib"
    print "|---|---|---|---|---|"
}

{
    name[FNR] = $1
    bytes[FNR] = $2
    events[FNR] = $3
    visits[FNR] = $4
}

END {
    if (counted == 0 || counted != FNR) {
        print counted " counts for " FNR " traces" > "/dev/stderr"
        exit 1
    }
    for (i = 1; i in name; i++) {
        if ((i + 1) in name && name[i] == name[i + 1])
            i++
        twice = (i - 1) in name && name[i] == name[i - 1]
        e = events[i] - (twice ? events[i - 1] : 0)
        v = visits[i] - (twice ? visits[i - 1] : 0)
        n = instructions[i] - (twice ? instructions[i - 1] : 0)
        printf "| %-11s | %8d | %8d | %7.1f | %9.1f |\n", name[i], bytes[i], events[i], v / e, n / e
    }
}
