# Prints a table of the library beside the best C. The first file has lines `row variant instructions`, the library
# first; the second is what the driver prints with `time`. What differs from table to table stands in a file of its own:
# how a row is laid out, as text and as numbers, the name of the fourth column and what is in it, which field has the
# first time, and what the counts and the times of a row are divided by.
FILENAME == ARGV[1] {
    count[$1, $2] = $3
    if (!($2 in known)) {
        known[$2] = 1
        variant[variants++] = $2
    }
    next
}

FNR == 1 {
    printf as_text, "workload", "bytes", "events", fourth_name, "instr lib", "instr C", "ratio", "best C", "ns lib",
        "ns C", "ratio", "best C"
    print "|---|---|---|---|---|---|---|---|---|---|---|---|"
}

{
    fewest = least = 1
    for (i = 0; i <= NF - first_time; i++) {
        if (count[$1, variant[i]] == 0 || $(first_time + i) == 0) {
            print "something of " $1 " was not measured" > "/dev/stderr"
            exit failed = 1
        }
        if (i > 0 && count[$1, variant[i]] < count[$1, variant[fewest]])
            fewest = i
        if (i > 0 && $(first_time + i) < $(first_time + least))
            least = i
    }
    instructions = count[$1, variant[0]] / count[$1, variant[fewest]]
    time = $first_time / $(first_time + least)
    printf as_numbers, $1, $2, $3, fourth(), count[$1, variant[0]] / counted_for(),
        count[$1, variant[fewest]] / counted_for(), instructions, variant[fewest], $first_time / timed_for(),
        $(first_time + least) / timed_for(), time, variant[least]
    rows++
    instructions_of_all += log(instructions)
    time_of_all += log(time)
}

END {
    if (failed || rows == 0)
        exit 1
    printf as_text, "geom. mean", "", "", "", "", "", sprintf("%.2f", exp(instructions_of_all / rows)), "", "", "",
        sprintf("%.2f", exp(time_of_all / rows)), ""
}
