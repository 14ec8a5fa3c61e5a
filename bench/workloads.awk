# The table of the checker, by beside.awk: for an event, or of a tiny trace, which is called several times, for a call.
BEGIN {
    as_text = "| %-10s | %8s | %7s | %6s | %9s | %9s | %5s | %-12s | %8s | %8s | %5s | %-12s |\n"
    as_numbers = "| %-10s | %8d | %7d | %6.1f | %9.1f | %9.1f | %5.2f | %-12s | %8.1f | %8.1f | %5.2f | %-12s |\n"
    fourth_name = "visits"
    first_time = 6
}

function each() { return $5 > 1 ? 1 : $3 }

function fourth() { return $4 / each() }

function counted_for() { return $5 * each() }

function timed_for() { return each() }
