# The table of the writer, by beside.awk: for an event.
BEGIN {
    as_text = "| %-15s | %6s | %6s | %6s | %9s | %7s | %5s | %-6s | %6s | %6s | %5s | %-6s |\n"
    as_numbers = "| %-15s | %6d | %6d | %6d | %9.1f | %7.1f | %5.2f | %-6s | %6.2f | %6.2f | %5.2f | %-6s |\n"
    fourth_name = "a call"
    first_time = 5
}

function fourth() { return $4 }

function counted_for() { return $3 }

function timed_for() { return $3 }
