# The average of ten ticks on a grid of ten, where it is above a limit, for rows of one tick. The second file is the limit.

function next_limit(   line, part) {
    if ((getline line < ARGV[2]) > 0) {
        split(line, part, ",")
        limit_start = part[1] + 0; limit_end = part[2] + 0; limit = part[3] + 0
    } else {
        limit_start = 1e18
    }
}

function close_window(   average, point) {
    point = 10 * at + 10
    while (limit_start < 1e18 && limit_end < point) next_limit()
    average = int(total / count)
    if (limit_start < point && average > limit) printf "%d,%d,%d\n", point - 10, point, average - limit
    total = 0; count = 0
}

BEGIN {
    FS = ","
    getline header < ARGV[1]
    getline header < ARGV[2]
    print "start,end,value"
    next_limit()
    while ((getline < ARGV[1]) > 0) {
        if (count > 0 && int($1 / 10) != at) close_window()
        at = int($1 / 10); total += $3; count++
    }
    if (count > 0) close_window()
}
