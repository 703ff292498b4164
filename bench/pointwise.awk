# Twenty operators on two series. The words after the program are their files.

function next_x(   line, part) {
    if ((getline line < ARGV[1]) > 0) {
        split(line, part, ",")
        x_start = part[1] + 0; x_end = part[2] + 0; x_value = part[3] + 0
    } else {
        x_start = never
    }
}

function next_y(   line, part) {
    if ((getline line < ARGV[2]) > 0) {
        split(line, part, ",")
        y_start = part[1] + 0; y_end = part[2] + 0; y_value = part[3] + 0
    } else {
        y_start = never
    }
}

function joined(   known_y) {
    if (!has_x) return y_value * 2 - 1
    known_y = has_y ? y_value : 5
    return int((3 * x_value - 2 * known_y + 1) / 7) + x_value % 11 - 8 * (x_value - (has_y ? y_value : x_value)) % 13
}

BEGIN {
    last = 8000000; never = 1e18
    getline header < ARGV[1]
    getline header < ARGV[2]
    print "start,end,value"
    next_x(); next_y()
    for (start = 0; start < last; start = end) {
        while (x_start < never && x_end <= start) next_x()
        while (y_start < never && y_end <= start) next_y()
        has_x = x_start <= start; has_y = y_start <= start
        end = has_x ? x_end : x_start
        edge = has_y ? y_end : y_start
        if (edge < end) end = edge
        if (last < end) end = last
        if ((has_x || has_y) && !(has_x && has_y && x_value == y_value)) printf "%d,%d,%d\n", start, end, joined()
    }
}
