# A window as wide as the series, that moves with each tick: the sum of its rows.

BEGIN { FS = ","; width = 4000000; last = 8000000; n = entered = left = 0 }

NR > 1 { starts[n] = $1 + 0; ends[n] = $2 + 0; values[n] = $3 + 0; n++ }

END {
    print "start,end,value"
    for (start = 0; start < last; start = end) {
        while (entered < n && starts[entered] <= start) total += values[entered++]
        while (left < entered && ends[left] + width - 1 <= start) total -= values[left++]
        end = last
        if (entered > 0 && ends[entered - 1] > start) edge = ends[entered - 1]
        else edge = entered < n ? starts[entered] : last
        if (edge < end) end = edge
        if (left < entered) {
            edge = starts[left] + width - 1
            if (edge <= start) edge = ends[left] + width - 1
            if (edge < end) end = edge
            printf "%d,%d,%d\n", start, end, total
        }
    }
}
