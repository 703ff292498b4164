# A window as wide as the series, that moves with each tick: the greatest of its rows. `kept` are those that no later one exceeds.

BEGIN { FS = ","; width = 4000000; last = 8000000; n = entered = left = first = above = 0 }

NR > 1 { starts[n] = $1 + 0; ends[n] = $2 + 0; values[n] = $3 + 0; n++ }

END {
    print "start,end,value"
    for (start = 0; start < last; start = end) {
        while (entered < n && starts[entered] <= start) {
            while (above > first && kept[above - 1] < values[entered]) above--
            kept[above++] = values[entered++]
        }
        while (left < entered && ends[left] + width - 1 <= start) {
            if (kept[first] == values[left]) first++
            left++
        }
        end = last
        if (entered > 0 && ends[entered - 1] > start) edge = ends[entered - 1]
        else edge = entered < n ? starts[entered] : last
        if (edge < end) end = edge
        if (left < entered) {
            edge = starts[left] + width - 1
            if (edge <= start) edge = ends[left] + width - 1
            if (edge < end) end = edge
            printf "%d,%d,%d\n", start, end, kept[first]
        }
    }
}
