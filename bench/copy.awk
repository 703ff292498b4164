# Reading and printing alone.

BEGIN { FS = "," }

NR == 1 { print }
NR > 1 { printf "%d,%d,%d\n", $1, $2, $3 }
