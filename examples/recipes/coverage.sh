# coverage.sh REPORT: the detected ones of all listed faults. Without a listed fault there is no figure.
# The totals line has `detected` as its third word too, so it is told by its first one.
awk '$1 == "total" && $2 > 0 { printf "%.1f %% of %d\n", 100 * $4 / $2, $2 }' "$1"
