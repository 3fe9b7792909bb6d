# strobes.sh REPORT: how many faults each strobe is the first to detect
awk '$2 ~ /^sa[01]$/ && $3 == "detected" { found[$4]++ } END { for (time in found) print time, found[time] }' "$1" | LC_ALL=C sort -n
