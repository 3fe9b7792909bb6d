# missed.sh REPORT: the faults that the test doesn't find, as lines of the plan of the next test
awk '$2 ~ /^sa[01]$/ && $3 == "undetected" { print "fault", $1, substr($2, 3) }' "$1"
