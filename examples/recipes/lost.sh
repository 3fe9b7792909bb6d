# lost.sh FIRST SECOND: what the first test's report has as detected and the second one's has not
awk '$2 ~ /^sa[01]$/ && $3 == "detected" { if (NR == FNR) found[$1 " " $2]; else delete found[$1 " " $2] }
     END { for (fault in found) print fault }' "$1" "$2" | LC_ALL=C sort
