# races.sh REPORT: how many faults each cause leaves without a verdict, the commonest first
awk '$3 == "race" { $1 = $2 = $3 = ""; sub(/^ */, ""); cause[$0]++ } END { for (race in cause) print cause[race], race }' "$1" | LC_ALL=C sort -rn
