# picked.sh PICKED PLAN: the plan with the strobes that `pick` keeps, in place of its own
awk 'NR == FNR { if ($1 == "strobe") kept[++count] = $2; next }
     $1 == "strobe" { next }
     { print }
     END { for (i = 1; i <= count; i++) print "strobe", kept[i] }' "$1" "$2"
