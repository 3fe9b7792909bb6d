# classes.sh FAULTS: the first listed fault of each class; no test can tell the others of the class from it
awk '!seen[$5]++' "$1"
