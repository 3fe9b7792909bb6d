# device.sh FAULTS INSTANCE NAME..: of the lines that `faults` writes, those of one instance and of the nets and variables that its ports are joined to.
# These stand under their names in the testbench, and are named here: device.sh all.faults dut clk rst d hit
[ $# -ge 2 ] || { echo "device.sh FAULTS INSTANCE NAME.." >&2; exit 2; }
faults=$1 instance=$2
shift 2
awk -v instance="$instance." -v names="$*" 'BEGIN { for (n = split(names, list, " "); n; n--) joined[list[n]] }
     { name = $2; sub(/\[.*/, "", name) }
     index($2, instance) == 1 { inside = 1; print; next }
     name in joined { seen[name]; print }
     END { if (!inside) { print "device.sh: no fault within " instance > "/dev/stderr"; bad = 1 }
           for (name in joined) if (!(name in seen)) { print "device.sh: no fault of " name > "/dev/stderr"; bad = 1 }
           exit bad }' "$faults"
