# awk -f by_name.awk NAME.names NAME.out: the cuts by name, and the bracket, as c/equations prints them.
NR == FNR { if ($1 == "event") name[$2] = $3; next }
cuts && !/^top / { for (i = 1; i <= NF; i++) $i = name[$i]; print }
/^top / { print }
/^cuts$/ { cuts = 1 }
