# bars.awk: . costs nobody, o itself, # others.   awk -v reach=250 -f bars.awk drifts
BEGIN { half = 50 }
/^ttplab / { if (reach == 0 || reach > $NF) reach = $NF; step = reach / half }
/^(drift|jump) / {
  c = $11 == "others" ? "#" : $11 == "itself" ? "o" : "."
  for (i = -half; i <= half; i++)
    if ($7 <= (i + .5) * step && $9 >= (i - .5) * step && cell[i] != "#" && (c == "#" || cell[i] != "o")) cell[i] = c
}
/^margin / { row = ""; for (i = -half; i <= half; i++) { row = row cell[i]; cell[i] = "" }
  printf "%-16s %s %d\n", $2 " " $4 ($6 == "-" ? "" : " slot " $6), row, $14 }
