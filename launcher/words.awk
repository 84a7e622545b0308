# Reads the words that there are from the guide: the commands of its summary, and what its table of options says. For each command
# a line `command NAME rows` (`rows` where it reads them), and for each option of a command `option COMMAND NAME what it takes`,
# with tabs between the fields. The launcher reads them, and so do the completions.
BEGIN { OFS = "\t" }
/^## / { section = $2 }
section == "Summary" && $1 == "waldo" && $3 == "SCHEMA" {
  print "command", $2, (/ < ROWS/ ? "rows" : "none")
  commands[++count] = $2
}
section == "Options" && /^\| `--/ {
  split($0, field, / *[|] */)
  gsub(/`/, "", field[2])
  taken = field[4]
  gsub(/`/, "", taken)
  for (i = 1; i <= count; i++)
    if (field[3] == "all" || index(field[3], "`" commands[i] "`"))
      print "option", commands[i], field[2], taken
}
