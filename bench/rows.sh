#!/usr/bin/env bash
# Prints an input of so many rows. With one column it is for the schema host:5: bucket (1 + i) mod 32, value 1000 + i. With
# more columns it is for c0:4,c1:4,..: bucket (1 + i * (c + 1)) mod 16 in column c, value 1000 + i.
# Usage: bench/rows.sh [ROWS [COLUMNS]]
set -eu
awk -v rows="${1:-65536}" -v columns="${2:-1}" 'BEGIN {
  if (columns == 1) print "host,value"
  else { for (c = 0; c < columns; c++) printf "c%d,", c; print "value" }
  size = columns == 1 ? 32 : 16
  for (i = 0; i < rows; i++) { for (c = 0; c < columns; c++) printf "%d,", (1 + i * (c + 1)) % size; print 1000 + i }
}'
