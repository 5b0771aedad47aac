#!/usr/bin/env bash
# Writes a script of one association whose target sends 65,536 bytes in each of N lines, with a turn behind each line.
set -eu
n=${1:?usage: long_answer.sh N}
cat "$(dirname "$0")/dialed.script"
printf 'client 1 05010005010001C633640A0050\nturn 1 1\nturn 1 1\n'
digits=$(printf '41%.0s' {1..65536})
for ((i = 0; i < n; i++)); do
  printf 'target 1 %s\nturn 1 1\n' "$digits"
done
printf 'clientend 1\ntargetend 1\n'
