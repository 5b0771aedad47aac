#!/usr/bin/env bash
# Writes a script of one association whose client sends N bytes, one in each line, with a turn behind each line.
# The first 13 are its greeting and its request; N is at least 13.
set -eu
n=${1:?usage: long_run.sh N}
cat "$(dirname "$0")/dialed.script"
for byte in 05 01 00 05 01 00 01 C6 33 64 0A 00 50; do
  printf 'client 1 %s\nturn 1 1\n' "$byte"
done
for ((i = 13; i < n; i++)); do
  printf 'client 1 41\nturn 1 1\n'
done
printf 'clientend 1\ntargetend 1\n'
