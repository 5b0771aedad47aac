#!/usr/bin/env bash
# Writes a configuration with N client rules, N socks rules and N / 16 routes; N is from 1 to 4096. With 4096 it is at all three
# limits.
set -eu
n=${1:?usage: limits_conf.sh N}
echo 'internal: 127.0.0.1'
for ((i = 0; i < n; i++)); do
  net="10.$((i / 256)).$((i % 256)).0/24"
  printf 'client pass { from: %s to: 0/0 session.max: %d }\n' "$net" "$i"
  printf 'socks pass { from: %s to: .a%d.example port 1-%d }\n' "$net" "$i" "$((i + 1))"
done
for ((i = 0; i < n / 16; i++)); do
  printf 'route { from: 0/0 to: .r%d.example via: 192.0.2.%d }\n' "$i" "$i"
done
