#!/bin/sh
# What the rules of office.conf say of four requests: passed by the fourth socks rule, blocked by the first and by the third,
# and of a client from outside.
cd "$(dirname "$0")/.." || exit 1
for question in \
    "10.1.2.3:5000 198.51.100.10:80 connect" \
    "10.1.2.3:5000 127.0.0.1:80 connect" \
    "10.1.2.3:5000 www.example.net@10.9.9.9:443 connect" \
    "192.0.2.77:5000 198.51.100.10:80 connect"
do
    echo "# $question"
    # (the words of a question are words of the command)
    # shellcheck disable=SC2086
    ./sockd decide examples/office.conf $question || exit 1
done
