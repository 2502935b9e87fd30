#!/bin/sh
# Builds selftest and cases with gcc -O2, and again with the sanitizers as
# selftest-san and cases-san.
set -e
cd "$(dirname "$(readlink -f "$0")")"
CC=${CC:-gcc}
FLAGS="-std=c11 -Wall -Wextra -Wpedantic -Wshadow -Werror"
SAN="-O1 -g -fsanitize=address,undefined -fno-sanitize-recover=all"
for program in selftest cases; do
    [ -f "$program.c" ] || continue
    $CC $FLAGS -O2 -o "$program" "$program.c" press.c
    $CC $FLAGS $SAN -o "$program-san" "$program.c" press.c
done
