#!/bin/sh
# Proves the library, compiles the example against it and runs it under valgrind: sh examples/c/run.sh, from the root.
set -eu
mkdir -p target/c
sh tools/staticlib.sh
gcc -std=c11 -Wall -Wextra -Werror -O2 -Iinclude -o target/c/period examples/c/period.c target/staticlib/libedge_index_c.a
valgrind --quiet --leak-check=full --error-exitcode=1 target/c/period
