#!/bin/sh
# Compiles a C program of the harness, by its name, and links the library, which must have been built before; further words go to the compiler.
cd "$(dirname "$0")/.." || exit 1
name=$1
shift
mkdir -p harness/target &&
    cc -std=c99 -pedantic -Wall -Wextra -Werror -Iinclude "$@" "harness/c/$name.c" crates/exports/out/libexports.a -o "harness/target/$name"
