#!/bin/sh
# Build the program where it is out of date, and run it: proved if `rt` is installed, else by cargo.
exec "$(dirname "$(readlink -f "$0")")/tools/run_built" bb "$@"
