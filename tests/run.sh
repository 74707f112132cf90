#!/bin/sh
# Runs tests in tiers, and proves nothing. README.md beside this says which tests there are, and how they run.
#
#     sh tests/run.sh [--lanes N] [--list] [--table FILE] [full | outside | PART]..
exec python3 "$(dirname "$0")/gate/run.py" "$@"
