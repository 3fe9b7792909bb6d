#!/bin/sh
# Tests the tools: tools/check.sh [PROGRAM] [TEST..]
# PROGRAM is vfault; without it the environment's VFAULT, the repository's or the one on the PATH is taken, as the tools do. TEST is a file of tests/ without `.py`.
# A test whose package or program isn't there is skipped, and said so. The last line is 'tools: N passed, M failed, K skipped'; the status is 0 where none failed.
here=$(cd "$(dirname "$0")" && pwd)
case ${1:-} in
    */*) VFAULT=$1; export VFAULT; shift ;;
esac
exec python3 -B "$here/tests/run.py" "$@"
