#!/bin/sh
# Runs the tests in pytest, by the first python3 that has it: Debian's may not be the first one.
#
#     tests/pytest.sh [--parallel] [FILE] [OPTION OF pytest]..
#
# With --parallel the tests run on all processors, if pytest-xdist is installed.
# The last line is `N passed, M failed`, with `, K skipped`.
here=$(cd "$(dirname "$0")" && pwd)
(exec 3<&0) 2>/dev/null || exec </dev/null
is_parallel=no
if [ "${1-}" = --parallel ]; then
    is_parallel=yes
    shift
fi
case ${1--} in
-*) set -- "$here" "$@" ;;
esac
# another user cannot write what pytest keeps
[ -w "$here/../out/pytest" ] || [ -w "$here/.." ] || set -- "$@" -p no:cacheprovider -W ignore::pytest.PytestConfigWarning
for python in python3 /usr/bin/python3; do
    if "$python" -c 'import pytest' 2>/dev/null; then
        if [ "$is_parallel" = yes ] && "$python" -c 'import xdist' 2>/dev/null; then set -- "$@" -n auto; fi
        exec "$python" -m pytest -q -o console_output_style=classic "$@"
    fi
done
echo "skipped: pytest is not installed (apt-get install python3-pytest)"
echo "0 passed, 0 failed, 1 skipped"
