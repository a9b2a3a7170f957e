#!/bin/sh
# Runs the tests of the Python module over the installed library.
#
#   python/test.sh [PREFIX]      PREFIX is where install.sh put the library, ~/.local where it is left out
#
# H264V_STREAMS names a folder of streams whose frames are compared with the program's.
set -eu
prefix=${1:-$HOME/.local}
here=$(cd "$(dirname "$0")" && pwd)
export H264V_LIBRARY="${H264V_LIBRARY:-$prefix/lib/libh264v.so.0}"
export H264V_PROGRAM="${H264V_PROGRAM:-$prefix/bin/h264v}"
export PYTHONDONTWRITEBYTECODE=1
exec python3 -m unittest discover -s "$here/tests" -v
