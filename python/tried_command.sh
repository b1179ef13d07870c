#!/bin/sh
# A command of the package macsec over the library that `make try` builds, of which nothing is proved: the command that
# this file is named as, such as build/try/macsec-why.
top=$(cd "$(dirname "$(readlink -f "$0")")/../.." && pwd) || exit 1
name=$(basename "$0")
export MACSEC_LIBRARY="${MACSEC_LIBRARY:-$top/build/unproved/libmacsec.so.1}" PYTHONDONTWRITEBYTECODE=1
export PYTHONPATH="$top/python${PYTHONPATH:+:$PYTHONPATH}"
exec python3 -m "macsec.cli.${name#macsec-}" "$@"
