#!/usr/bin/env bash
# Each call on a socket fails in turn: its connection is cut, and the others are served. So is a client that is silent.
. "$(dirname "$0")/../helpers/common.bash"

cc -O2 -shared -fPIC -D_GNU_SOURCE -o "$work/peers.so" "$here/peers.c" || exit 1
check "each call on a socket" timeout 1000 python3 "$here/peering.py" "$program" "$work/peers.so" "$work"

finish
