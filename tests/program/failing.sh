#!/usr/bin/env bash
# Each device call of a recording fails in turn, or the program stops before it: nothing that was acknowledged is lost.
. "$(dirname "$0")/../helpers/common.bash"

cc -O2 -shared -fPIC -D_GNU_SOURCE -o "$work/failing.so" "$here/failing.c" || exit 1
check "each device call" timeout 1000 python3 "$here/failing.py" "$program" "$work/failing.so" "$work"

# Standard output fails once and then takes bytes again: the fault is that of standard output, whatever waited.
for most in 1 3 16; do
    FAILING_OUTPUT=1 LD_PRELOAD=$work/failing.so \
        "$program" record "$work/once_$most.ogg" --group "$most" <"$top/examples/hello.feed" >"$work/out" 2>"$work/err"
    check "standard output fails once, groups of $most: status" [ $? -eq 1 ]
    check "standard output fails once, groups of $most: the fault" is_text "$work/err" 'fault write\n'
done

finish
