#!/usr/bin/env bash
# The launcher builds each crate once, after those that it uses and beside others, goes on after an interruption, and
# waits for another build. A small tree is built by a stand-in for rt, which proves nothing and takes half a second.
. "$(dirname "$0")/../helpers/counting.bash"

tree=$work/tree
mkdir -p "$tree/tools" "$work/bin"
cp "$top/kudzuturret" "$tree"
cp "$top"/tools/{build.py,rt_once.py,programs.bash} "$tree/tools"
cat >"$tree/crates.txt" <<'END'
# Two chains that share the lowest crate, and one crate that only another program uses.
low: byteorder
left: low
right: low itoa
top: left
ogg_archive: top right
apart: low
ogg_station: apart
ogg_main: right
END
printf '%s 1\n' low left right top ogg_archive >"$tree/tools/seconds.txt"
for name in low left right top ogg_archive apart ogg_station ogg_main; do
    mkdir -p "$tree/crates/$name/src"
    echo "text of $name" >"$tree/crates/$name/src/lib.rt"
done
cat >"$work/bin/rt" <<'END'
#!/usr/bin/env bash
# In a crate's folder, where the libraries below must lie: makes its own, or the program.
name=${PWD##*/}
for other in $(sed -n "s/^$name: *//p" ../../crates.txt); do
    [ ! -d "../$other" ] || [ -f "../$other/out/rlib/stamp" ] || { echo "$other isn't built"; exit 1; }
done
case $1 in
lib)
    [ ! -f out/rlib/stamp ] || exit 0
    echo "begins $name" >>"$LOG"
    echo "$name $3" >>"$LOG.jobs"
    sleep "${PAUSE:-0.5}"
    ! grep -q wrong src/lib.rt || { echo "$name is wrong"; exit 1; }
    mkdir -p out/rlib && touch out/rlib/stamp
    echo "ends $name" >>"$LOG"
    echo logic=proved
    ;;
run)
    mkdir -p out
    printf '#!/bin/sh\necho "%s ran $*"\n' "$name" >"out/$name"
    chmod +x "out/$name"
    echo "kudzuturret 0.0.0" >&2
    exit 2
    ;;
esac
END
chmod +x "$work/bin/rt"
export PATH=$work/bin:$PATH LOG=$work/log

launch() { timeout 60 "$tree/kudzuturret" "$@" >"$work/out" 2>"$work/err" </dev/null; }

launch links FILE
check "a first start: status $?" [ $? -eq 0 ]
check "it builds and runs" is_text "$work/out" 'ogg_archive ran links FILE\n'
check "it says what the word needs" grep -q 'kudzuturret: links needs 5 crates' "$work/err"
check "each crate of the program is built once" \
    [ "$(sed -n 's/^begins //p' "$LOG" | sort | tr '\n' ' ')" = "left low right top " ]
check "low comes first" [ "$(head -n 2 "$LOG" | tr '\n' ' ')" = "begins low ends low " ]
[ "$(nproc)" -lt 2 ] || check "left and right are built side by side" \
    [ "$(sed -n '3,4s/ .*//p' "$LOG" | tr '\n' ' ')" = "begins begins " ]
check "it tells of each crate" [ "$(grep -c 'crate [1-5] of 5 is proved: .*; about .* to go$' "$work/err")" -eq 5 ]
check "no room is left" [ ! -e "$tree/out/rooms" ]

launch links FILE
check "a second start builds nothing" is_text "$work/err" ''
launch --help
check "what any program answers builds nothing" is_text "$work/err" ''
check "and is answered" is_text "$work/out" 'ogg_archive ran --help\n'

# A word of another program builds what that needs besides, and all of them are built at once.
launch station FILE
check "a word of another program" is_text "$work/out" 'ogg_station ran station FILE\n'
check "only one crate more was built for it" [ "$(sed -n 's/^begins //p' "$LOG" | sort | tr '\n' ' ')" = "apart left low right top " ]
launch --build
check "all of them: status $?" [ $? -eq 0 ]
check "all of them: the third one is there" [ -x "$tree/crates/ogg_main/out/ogg_main" ]
launch --build
check "all of them again: nothing is built" is_text "$work/err" ''

rm -r "$tree"/crates/*/out "$LOG"
PAUSE=5 "$tree/kudzuturret" links >"$work/out" 2>"$work/err" </dev/null &
pid=$!
for _ in $(seq 200); do ! grep -q 'begins left' "$LOG" 2>/dev/null || break; sleep 0.05; done
timeout 60 "$tree/kudzuturret" links >"$work/other" 2>"$work/waits" </dev/null &
other=$!
for _ in $(seq 100); do ! grep -q waiting "$work/waits" || break; sleep 0.05; done
kill -TERM "$pid"
wait "$pid"
check "interrupted: status $?" [ $? -eq 3 ]
check "interrupted: it says so" grep -q 'interrupted; what is proved stays' "$work/err"
wait "$other"
check "the start that waited: status $?" [ $? -eq 0 ]
check "the start that waited goes on and runs" is_text "$work/other" 'ogg_archive ran links\n'
check "what was built before stays" [ "$(grep -c 'begins low' "$LOG")" -eq 1 ]

echo "wrong" >>"$tree/crates/left/src/lib.rt"
rm -r "$tree/crates/left/out" "$tree/crates/ogg_archive/out"
launch links
check "a crate that isn't proved: status $?" [ $? -eq 3 ]
check "a crate that isn't proved: its log is shown" grep -qx 'left is wrong' "$work/err"
check "a crate that isn't proved: nothing runs" is_text "$work/out" ''

# Six crates that use none, on three processors, where the memory holds four checks.
if [ "$(nproc)" -ge 3 ] && [ "$(awk '/^MemAvailable/ { print $2 }' /proc/meminfo)" -gt 14000000 ]; then
    {
        for name in a b c d e f; do
            mkdir -p "$tree/crates/$name/src"
            echo "text of $name" >"$tree/crates/$name/src/lib.rt"
            echo "$name:"
        done
        echo "ogg_archive: a b c d e f"
    } >"$tree/crates.txt"
    printf '%s\n' 'a 1' 'b 1' 'c 1' 'd 9' 'e 1' 'f 1' 'ogg_archive 1' >"$tree/tools/seconds.txt"
    rm -r "$tree"/crates/*/out "$LOG.jobs"
    taskset -c 0-2 timeout 60 "$tree/kudzuturret" links >"$work/out" 2>"$work/err" </dev/null
    check "the crate that is waited for longest has a job more" grep -qx 'd 2' "$LOG.jobs"
    check "each other one has a job while crates wait" [ "$(grep -c '^[abcef] 1$' "$LOG.jobs")" -ge 3 ]
fi

finish
