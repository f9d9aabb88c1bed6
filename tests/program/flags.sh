#!/usr/bin/env bash
# Each flag of each word reaches what it steers: a run with it does what one without it doesn't. The flags are those that
# --help names, so one that is added needs a function here.
. "$(dirname "$0")/../helpers/common.bash"

asking() { timeout 30 python3 "$here/asking.py" "$@"; }
cc -O2 -shared -fPIC -D_GNU_SOURCE -o "$work/failing.so" "$here/failing.c" || exit 1
port=
server=
trap 'kill "$server" 2>/dev/null; rm -rf "$work"' EXIT

# ---- what runs leave
has() { grep -qaF -- "$2" "$1"; }
hasnt() { ! has "$@"; }
size() { wc -c <"$1"; }
files() { ls "$1" | grep -c '\.ogg$'; }
# syncs WORD ..: how often a run syncs the data of what it writes.
syncs() {
    rm -f "$work/log"
    FAILING_LOG=$work/log LD_PRELOAD=$work/failing.so run "$@"
    grep -c '^sync$' "$work/log"
}
# up FILE WORD ..: a station on standard input as it is, which listens.
up() {
    local file=$1
    shift
    port=$(asking port)
    timeout 60 "$program" station "$file" "127.0.0.1:$port" "$@" >"$work/out" 2>"$work/err" <&0 &
    server=$!
    asking wait "$port"
}
down() {
    kill "$server" 2>/dev/null
    wait "$server" 2>/dev/null
}
code() { timeout 20 curl -s -o "$work/body" -w '%{http_code}' "$@"; }

# ---- what runs are given
python3 "$here/filing.py" stream 1 30 >"$work/stream"
pages "02 0 1 0 3 abc" "00 5 1 1 5 hello" "04 9 1 2 3 end" >"$work/whole"
{ printf junk; cat "$work/whole"; } >"$work/junk"
printf '%s\n' 'skeleton 9 ; 1 audio/vorbis 44100/1 abc def' 'put 1 5 hello' 'put 1 7 hello' 'end 1' |
    feed >"$work/skeleton.feed"
run mux <"$work/skeleton.feed"
cp "$work/out" "$work/skeleton"
records 'begin([1]), put([(1, 5, b"hello")])' >"$work/open.feed"
records 'begin([1]), put([(1, 5, b"again")]), put([(1, 9, b"more")]), end(1)' >"$work/next.feed"
records 'begin([1]), put([(2, 5, b"hello")]), end(1)' >"$work/refused.feed"
run archive "$work/folder/" --most-bytes 400 <"$work/stream"

# ---- archive
archive_every() {
    for _ in 1 2; do
        run archive "$work/hours/" --every 1000w <"$work/whole"
        run archive "$work/seconds/" --every 1s <"$work/whole"
        sleep 1.1
    done
    [ "$(files "$work/hours")" -eq 1 ] && [ "$(files "$work/seconds")" -eq 2 ]
}
archive_most_bytes() {
    run archive "$work/one/" <"$work/stream"
    [ "$(files "$work/one")" -eq 1 ] && [ "$(files "$work/folder")" -gt 3 ]
}
archive_keep() {
    run archive "$work/kept/" --most-bytes 400 <"$work/stream"
    local before
    before=$(files "$work/kept")
    sleep 2.1
    run archive "$work/kept/" --most-bytes 400 <"$work/whole"
    [ "$(files "$work/kept")" -ge "$before" ] || return 1
    run archive "$work/kept/" --most-bytes 400 --keep 1s <"$work/whole"
    [ "$(files "$work/kept")" -lt "$before" ]
}
archive_keep_bytes() {
    run archive "$work/least/" --most-bytes 400 --keep-bytes 900 <"$work/stream"
    [ "$(files "$work/least")" -lt "$(files "$work/folder")" ] && has "$work/err" removed
}
archive_group() {
    local alone together
    alone=$(syncs archive "$work/alone.ogg" --group 1 <"$work/stream")
    together=$(syncs archive "$work/together.ogg" --group 256 <"$work/stream")
    [ "$together" -lt $((alone / 4)) ]
}
archive_skeleton() {
    run archive "$work/made.ogg" --skeleton 77 <"$work/whole"
    has "$work/made.ogg" fishead && hasnt "$work/whole" fishead
}
archive_no_skeleton() {
    run archive "$work/with.ogg" <"$work/skeleton"
    run archive "$work/without.ogg" --no-skeleton <"$work/skeleton"
    has "$work/with.ogg" fishead && hasnt "$work/without.ogg" fishead
}
archive_strict() {
    run archive "$work/mended.ogg" <"$work/junk"
    [ "$status" -eq 0 ] || return 1
    run archive "$work/strict.ogg" --strict <"$work/junk"
    [ "$status" -eq 1 ] && has "$work/err" "fault mended"
}
archive_seal() {
    run archive "$work/ready.ogg" <"$work/whole"
    run archive "$work/sealed.ogg" --seal <"$work/whole"
    [ "$(size "$work/ready.ogg")" -eq $(($(size "$work/sealed.ogg") + 1)) ]
}

# ---- station
station_password_file() {
    echo secret >"$work/password"
    up "$work/closed.ogg" </dev/null
    local without
    without=$(code -u x:secret -T "$work/whole" "http://127.0.0.1:$port/x")
    down
    up "$work/closed.ogg" --password-file "$work/password" </dev/null
    [ "$without" = 405 ] && [ "$(code -u x:secret -T "$work/whole" "http://127.0.0.1:$port/x")" = 200 ]
    local found=$?
    down
    return $found
}
station_listeners() {
    local most got=()
    for most in 1 2; do
        up "$work/heard.ogg" --listeners "$most" </dev/null
        exec 3<>"/dev/tcp/127.0.0.1/$port"
        sleep 0.2
        got+=("$(code "http://127.0.0.1:$port/")")
        exec 3>&-
        down
    done
    [ "${got[*]}" = "503 200" ]
}
station_allow_origin() {
    local with origin
    up "$work/shared.ogg" --allow-origin https://a.example </dev/null
    with=$(curl -si --max-time 10 "http://127.0.0.1:$port/" | tr -d '\r' | sed -n 2p)
    down
    for origin in https://a.example/ https://A.example ftp://a.example a.example ''; do
        run station "$work/shared.ogg" 127.0.0.1:0 --allow-origin "$origin" </dev/null
        [ "$status" -eq 2 ] && has "$work/err" ORIGIN || return 1
    done
    [ "$with" = "Access-Control-Allow-Origin: https://a.example" ]
}
# sealed NAME STREAM WORD ..: a station that ends with its input has recorded it.
sealed() {
    timeout 20 "$program" station "$work/$1.ogg" 127.0.0.1:0 --seal "${@:3}" <"$2" >"$work/out" 2>"$work/err"
}
# filed NAME STREAM WORD ..: the same into a folder.
filed() {
    timeout 20 "$program" station "$work/$1/" 127.0.0.1:0 --seal "${@:3}" <"$2" >"$work/out" 2>"$work/err"
}
station_every() {
    for _ in 1 2; do
        filed sthours "$work/whole" --every 1000w && filed stseconds "$work/whole" --every 1s || return 1
        sleep 1.1
    done
    [ "$(files "$work/sthours")" -eq 1 ] && [ "$(files "$work/stseconds")" -eq 2 ]
}
station_most_bytes() {
    filed stone "$work/stream" && filed stmany "$work/stream" --most-bytes 400 || return 1
    [ "$(files "$work/stone")" -eq 1 ] && [ "$(files "$work/stmany")" -gt 3 ]
}
station_keep() {
    filed stkept "$work/stream" --most-bytes 400 || return 1
    local before
    before=$(files "$work/stkept")
    sleep 2.1
    filed stkept "$work/whole" --most-bytes 400 && [ "$(files "$work/stkept")" -ge "$before" ] || return 1
    filed stkept "$work/whole" --most-bytes 400 --keep 1s && [ "$(files "$work/stkept")" -lt "$before" ]
}
station_keep_bytes() {
    filed stleast "$work/stream" --most-bytes 400 --keep-bytes 900 || return 1
    [ "$(files "$work/stleast")" -lt "$(files "$work/folder")" ] && has "$work/err" removed
}
station_skeleton() {
    sealed st1 "$work/whole" --skeleton 77 && has "$work/st1.ogg" fishead
}
station_no_skeleton() {
    sealed st2 "$work/skeleton" && sealed st3 "$work/skeleton" --no-skeleton &&
        has "$work/st2.ogg" fishead && hasnt "$work/st3.ogg" fishead
}
station_seal() {
    sealed st4 "$work/whole" && [ "$(size "$work/st4.ogg")" -eq 122 ] || return 1
    up "$work/st5.ogg" <"$work/whole"
    sleep 0.3
    [ "$(code "http://127.0.0.1:$port/all")" = 200 ] && kill -0 "$server"
    local found=$?
    down
    return $found
}
station_log() {
    up "$work/silent.ogg" </dev/null
    code "http://127.0.0.1:$port/" >"$work/code"
    down
    hasnt "$work/err" "GET / HTTP/1.1" || return 1
    up "$work/logged.ogg" --log </dev/null
    code "http://127.0.0.1:$port/" >"$work/code"
    sleep 0.2
    down
    has "$work/err" "GET / HTTP/1.1"
}

# ---- list and cut
list_since() {
    run list "$work/folder" --since -1h
    [ -s "$work/out" ] || return 1
    run list "$work/folder" --since "$(date -u -d '+1 hour' +%Y-%m-%dT%H:%M:%SZ)"
    hasnt "$work/out" "file 1 "
}
list_until() {
    run list "$work/folder" --until "$(date -u -d '+1 hour' +%Y-%m-%dT%H:%M:%SZ)"
    [ -s "$work/out" ] || return 1
    run list "$work/folder" --until -1h
    hasnt "$work/out" "file 1 "
}
list_links() {
    run list "$work/folder"
    hasnt "$work/out" "link 0 " || return 1
    run list "$work/folder" --links
    has "$work/out" "link 0 "
}
cut_since() {
    run cut "$work/folder" --since -1h
    [ -s "$work/out" ] || return 1
    run cut "$work/folder" --since "$(date -u -d '+1 hour' +%Y-%m-%dT%H:%M:%SZ)"
    [ ! -s "$work/out" ] && [ "$status" -eq 1 ]
}
cut_until() {
    run cut "$work/folder" --until "$(date -u -d '+1 hour' +%Y-%m-%dT%H:%M:%SZ)"
    [ -s "$work/out" ] || return 1
    run cut "$work/folder" --until -1h
    [ ! -s "$work/out" ] && [ "$status" -eq 1 ]
}
cut_raw() {
    run cut "$work/folder"
    cp "$work/out" "$work/finished"
    run cut "$work/folder" --raw
    [ "$(size "$work/out")" -gt "$(size "$work/finished")" ]
}

# ---- lines and packets
printf 'one\ntwo\nthree\n' >"$work/lines"
printf 'a\tone\nb\ttwo\n' >"$work/tagged"
lines_every() {
    for _ in 1 2; do
        run lines "$work/lh/" --every 1000w <"$work/lines"
        run lines "$work/ls/" --every 1s <"$work/lines"
        sleep 1.1
    done
    [ "$(files "$work/lh")" -eq 1 ] && [ "$(files "$work/ls")" -eq 2 ]
}
lines_most_bytes() {
    for _ in 1 2; do
        run lines "$work/lm/" --most-bytes 50 <"$work/lines"
        run lines "$work/ll/" <"$work/lines"
    done
    [ "$(files "$work/ll")" -eq 1 ] && [ "$(files "$work/lm")" -gt 1 ]
}
lines_keep() {
    run lines "$work/lk/" --most-bytes 50 <"$work/lines"
    sleep 2.1
    run lines "$work/lk/" --most-bytes 50 --keep 1s <"$work/lines"
    has "$work/err" removed
}
lines_keep_bytes() {
    for _ in 1 2 3; do run lines "$work/lb/" --most-bytes 50 --keep-bytes 600 <"$work/lines"; done
    has "$work/err" removed
}
lines_group() {
    local alone together
    seq 300 >"$work/numbers"
    alone=$(syncs lines "$work/lg1.ogg" --group 1 <"$work/numbers")
    together=$(syncs lines "$work/lg2.ogg" --group 256 <"$work/numbers")
    [ "$together" -lt $((alone / 4)) ]
}
lines_acks() {
    run lines "$work/la1.ogg" <"$work/lines"
    hasnt "$work/out" "kept " || return 1
    run lines "$work/la2.ogg" --acks <"$work/lines"
    has "$work/out" "kept 3"
}
lines_media() {
    run lines "$work/lt.ogg" --media application/x-readings <"$work/lines"
    has "$work/lt.ogg" application/x-readings
}
lines_stream() {
    run lines "$work/ln.ogg" --stream boiler <"$work/lines"
    has "$work/ln.ogg" boiler
}
lines_streams() {
    run lines "$work/lw.ogg" --streams a,b <"$work/tagged"
    [ "$status" -eq 0 ] && has "$work/lw.ogg" "Name: b" && hasnt "$work/lw.ogg" "$(printf 'b\ttwo')"
}
lines_seal() {
    run lines "$work/lu.ogg" <"$work/lines"
    run lines "$work/lv.ogg" --seal <"$work/lines"
    [ "$(size "$work/lu.ogg")" -eq $(($(size "$work/lv.ogg") + 1)) ]
}
run lines "$work/tags.ogg" --streams a,b <"$work/tagged"
cp "$work/tags.ogg" "$work/tags"
run lines "$work/tagd/" --streams a,b <"$work/tagged"
packets_stream() {
    run packets "$work/tags"
    is_text "$work/out" 'one\ntwo\n' || return 1
    run packets "$work/tags" --stream b
    is_text "$work/out" 'two\n' || return 1
    run packets "$work/tags" --stream 1
    is_text "$work/out" 'one\n'
}
packets_link() {
    run lines "$work/links.ogg" <"$work/lines"
    run lines "$work/links.ogg" <"$work/tagged"
    run packets "$work/links.ogg" --link 0
    is_text "$work/out" 'one\ntwo\nthree\n'
}
packets_since() {
    run packets "$work/tagd" --since -1h
    is_text "$work/out" 'one\ntwo\n' || return 1
    run packets "$work/tagd" --since "$(date -u -d '+1 hour' +%Y-%m-%dT%H:%M:%SZ)"
    [ ! -s "$work/out" ]
}
packets_until() {
    run packets "$work/tagd" --until "$(date -u -d '+1 hour' +%Y-%m-%dT%H:%M:%SZ)"
    is_text "$work/out" 'one\ntwo\n' || return 1
    run packets "$work/tagd" --until -1h
    [ ! -s "$work/out" ]
}
packets_headers() {
    run packets "$work/tags" --headers
    has "$work/out" fishead && has "$work/out" LineHead
}
packets_json() {
    run packets "$work/tags" --json
    has "$work/out" '"text":"one"'
}

# ---- feed, mux, record, live
feed_skeleton() {
    run feed --skeleton 77 <"$work/whole"
    cp "$work/out" "$work/made.feed"
    run mux <"$work/made.feed"
    has "$work/out" fishead
}
feed_no_skeleton() {
    run feed --no-skeleton <"$work/skeleton"
    hasnt "$work/out" fishead
}
feed_renumber() {
    cat "$work/whole" "$work/whole" >"$work/twice"
    run feed <"$work/twice"
    cp "$work/out" "$work/made.feed"
    run mux --strict <"$work/made.feed"
    [ "$status" -eq 1 ] || return 1
    run feed --renumber <"$work/twice"
    cp "$work/out" "$work/made.feed"
    run mux --strict <"$work/made.feed"
    [ "$status" -eq 0 ]
}
feed_mend() {
    run feed <"$work/junk"
    [ "$status" -eq 1 ] || return 1
    run feed --mend <"$work/junk"
    [ "$status" -eq 0 ]
}
mux_check() {
    run mux --check <"$work/next.feed"
    hasnt "$work/out" OggS && has "$work/out" "kept 1 31"
}
mux_strict() {
    run mux <"$work/refused.feed"
    [ "$status" -eq 0 ] || return 1
    run mux --strict <"$work/refused.feed"
    [ "$status" -eq 1 ]
}
record_end_open() {
    run record "$work/open.ogg" <"$work/open.feed"
    run record "$work/open.ogg" --end-open </dev/null
    has "$work/out" "kept 1 91"
}
record_renumber() {
    run record "$work/again.ogg" <"$work/next.feed"
    run record "$work/again.ogg" <"$work/next.feed"
    has "$work/out" "SerialTaken" || return 1
    run record "$work/again.ogg" --renumber <"$work/next.feed"
    hasnt "$work/out" "SerialTaken"
}
record_seal() {
    run record "$work/r1.ogg" <"$work/next.feed"
    run record "$work/r2.ogg" --seal <"$work/next.feed"
    [ "$(size "$work/r1.ogg")" -eq $(($(size "$work/r2.ogg") + 1)) ]
}
record_group() {
    local alone together
    alone=$(syncs record "$work/r3.ogg" --group 1 <"$work/next.feed")
    together=$(syncs record "$work/r4.ogg" --group 8 <"$work/next.feed")
    [ "$together" -lt "$alone" ]
}
record_strict() {
    run record "$work/r5.ogg" <"$work/refused.feed"
    [ "$status" -eq 0 ] || return 1
    run record "$work/r6.ogg" --strict <"$work/refused.feed"
    [ "$status" -eq 1 ]
}
# lived MOST: how often `live` syncs, which serves one connection.
lived() {
    port=$(asking port)
    rm -f "$work/log"
    : >"$work/l$1.ogg"
    FAILING_LOG=$work/log LD_PRELOAD=$work/failing.so timeout 20 "$program" live "$work/l$1.ogg" "127.0.0.1:$port" \
        "$work/next.feed" 1 --group "$1" </dev/null >"$work/out" 2>"$work/err" &
    server=$!
    for _ in $(seq 200); do
        timeout 5 curl -s -o "$work/body" "http://127.0.0.1:$port/" && break
        sleep 0.02
    done
    wait "$server"
    grep -c '^sync$' "$work/log"
}
live_group() {
    local alone together
    alone=$(lived 1)
    together=$(lived 8)
    [ "$together" -lt "$alone" ]
}

run --help </dev/null
words=$(sed -n '/^Commands:/,/^$/s/^  \([a-z]*\) .*/\1/p' "$work/err" | grep -vx help)
check "there are words: $(echo $words)" [ "$(wc -w <<<"$words")" -ge 15 ]
tried=0
for word in $words; do
    run "$word" --help </dev/null
    for flag in $(sed -n 's/^ *\(-[a-z], \)\{0,1\}--\([a-z-]*\).*/\2/p' "$work/err" | grep -vxE 'help|version'); do
        name=${word}_${flag//-/_}
        if declare -F "$name" >/dev/null; then
            check "$word --$flag" "$name"
            tried=$((tried + 1))
        else
            check "$word --$flag has a test" false
        fi
    done
done
check "flags were tried: $tried" [ "$tried" -ge 30 ]

finish
