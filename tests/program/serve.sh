#!/usr/bin/env bash
# Files served over HTTP on 127.0.0.1, also while a feed is recorded into them.
. "$(dirname "$0")/../helpers/common.bash"

asking() { timeout 30 python3 "$here/asking.py" "$@"; }

# up SUBCOMMAND FILE WORD ..: starts the program with an address after FILE, and waits until it listens.
up() {
    local subcommand=$1 file=$2
    shift 2
    port=$(asking port)
    timeout 60 "$program" "$subcommand" "$file" "127.0.0.1:$port" "$@" >"$work/out" 2>"$work/err" &
    server=$!
    asking wait "$port"
}
# down: waits until the program has ended.
down() {
    wait "$server"
    status=$?
}
# gets NAME TARGET FILE: checks that the body that a GET gets is this file.
gets() {
    timeout 20 curl -s -o "$work/body" "http://127.0.0.1:$port$2"
    check "$1" cmp "$work/body" "$3"
}
get='GET /all HTTP/1.1\r\nHost: a\r\n\r\n'

pages "02 0 1 0 3 abc" "02 0 2 0 3 abc" "00 -1 1 1 255*255 y*65025" "00 7 2 1 1 x" "05 9 1 2 255*19,130 y*4975" "04 7 2 2 - -" \
    "02 0 3 0 2 de" >"$work/two.ogg"
head -c 70447 "$work/two.ogg" >"$work/link"
pages "02 0 2 0 3 abc" "00 7 2 1 1 x" "04 7 2 2 - -" >"$work/stream"

# The server answers for what is there, and for what isn't. A file without a tail is sealed again.
cp "$work/two.ogg" "$work/served.ogg"
up serve "$work/served.ogg" 8
gets "all of the file" /all "$work/two.ogg"
gets "a link" /link/0 "$work/link"
gets "a stream" /link/0/2 "$work/stream"
printf 'committed 70477\nlink 0 0 70447 2\nstream 1 70360 3 ended\nstream 2 87 3 ended\nlink 1 70447 30 1\nstream 3 30 1 open\n' >"$work/listing"
gets "the listing" / "$work/listing"
timeout 20 curl -s -r 70447- -D "$work/head" -o "$work/body" "http://127.0.0.1:$port/all"
tail -c 30 "$work/two.ogg" >"$work/part"
check "a range" cmp "$work/body" "$work/part"
check "a range: its head" is_text "$work/head" 'HTTP/1.1 206 Partial Content\r\nContent-Type: application/ogg\r\nContent-Length: 30\r\nContent-Range: bytes 70447-70476/70477\r\nAccept-Ranges: bytes\r\nConnection: close\r\n\r\n'
timeout 20 curl -s -I -o "$work/head" "http://127.0.0.1:$port/link/0/2"
check "a head alone" is_text "$work/head" 'HTTP/1.1 200 OK\r\nContent-Type: application/ogg\r\nContent-Length: 87\r\nAccept-Ranges: bytes\r\nConnection: close\r\n\r\n'
check "no such link" [ "$(timeout 20 curl -s -o "$work/body" -w '%{http_code}' "http://127.0.0.1:$port/link/2")" = 404 ]
check "another method" [ "$(timeout 20 curl -s -X PUT -o "$work/body" -w '%{http_code}' "http://127.0.0.1:$port/all")" = 405 ]
down
came "served" 0 '' ''
check "served: the file is as it was" cmp "$work/served.ogg" "$work/two.ogg"

# Ranges of a file of 91 bytes: the Range field, the status, the Content-Range field, and where the part begins and ends.
pages "02 0 1 0 3 abc" "00 5 1 1 5 hello" "04 5 1 2 - -" >"$work/three.ogg"
cp "$work/three.ogg" "$work/ranged.ogg"
up serve "$work/ranged.ogg" 6
for row in 'bytes=0-30|206|bytes 0-30/91|0|31' 'bytes=-27|206|bytes 64-90/91|64|91' 'bytes=91-|416|bytes */91|0|0' 'bytes=5-4|200||0|91' \
    'bytes=0-0,2-2|200||0|91'; do
    IFS='|' read -r range status field from to <<<"$row"
    timeout 20 curl -s -H "Range: $range" -D "$work/head" -o "$work/body" "http://127.0.0.1:$port/link/0"
    [ -e "$work/body" ] || : >"$work/body"
    head -c "$to" "$work/three.ogg" | tail -c +"$((from + 1))" >"$work/piece"
    check "$range: the part" cmp "$work/body" "$work/piece"
    check "$range: its status" grep -q "^HTTP/1.1 $status " "$work/head"
    check "$range: its field" [ "$(sed -n 's/^Content-Range: \(.*\)\r$/\1/p' "$work/head")" = "$field" ]
    rm -f "$work/body"
done
timeout 20 curl -s -I -H 'Range: bytes=0-30' -o "$work/head" "http://127.0.0.1:$port/link/0"
check "a head alone has no range" is_text "$work/head" 'HTTP/1.1 200 OK\r\nContent-Type: application/ogg\r\nContent-Length: 91\r\nAccept-Ranges: bytes\r\nConnection: close\r\n\r\n'
down
came "ranged" 0 '' ''

# Of an empty file a range is the whole.
: >"$work/empty.ogg"
up serve "$work/empty.ogg" 1
timeout 20 curl -s -H 'Range: bytes=0-' -D "$work/head" -o "$work/body" "http://127.0.0.1:$port/all"
check "an empty file" is_text "$work/head" 'HTTP/1.1 200 OK\r\nContent-Type: application/ogg\r\nContent-Length: 0\r\nAccept-Ranges: bytes\r\nConnection: close\r\n\r\n'
down

# If a client goes away, or sends no head, too much, or more than a head, the next one is served.
up serve "$work/served.ogg" 8
asking ask "$port" --shut >"$work/got"
check "no head at all: no answer" [ ! -s "$work/got" ]
asking ask "$port" 'GET /all HTTP/1.1\r\nHo' --shut >"$work/got"
check "half a head: no answer" [ ! -s "$work/got" ]
asking ask "$port" 'GET /all HTTP/1.1\r\nX: ' 'y*8192' >"$work/got"
check "a head too long" is_text "$work/got" 'HTTP/1.1 400 Bad Request\r\nContent-Length: 0\r\nConnection: close\r\n\r\n'
asking ask "$port" 'no head\r\n\r\n' >"$work/got"
check "no head of HTTP" is_text "$work/got" 'HTTP/1.1 400 Bad Request\r\nContent-Length: 0\r\nConnection: close\r\n\r\n'
asking ask "$port" 'GET /all HTTP/1.1\r\n\r\n' >"$work/got"
check "no host" is_text "$work/got" 'HTTP/1.1 400 Bad Request\r\nContent-Length: 0\r\nConnection: close\r\n\r\n'
asking ask "$port" "$get" --most 100 >"$work/got"
check "a client that goes away" [ -s "$work/got" ]
asking ask "$port" "GET /link/1 HTTP/1.0\r\n\r\nGET / HTTP/1.0\r\n\r\n" >"$work/got"
printf 'HTTP/1.1 200 OK\r\nContent-Type: application/ogg\r\nContent-Length: 30\r\nAccept-Ranges: bytes\r\nConnection: close\r\n\r\n' | cat - "$work/part" >"$work/want"
check "a second request after the head" cmp "$work/got" "$work/want"
gets "after all of them" /all "$work/two.ogg"
down
came "pestered" 0 '' ''

# The answers are those of a plain program.
check "answers" timeout 200 python3 "$here/serving.py" "$program" "$work" 3

check "answers while a feed is recorded" timeout 200 python3 "$here/pestering.py" "$program" "$work"

# A tail stays open, and is no part of what is served.
printf '\0' | cat "$work/two.ogg" - >"$work/tail.ogg"
up serve "$work/tail.ogg" 1
gets "before a tail" /all "$work/two.ogg"
down
came "a tail" 0 '' ''
check "a tail: $(wc -c <"$work/tail.ogg") bytes" [ "$(wc -c <"$work/tail.ogg")" -eq 70478 ]

# What can't be served.
run serve "$work/none.ogg" 127.0.0.1:0 1
came "no such file" 1 '' 'fault file\n'
check "no such file: none is made" [ ! -e "$work/none.ogg" ]
run serve "$work/none.ogg" nowhere 1
came "no such file, before the address is looked at" 1 '' 'fault file\n'
run serve "$work" 127.0.0.1:0 1
came "a folder" 1 '' 'fault file\n'
cp "$work/two.ogg" "$work/bad.ogg"
printf H | dd of="$work/bad.ogg" bs=1 seek=59 conv=notrunc status=none
run serve "$work/bad.ogg" 127.0.0.1:0 1
came "damage" 1 '' 'fault open 2 Page 31 4 Checksum\n'
cp "$work/two.ogg" "$work/served.ogg"
run serve "$work/served.ogg" nowhere 1
came "no address" 1 '' 'fault net\n'
check "no address: not sealed" [ "$(wc -c <"$work/served.ogg")" -eq 70478 ]
for count in 0 65537 x; do
    run serve "$work/served.ogg" 127.0.0.1:0 "$count"
    check "$count connections: status $status" [ "$status" -eq 2 ]
done

# A feed is recorded meanwhile: an answer is what was committed when its request was complete.
pages "02 0 1 0 3 abc" "00 5 1 1 5 hello" >"$work/first"
pages "02 0 1 0 3 abc" "00 5 1 1 5 hello" "04 5 1 2 - -" >"$work/second"
records 'end(1)' >"$work/feed"
cp "$work/first" "$work/live.ogg"
up live "$work/live.ogg" "$work/feed" 2
gets "live: before the command" /all "$work/first"
gets "live: after it" /all "$work/second"
down
came "live" 0 'kept 1 91\n' ''
check "live: sealed" cmp "$work/live.ogg" "$work/second"
cp "$work/first" "$work/live.ogg"
records 'put([(1, 6, b"x")]), flush(), end(1)' >"$work/feed"
up live "$work/live.ogg" "$work/feed" 3 --group 8
gets "live in groups: before" /all "$work/first"
gets "live in groups: while a command waits" /all "$work/first"
pages "02 0 1 0 3 abc" "00 5 1 1 5 hello" "00 6 1 2 1 x" >"$work/more"
gets "live in groups: after a flush" /all "$work/more"
down
came "live in groups" 0 'held 1\nkept 1 93\nheld 2\nkept 2 120\n' ''

# The rest of the feed is recorded after the last connection.
cp "$work/first" "$work/live.ogg"
records 'put([(1, 6, b"x")]), put([(7, 6, b"x")]), put([(1, 7, b"y")]), end(1)' >"$work/feed"
up live "$work/live.ogg" "$work/feed" 1
gets "live: one connection" /all "$work/first"
down
came "live: the rest" 0 'kept 1 93\nrefused 12 UnknownSerial\nkept 2 122\nkept 3 149\n' ''
pages "02 0 1 0 3 abc" "00 5 1 1 5 hello" "00 6 1 2 1 x" "00 7 1 3 1 y" "04 7 1 4 - -" >"$work/want"
check "live: the rest is in the file" cmp "$work/live.ogg" "$work/want"

# Faults of the feed end no connection, and are reported at the end. Nothing is sealed then.
cp "$work/first" "$work/live.ogg"
head -c 9 "$work/feed" >"$work/cut"
up live "$work/live.ogg" "$work/cut" 2
gets "a feed that is cut" /all "$work/first"
gets "a feed that is cut, again" /all "$work/first"
down
came "a feed that is cut" 1 '' 'fault feed 1 Truncated\n'
check "a feed that is cut: not sealed" [ "$(wc -c <"$work/live.ogg")" -eq 65 ]
run live "$work/live.ogg" 127.0.0.1:0 "$work/none" 1
came "no feed" 1 '' 'fault file\n'
run live "$work/live.ogg" nowhere "$work/none" 1
came "no feed, before the address is looked at" 1 '' 'fault file\n'
run live "$work/live.ogg" nowhere "$work" 1
came "no address, before a feed is read" 1 '' 'fault net\n'
run live "$work/none.ogg" nowhere "$work/none" 1
came "no file first" 1 '' 'fault file\n'
up live "$work/live.ogg" "$work" 1
gets "a folder for a feed" /all "$work/first"
down
came "a folder for a feed" 1 '' 'fault feed 5 Read\n'

# After its device was full, a file is opened again, and the feed and the sessions go on.
cp "$work/first" "$work/full.ogg"
records '*(put([(1, 6 + n, bytes([n]) * 1000)]) for n in range(20)), end(1)' >"$work/feed"
port=$(asking port)
(
    trap '' XFSZ
    ulimit -f 8
    exec timeout 60 "$program" live "$work/full.ogg" "127.0.0.1:$port" "$work/feed" 4 >"$work/full.out" 2>"$work/full.err"
) &
server=$!
asking wait "$port"
gets "a full device: the first answer" /all "$work/first"
for _ in 1 2 3; do
    check "a full device: an answer" timeout 20 curl -s -o "$work/body" "http://127.0.0.1:$port/all"
done
down
check "a full device: status $status" [ "$status" -eq 0 ]
check "a full device: a disk fault" grep -q '^refused 21 Disk' "$work/full.out"
check "a full device: no fault" [ ! -s "$work/full.err" ]
run links "$work/full.ogg"
check "a full device: a file of links" [ "$status" -eq 0 ]

# If it can't be opened again, no further connection is waited for.
cc -O2 -shared -fPIC -D_GNU_SOURCE -o "$work/failing.so" "$here/failing.c" || exit 1
cp "$work/first" "$work/lost.ogg"
records 'put([(1, 6, b"x")]), end(1)' >"$work/feed"
port=$(asking port)
LD_PRELOAD=$work/failing.so FAILING_CALL=5 FAILING_HOW=io FAILING_ON=1 \
    timeout 20 "$program" live "$work/lost.ogg" "127.0.0.1:$port" "$work/feed" 100 >"$work/out" 2>"$work/err" &
server=$!
asking wait "$port"
timeout 20 curl -s -o "$work/body" "http://127.0.0.1:$port/all"
down
came "a file that is lost" 1 'refused 21 Disk\n' 'fault open 1 Disk\n'

finish
