#!/usr/bin/env bash
# A station: sources that are recorded, clients that are served at once, and listeners, on 127.0.0.1.
. "$(dirname "$0")/../helpers/common.bash"

asking() { timeout 30 python3 "$here/asking.py" "$@"; }

not() { ! "$@"; }
# up FILE WORD ..: starts a station on standard input as it is, and waits until it listens.
up() {
    local file=$1
    shift
    port=$(asking port)
    timeout 60 "$program" station "$file" "127.0.0.1:$port" "$@" >"$work/out" 2>"$work/err" <&0 &
    server=$!
    asking wait "$port"
}
down() {
    kill "$server" 2>/dev/null
    wait "$server" 2>/dev/null
}
# until_listed TEXT: waits until the listing has this text.
until_listed() {
    for _ in $(seq 200); do
        timeout 5 curl -s -o "$work/listing" "http://127.0.0.1:$port/"
        grep -q -e "$1" "$work/listing" && return 0
        sleep 0.02
    done
    cat "$work/listing"
    return 1
}
# code WORD ..: the status that curl gets.
code() { timeout 20 curl -s -o "$work/body" -w '%{http_code}' "$@"; }

pages "02 0 1 0 3 abc" "00 5 1 1 5 hello" "04 9 1 2 3 end" >"$work/whole"

# Standard input is a source. When it ends, its link is ended, and the station goes on serving.
ogg=$work/input.ogg
up "$ogg" <"$work/whole"
check "standard input is recorded" until_listed ended
check "standard input, listed" is_text "$work/listing" 'committed 122\nlink 0 0 122 1\nstream 1 122 4 ended\n'
timeout 20 curl -s -o "$work/body" "http://127.0.0.1:$port/link/0/1"
check "standard input: its stream" cmp -n 64 "$work/body" "$work/whole"
check "without a password nobody sends" [ "$(code -T "$work/whole" "http://127.0.0.1:$port/x")" = 405 ]
check "it tells where it is" is_text "$work/err" "serving http://127.0.0.1:$port/\n"
run record "$ogg" </dev/null
came "another program can't write the file" 1 '' 'fault locked\n'
down

# What was left open is ended when the station begins.
records 'begin([1]), put([(1, 5, b"hello")])' >"$work/feed"
run record "$work/open.ogg" <"$work/feed"
up "$work/open.ogg" </dev/null
check "what was open is ended" until_listed 'stream 1 91 3 ended'
down

# A file of another kind stays as it is.
printf 'ID3\4' >"$work/other"
cp "$work/other" "$work/was"
run station "$work/other" 127.0.0.1:0 </dev/null
came "a file of another kind" 1 '' 'fault foreign\n'
check "a file of another kind: it is as it was" cmp "$work/other" "$work/was"

# A source over HTTP, and how many connections there may be.
printf 'secret\nanother line\n' >"$work/password"
up "$work/http.ogg" --password-file "$work/password" --listeners 2 --no-skeleton </dev/null
check "a source" [ "$(code -u source:secret -T "$work/whole" "http://127.0.0.1:$port/x")" = 200 ]
check "a source in chunks" [ "$(code -u x:secret -T - "http://127.0.0.1:$port/x" <"$work/whole")" = 200 ]
check "a wrong password" [ "$(code -u source:secret2 -T "$work/whole" "http://127.0.0.1:$port/x")" = 401 ]
check "no password" [ "$(code -T "$work/whole" "http://127.0.0.1:$port/x")" = 401 ]
check "two links" until_listed 'link 1 122 122 1'
exec 3<>"/dev/tcp/127.0.0.1/$port" 4<>"/dev/tcp/127.0.0.1/$port"
sleep 0.2
# One too many is answered as any other, also if its request comes late: twenty times, without a reset.
refused=0
for _ in $(seq 20); do
    [ "$(code "http://127.0.0.1:$port/")" = 503 ] && refused=$((refused + 1))
done
check "too many connections: $refused of 20 got 503" [ "$refused" -eq 20 ]
# Beyond them four are asked first what they want: an encoder is never kept out by those who say nothing, and neither is
# who asks for the numbers.
check "a source beside idle connections" [ "$(code -u source:secret -T "$work/whole" "http://127.0.0.1:$port/x")" = 200 ]
check "its wrong password" [ "$(code -u source:secret2 -T "$work/whole" "http://127.0.0.1:$port/x")" = 401 ]
check "the numbers beside idle connections" [ "$(code "http://127.0.0.1:$port/status")" = 200 ]
check "their head alone" [ "$(code -I "http://127.0.0.1:$port/status")" = 200 ]
check "a listener beside idle connections" [ "$(code "http://127.0.0.1:$port/live")" = 503 ]
check "a player beside idle connections" [ "$(code "http://127.0.0.1:$port/player")" = 503 ]
check "a file beside idle connections" [ "$(code "http://127.0.0.1:$port/all")" = 503 ]
exec 5<>"/dev/tcp/127.0.0.1/$port" 6<>"/dev/tcp/127.0.0.1/$port" 7<>"/dev/tcp/127.0.0.1/$port" 8<>"/dev/tcp/127.0.0.1/$port"
sleep 0.3
exec 9<>"/dev/tcp/127.0.0.1/$port"
check "its answer comes before it asks" [ "$(timeout 5 head -n 1 <&9 | tr -d '\r')" = "HTTP/1.1 503 Service Unavailable" ]
exec 9>&-
printf 'PUT /x HTTP/1.1\r\nHost: x\r\n' >&5
exec 6>&- 7>&- 8>&-
sleep 0.3
check "a source while another one says who it is" [ "$(code -u source:secret -T "$work/whole" "http://127.0.0.1:$port/x")" = 200 ]
exec 5>&-
exec 3>&- 4>&-
sleep 0.2
check "four links" until_listed 'link 3 .*'
check "places again" [ "$(code "http://127.0.0.1:$port/")" = 200 ]
check "what is live has a head alone" [ "$(code -I "http://127.0.0.1:$port/live")" = 200 ]
down

# What a station says of itself.
metric() { timeout 20 curl -s "http://127.0.0.1:$port/status" | python3 "$here/metrics.py" "$@"; }
printf 'secret\n' >"$work/password"
head -c 80 "$work/whole" >"$work/cut"
up "$work/told.ogg" --password-file "$work/password" --listeners 3 --log </dev/null
begun=$SECONDS
check "nobody is on the air" [ "$(metric kudzuturret_on_air)" = 0 ]
check "a whole source" [ "$(code -A "a \"quoted\" agent" -u source:secret -T "$work/whole" "http://127.0.0.1:$port/x")" = 200 ]
check "a source whose last page is cut" [ "$(code -u source:secret -T "$work/cut" "http://127.0.0.1:$port/x")" = 200 ]
check "a wrong password" [ "$(code -u source:wrong -T "$work/whole" "http://127.0.0.1:$port/x")" = 401 ]
check "both are listed" until_listed 'link 1 .*'
exec 3<>"/dev/tcp/127.0.0.1/$port" 4<>"/dev/tcp/127.0.0.1/$port" 5<>"/dev/tcp/127.0.0.1/$port"
sleep 0.2
check "one connection too many" [ "$(code "http://127.0.0.1:$port/")" = 503 ]
exec 3>&- 4>&- 5>&-
sleep 0.2
exec 3<>"/dev/tcp/127.0.0.1/$port"
printf 'GET /live HTTP/1.0\r\n\r\n' >&3
sleep 0.2
metric >"$work/numbers" || echo "no numbers" >>"$work/numbers"
numbers() { grep -vE '^kudzuturret_(uptime_seconds|commit_seconds_total|sent_bytes_total|commits_total) ' "$work/numbers"; }
size=$(timeout 5 curl -s "http://127.0.0.1:$port/" | sed -n 's/^committed //p')
cat >"$work/want" <<END
kudzuturret_committed_bytes $size
kudzuturret_links 2
kudzuturret_packets_total 3
kudzuturret_reopenings_total 0
kudzuturret_connections{kind="listener"} 1
kudzuturret_connections{kind="session"} 0
kudzuturret_connections{kind="source"} 0
kudzuturret_connections{kind="other"} 1
kudzuturret_connections_refused_total 1
kudzuturret_sources_accepted_total 2
kudzuturret_sources_refused_total 1
kudzuturret_mends_total{kind="Junk"} 1
kudzuturret_mends_total{kind="Gap"} 0
kudzuturret_mends_total{kind="Restart"} 0
kudzuturret_mends_total{kind="Stranger"} 0
kudzuturret_mends_total{kind="Repeated"} 0
kudzuturret_mends_total{kind="Unfinished"} 0
kudzuturret_mends_total{kind="TooLong"} 0
kudzuturret_mends_total{kind="Misshapen"} 0
kudzuturret_mends_total{kind="Full"} 0
kudzuturret_on_air 0
kudzuturret_on_air_seconds 0
END
numbers >"$work/found"
check "the numbers of a station" diff "$work/want" "$work/found"
check "commits were counted" [ "$(metric kudzuturret_commits_total)" -gt 0 ]
check "so were bytes that were sent" [ "$(metric kudzuturret_sent_bytes_total)" -gt 1000 ]
check "it runs for no longer than this script" [ "$(metric kudzuturret_uptime_seconds)" -le $((SECONDS - begun + 2)) ]
check "the numbers have a head alone" [ "$(code -I "http://127.0.0.1:$port/status")" = 200 ]
check "the player is there" [ "$(code "http://127.0.0.1:$port/player?x=1")" = 200 ]
check "it is a page" grep -q '^</html>$' "$work/body"
check "its head alone" [ "$(code -I "http://127.0.0.1:$port/player")" = 200 ]
check "nobody sends to it" [ "$(code -X POST "http://127.0.0.1:$port/player")" = 405 ]
exec 3>&-
sleep 0.3
down
line='127\.0\.0\.1 - - \[[0-3][0-9]/[A-Z][a-z][a-z]/20[0-9][0-9]:[0-2][0-9]:[0-5][0-9]:[0-6][0-9] \+0000\]'
logged() { grep -qE "^$line $1\$" "$work/err"; }
check "a source in the log" logged '"PUT /x HTTP/1\.1" 200 0 "-" "a \\"quoted\\" agent"'
check "a refused source in the log" logged '"PUT /x HTTP/1\.1" 401 [0-9]+ "-" "curl/[^"]*"'
check "a listing in the log" logged '"GET / HTTP/1\.1" 200 [0-9]+ "-" "curl/[^"]*"'
check "a connection too many in the log" logged '"GET / HTTP/1\.1" 503 0 "-" "curl/[^"]*"'
check "a listener in the log" logged '"GET /live HTTP/1\.0" 200 0 "-" "-"'
check "a head alone in the log" logged '"HEAD /player HTTP/1\.1" 200 0 "-" "curl/[^"]*"'
check "the first source in the log" grep -qE '^source 1 127\.0\.0\.1:[0-9]+ begins$' "$work/err"
check "its end" grep -qx 'source 1 ends 1 2 0' "$work/err"
check "the end of the second one" grep -qx 'source 2 ends 1 1 1' "$work/err"
check "no password in the log" not grep -qE "$(printf 'source:secret' | base64)|secret" "$work/err"

# With --seal it ends with its input: who listens hears the rest, and the file has nothing after its pages.
ogg=$work/sealed.ogg
port=$(asking port)
mkfifo "$work/heard_it"
{ head -c 91 "$work/whole"; read -r -t 30 _ <>"$work/heard_it"; tail -c +92 "$work/whole"; } |
    timeout 60 "$program" station "$ogg" "127.0.0.1:$port" --seal >"$work/out" 2>"$work/err" &
server=$!
asking wait "$port"
check "its link is open" until_listed open
timeout 20 curl -sN -o "$work/heard" "http://127.0.0.1:$port/live" &
listener=$!
for _ in $(seq 200); do
    [ ! -s "$work/heard" ] || break
    sleep 0.05
done
echo 1<>"$work/heard_it"
wait "$listener"
check "a listener is closed at the end" [ $? -eq 0 ]
wait "$server"
check "it ends by itself" [ $? -eq 0 ]
check "its last line" is_text "$work/err" "serving http://127.0.0.1:$port/\narchived 1 2 $(wc -c <"$ogg") 0\n"
check "what was heard is the file" cmp "$work/heard" "$ogg"
run links "$ogg"
check "the file is sealed" grep -qx "committed $(wc -c <"$ogg")" "$work/out"

# A source that can't be read is told, also by the status: a folder can be opened, and not read.
run station "$work/broken.ogg" 127.0.0.1:0 --seal <"$work"
check "an input that can't be read: status $status" [ "$status" -eq 1 ]
check "it is told" grep -qx "fault archive 1 Read" "$work/err"
check "the run ends with a fault" [ "$(tail -n 1 "$work/err")" = "fault refused" ]

# Standard input that isn't Ogg is told so after 64 KiB, and is no source any more; others may be one.
head -c 70000 /dev/zero >"$work/zeros"
run station "$work/zeros.ogg" 127.0.0.1:0 --seal <"$work/zeros"
check "no Ogg on standard input: status $status" [ "$status" -eq 1 ]
check "no Ogg on standard input is told" grep -qx "fault archive 4 NoPage: input sends no Ogg" "$work/err"
check "no Ogg on standard input: the last line" [ "$(tail -n 1 "$work/err")" = "fault refused" ]
mkfifo "$work/input"
up "$work/zeros.ogg" --password-file "$work/password" --log <>"$work/input"
cat "$work/zeros" >"$work/input"
for _ in $(seq 200); do
    grep -q NoPage "$work/err" && break
    sleep 0.02
done
check "no Ogg on standard input is told at once" grep -qx "fault archive 4 NoPage: input sends no Ogg" "$work/err"
check "its end in the log" grep -qx "source 1 ends 0 0 0" "$work/err"
cat "$work/whole" >"$work/input"
check "a source after it" [ "$(code -u source:secret -T "$work/whole" "http://127.0.0.1:$port/x")" = 200 ]
check "no Ogg, sent by curl" [ "$(code -u source:secret -T "$work/zeros" "http://127.0.0.1:$port/x")" = 415 ]
check "no Ogg, sent by curl in chunks" [ "$(code -u source:secret -T - "http://127.0.0.1:$port/x" <"$work/zeros")" = 415 ]
check "what is refused is counted" [ "$(metric kudzuturret_sources_refused_total)" = 3 ]
check "nothing of it is mended" [ "$(metric 'kudzuturret_mends_total{kind="Junk"}')" = 0 ]
check "one link" until_listed 'link 0 0 122 1'
down

# Faults before it serves.
run station "$work/http.ogg" nowhere </dev/null
came "no address" 1 '' 'fault net\n'
run station "$work/none/http.ogg" 127.0.0.1:0 </dev/null
came "no folder" 1 '' 'fault file\n'
run station "$work/http.ogg" 127.0.0.1:0 --password-file "$work/none" </dev/null
came "no password file" 1 '' 'fault file\n'
: >"$work/password"
run station "$work/http.ogg" 127.0.0.1:0 --password-file "$work/password" </dev/null
came "an empty password" 1 '' 'fault file\n'
head -c 4097 /dev/zero | tr '\0' x >"$work/password"
run station "$work/http.ogg" 127.0.0.1:0 --password-file "$work/password" </dev/null
came "a password file that is too long" 1 '' 'fault file\n'
: >"$work/empty.ogg"
run station "$work/empty.ogg" 127.0.0.1:0 </dev/null
kill_status=$status
check "an empty file is gone on with, until it is stopped" [ "$kill_status" = 124 ]

# A password that comes in pieces is read to its line's end.
mkfifo "$work/pipe"
{
    printf se
    sleep 0.3
    printf 'cret\nanother line\n'
} >"$work/pipe" &
up "$work/pieces.ogg" --password-file "$work/pipe" </dev/null
check "a password in pieces" [ "$(code -u source:secret -T "$work/whole" "http://127.0.0.1:$port/x")" = 200 ]
check "its first piece" [ "$(code -u source:se -T "$work/whole" "http://127.0.0.1:$port/x")" = 401 ]
down

mkdir "$work/station"
cc -O2 -shared -fPIC -D_GNU_SOURCE -o "$work/failing.so" "$here/failing.c" || exit 1
check "stationing.py fails" timeout 170 python3 "$here/stationing.py" fails "$program" "$work/failing.so" "$work/station"
for what in sources answers hears "kills 30"; do
    # shellcheck disable=SC2086
    check "stationing.py $what" timeout 170 python3 "$here/stationing.py" ${what%% *} "$program" "$work/station" ${what#"${what%% *}"}
done
finish
