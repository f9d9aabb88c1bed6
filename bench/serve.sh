#!/usr/bin/env bash
# Measures what serving costs, over files of 1 GB in pages of 65,024 bytes and smaller ones:
# - ranges of 1 MB out of `serve`, out of a small C program that sends pieces of 4,096 bytes as `serve` does, and out of
#   nginx (one worker, no logs, a connection for each request);
# - ranges of 100 bytes out of the same three;
# - one of two streams whose pages alternate, against all of a file;
# - the memory over files of 1 MB and of 1 GB;
# - a request of one byte while `live` records, over files of 1 MB and of 300 MB.
#
# One client asks, and has one connection at a time, on 127.0.0.1. `clock` is the seconds of its requests, and `cpu`
# the server's CPU seconds (user and system) meanwhile, from the run with the least clock of three that take turns. Not
# part of the tests.
#
#     apt-get install libogg-dev nginx-light && bench/serve.sh [BYTES]      none: 1000000000
. "$(dirname "$0")/common.bash"
bytes=${1:-1000000000}

built "$program"
nginx=$(PATH=$PATH:/usr/sbin command -v nginx) || { echo "no nginx: apt-get install nginx-light" >&2; exit 1; }
cc -O2 -o "$work/pages_made" "$here/pages_made.c" -logg || exit 1
for name in serve_pieces serve_client; do
    cc -O2 -D_GNU_SOURCE -o "$work/$name" "$here/$name.c" || exit 1
done


# start WHICH FILE: a server of the file, whose process is then in `server`.
start() {
    port=$(free_port)
    case $1 in
    serve) "$program" serve "$2" "127.0.0.1:$port" 65536 & ;;
    live) "$program" live "$2" "127.0.0.1:$port" "$work/feed" 65536 >"$work/replies" & ;;
    pieces) "$work/serve_pieces" "$2" "$port" & ;;
    nginx)
        mkdir -p "$work/nginx/www"
        ln -f "$2" "$work/nginx/www/all"
        cat >"$work/nginx/conf" <<CONF
daemon off; master_process off; pid $work/nginx/pid; error_log stderr crit;
events { }
http {
    access_log off; keepalive_timeout 0; sendfile on; tcp_nopush on;
    client_body_temp_path $work/nginx/body; proxy_temp_path $work/nginx/proxy; fastcgi_temp_path $work/nginx/fastcgi;
    uwsgi_temp_path $work/nginx/uwsgi; scgi_temp_path $work/nginx/scgi;
    server { listen 127.0.0.1:$port; root $work/nginx/www; }
}
CONF
        "$nginx" -e stderr -p "$work/nginx" -c "$work/nginx/conf" &
        ;;
    esac
    server=$! begun=("$!")
}

# run WHICH FILE TARGET SIZE LENGTH REQUESTS: a server is started, asked and ended; its line goes to runs.WHICH.
run() {
    start "$1" "$2"
    "$work/serve_client" "$server" "$port" "$3" "$4" "$5" "$6" >>"$work/runs.$1" || status=1
    stop
}

# line NAME WHICH REQUESTS BYTES [BASE]: the best run, and the ratio of its speed to that of BASE.
line() {
    local best base
    best=$(sort -n "$work/runs.$2" | head -n 1)
    base=$(sort -n "$work/runs.${5:-$2}" | head -n 1)
    echo "$best $base" | awk -v name="$1" -v which="$2" -v requests="$3" -v bytes="$4" -v is_base="${5:+no}" '{
        printf "%-22s %-7s %8d %9.3f %8.2f %8.2f %9.0f %8.0f %8s %8s\n", name, which, requests, $1, $2, $3, requests / $1,
            requests * bytes / $1 / 1e6, is_base ? sprintf("%.2f", $5 / $1) : "", is_base ? sprintf("%.2f", ($6 + $7) / ($2 + $3)) : "" }'
}

# least WHICH COLUMN [COLUMN]: of the run with the least clock these seconds, added up.
least() { sort -n "$work/runs.$1" | head -n 1 | awk -v a="$2" -v b="${3:-0}" '{ printf "%.3f", $a + (b ? $b : 0) }'; }

# three NAME FILE LENGTH REQUESTS: the same ranges out of the three servers.
three() {
    local size which
    size=$(stat -c %s "$2")
    rm -f "$work"/runs.*
    for _ in 1 2 3; do
        for which in pieces nginx serve; do run "$which" "$2" /all "$size" "$3" "$4"; done
    done
    line "$1" pieces "$4" "$3"
    line "$1" nginx "$4" "$3" pieces
    line "$1" serve "$4" "$3" pieces
    for which in pieces nginx; do
        row "\`serve\`, ${1//_/ }" s "$(least serve 1)" "${which/pieces/a C program, pieces of 4 kB}" "$(least "$which" 1)"
        row "\`serve\`, ${1//_/ }" 'CPU s' "$(least serve 2 3)" "${which/pieces/a C program, pieces of 4 kB}" "$(least "$which" 2 3)"
    done
    echo "$(sort -n "$work/runs.serve" | head -n 1) $(sort -n "$work/runs.nginx" | head -n 1)" |
        awk -v name="$1" '{ printf "%-22s serve has %.2f of the speed of nginx by the clock, %.2f by cpu\n", name, $5 / $1, ($6 + $7) / ($2 + $3) }'
}

status=0
printf '%-22s %-7s %8s %9s %8s %8s %9s %8s %8s %8s\n' work server requests 'clock, s' 'user, s' 'system' 'requests/s' 'MB/s' 'of pieces' 'by cpu'
"$work/pages_made" "$bytes" 65024 >"$work/file.ogg"
cat "$work/file.ogg" >/dev/null
three 1_MB_ranges "$work/file.ogg" 1000000 1000
three 100_byte_ranges "$work/file.ogg" 100 5000

# The same bytes in two streams.
for packet in 65024 4000; do
    "$work/pages_made" "$bytes" "$packet" 2 >"$work/file.ogg"
    cat "$work/file.ogg" >/dev/null
    size=$(stat -c %s "$work/file.ogg")
    "$program" split "$work/file.ogg" 0 1 >"$work/stream.ogg"
    stream=$(stat -c %s "$work/stream.ogg")
    rm -f "$work"/runs.* "$work/stream.ogg"
    for _ in 1 2 3; do
        run serve "$work/file.ogg" /all "$size" 0 1
        mv "$work/runs.serve" "$work/one"
        cat "$work/one" >>"$work/runs.all"
        run serve "$work/file.ogg" /link/0/1 "$stream" 0 1
        mv "$work/runs.serve" "$work/one"
        cat "$work/one" >>"$work/runs.stream"
    done
    line "all_of_$packet" all 1 "$size"
    line "a_stream_of_$packet" stream 1 "$stream"
    row "\`serve\`, one of two streams, pages of $packet bytes" 'CPU s' "$(least stream 2 3)" 'ours, all of the file' "$(least all 2 3)"
    echo "$(sort -n "$work/runs.stream" | head -n 1) $(sort -n "$work/runs.all" | head -n 1)" |
        awk -v name="a_stream_of_$packet" '{ printf "%-22s takes %.2f of the time of all by the clock, %.2f by cpu\n", name, $1 / $5, ($2 + $3) / ($6 + $7) }'
done

echo
printf '%-22s %10s\n' 'memory of serve' 'most, kB'
few=
for size in 1000000 "$bytes"; do
    "$work/pages_made" "$size" 4000 2 >"$work/file.ogg"
    # An open file has a byte after its pages.
    whole=$(stat -c %s "$work/file.ogg")
    start serve "$work/file.ogg"
    "$work/serve_client" "$server" "$port" /all "$whole" 0 1 >"$work/one" || status=1
    "$program" split "$work/file.ogg" 0 1 >"$work/stream.ogg"
    "$work/serve_client" "$server" "$port" /link/0/1 "$(stat -c %s "$work/stream.ogg")" 0 1 >"$work/one" || status=1
    stop
    most=$(awk '{ print $4 }' "$work/one")
    [ -z "$few" ] || row "the memory of \`serve\`, a file of $((size / 1000000)) MB" kB "$most" 'ours, a file of 1 MB' "$few"
    few=${few:-$most}
    awk -v size="$whole" '{ printf "%-22s %10d\n", sprintf("a file of %.0f MB", size / 1e6), $4 }' "$work/one"
done

# Each request has a step of the feed before its one piece, so each finds a file that has grown by a page. Its clock is
# the disk's for the most part, since each step is a commit.
echo
printf '%-22s %8s %10s %12s\n' 'live' requests 'clock, s' 'cpu, ms each'
records() { PYTHONPATH=$here/../tests/helpers python3 -c 'import sys; from records import begin, put; '"$1"; }
records 'sys.stdout.buffer.write(put([(1, 0, b"x")]) * 100000)' >"$work/feed"
few=
for megabytes in 1 300; do
    records "w = sys.stdout.buffer.write; w(begin([1])); [w(put([(1, 0, bytes(65024))])) for _ in range($megabytes * 1000000 // 65300)]" |
        "$program" mux >"$work/file.ogg" 2>"$work/replies"
    rm -f "$work"/runs.*
    for _ in 1 2 3; do run live "$work/file.ogg" /link/0 1000 1 2000; done
    [ -z "$few" ] || row "2,000 requests of \`live\`, a file of $megabytes MB" 'CPU s' "$(least live 2 3)" 'ours, a file of 1 MB' "$few"
    few=${few:-$(least live 2 3)}
    sort -n "$work/runs.live" | head -n 1 | awk -v name="a file of $megabytes MB" '{ printf "%-22s %8d %10.3f %12.3f\n", name, 2000, $1, ($2 + $3) / 2 }'
done
exit "$status"
