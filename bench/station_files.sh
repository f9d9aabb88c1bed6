#!/usr/bin/env bash
# Measures a station that serves one file to many at once, beside nginx (one worker, no logs) with and without sendfile, over
# the same file: whole files, ranges of 1 MB and of 100 bytes for 64 and for 1,000 connections at once, and 60 fast ones
# with 4 beside them that take 1 kB a second. Where there are two processors, the server and its clients have one each.
#
# `cpu` is the server's CPU in milliseconds for each GB of content, or for each request of 100 bytes in microseconds;
# `rate` the MB or the requests in a second; `middle` and `worst` the milliseconds that an answer took; `memory` the most MB
# that the server had. Not part of the tests.
#
#     apt-get install libogg-dev nginx-light && bench/station_files.sh [SECONDS] [BYTES]      none: 5 and 200000000
. "$(dirname "$0")/common.bash"
seconds=${1:-5}
bytes=${2:-200000000}
ulimit -n 8192 || { echo "too few files may be open: ulimit -n" >&2; exit 1; }

built "$station"
nginx=$(PATH=$PATH:/usr/sbin command -v nginx) || { echo "no nginx: apt-get install nginx-light" >&2; exit 1; }
cc -O2 -o "$work/pages_made" "$here/pages_made.c" -logg || exit 1
cc -O2 -D_GNU_SOURCE -o "$work/many_clients" "$here/many_clients.c" || exit 1
server_on=() clients_on=()
[ "$(nproc)" -lt 2 ] || server_on=(taskset -c 0) clients_on=(taskset -c 1)

# start WHICH: a server of the file, whose process is then in `server`.
start() {
    port=$(free_port)
    if [ "$1" = station ]; then
        "${server_on[@]}" "$station" station "$work/served" "127.0.0.1:$port" --listeners 4096 </dev/null 2>"$work/err" &
        server=$! begun=("$!")
    else
        mkdir -p "$work/nginx/www"
        ln -f "$work/all" "$work/nginx/www/all"
        cat >"$work/nginx/conf" <<CONF
daemon off; master_process off; pid $work/nginx/pid; error_log stderr crit;
events { worker_connections 4096; }
http {
    access_log off; keepalive_timeout 0; sendfile ${1#nginx,}; tcp_nopush on;
    client_body_temp_path $work/nginx/body; proxy_temp_path $work/nginx/proxy; fastcgi_temp_path $work/nginx/fastcgi;
    uwsgi_temp_path $work/nginx/uwsgi; scgi_temp_path $work/nginx/scgi;
    server { listen 127.0.0.1:$port backlog=4096; root $work/nginx/www; }
}
CONF
        "${server_on[@]}" "$nginx" -e stderr -p "$work/nginx" -c "$work/nginx/conf" &
        server=$! begun=("$!")
    fi
    for _ in $(seq 100); do
        (exec 3<>"/dev/tcp/127.0.0.1/$port") 2>"$work/tried" && break
        sleep 0.05
    done
}
declare -A found
# measure WHICH NAME LENGTH COUNT SLOW
measure() {
    local what=requests/s ours
    [ "$3" -gt 0 ] && [ "$3" -lt 1000 ] || what=MB/s
    start "$1"
    "${clients_on[@]}" "$work/many_clients" "$server" "$port" /all "$size" "$3" "$4" "$seconds" "$5" |
        tee "$work/line" | awk -v name="$2" -v which="${1/,/, sendfile }" -v small="$(($3 > 0 && $3 < 1000))" '{
            printf "%-30s %-20s %9.0f %9.1f %9.1f %9.1f %8.1f\n", name, which, small ? $1 / $3 : $2 / $3,
                small ? 1e6 * ($4 + $5) / ($1 ? $1 : 1) : 1e6 * ($4 + $5) / $2, $7, $8, $6 }'
    stop
    # The rate, the CPU milliseconds for a GB or microseconds for a request, and the memory.
    read -r rate cpu memory <<<"$(awk -v small="$([ $what = MB/s ] || echo 1)" '{
        printf "%.1f %.1f %.1f", small ? $1 / $3 : $2 / $3, 1e6 * ($4 + $5) / (small ? ($1 ? $1 : 1) : $2), $6 }' "$work/line")"
    if [ "$1" = station ]; then
        found[$2]="$rate $cpu $memory"
    else
        read -r our_rate our_cpu our_memory <<<"${found[$2]}"
        row "\`station\`, $2" "$what" "$our_rate" "${1/,/, sendfile }" "$rate"
        row "\`station\`, $2" "CPU $([ $what = MB/s ] && echo 'ms a GB' || echo 'us a request')" "$our_cpu" "${1/,/, sendfile }" "$cpu"
        [ "$4" -lt 1000 ] || row "the memory of \`station\`, $2" MB "$our_memory" "${1/,/, sendfile }" "$memory"
    fi
}

"$work/pages_made" "$bytes" 65024 >"$work/all" 2>"$work/err" || { cat "$work/err"; exit 1; }
size=$(stat -c %s "$work/all")
cp "$work/all" "$work/served"
printf '%-30s %-20s %9s %9s %9s %9s %8s\n' "" "" rate cpu middle worst memory
for which in station nginx,off nginx,on; do
    for count in 64 1000; do
        measure "$which" "$count x the file" 0 "$count" 0
        measure "$which" "$count x 1 MB" 1000000 "$count" 0
        measure "$which" "$count x 100 bytes" 100 "$count" 0
    done
    measure "$which" "60 x 1 MB beside 4 slow ones" 1000000 60 4
done
