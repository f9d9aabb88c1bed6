# What the scripts of bench/ have in common: where the programs are, a folder that is gone at the end, as are the servers
# that a script began, and the rows of bench/RESULTS.md. Each row has a number of ours and that of a competitor.
set -u
here=$(cd "$(dirname "$0")" && pwd)
# Of `mux`, `record`, `serve` and `live`; other words have programs of their own.
program=${PROGRAM:-$here/../crates/ogg_main/out/ogg_main}
archive=${PROGRAM:-$here/../crates/ogg_archive/out/ogg_archive}
station=${PROGRAM:-$here/../crates/ogg_station/out/ogg_station}
reader=${READ_OGG:-$here/../crates/test_read/out/test_read}
work=$(mktemp -d "${TMPDIR:-/tmp}/$(basename "$0" .sh)-bench.XXXXXX")
# The process numbers of servers that run.
begun=()
stop() { [ ${#begun[@]} -eq 0 ] || { kill "${begun[@]}"; wait "${begun[@]}"; } 2>/dev/null; begun=(); }
trap 'stop; rm -rf "$work"' EXIT

# A port of 127.0.0.1 that is free.
free_port() { python3 -c 'import socket; s = socket.socket(); s.bind(("127.0.0.1", 0)); print(s.getsockname()[1])'; }

# built PROGRAM ..: ends the script if one of them isn't there.
built() {
    local it
    for it in "$@"; do
        [ -x "$it" ] || { echo "no program at $it: ./kudzuturret and ./check build it" >&2; exit 1; }
    done
}

# row NAME UNIT OURS COMPETITOR THEIRS: adds a row to the file that ROWS names, if it names one (bench/all.sh). More is
# better of a unit that ends in '/s', and less of any other.
row() {
    [ -z "${ROWS:-}" ] || (IFS=$'\t'; echo "$*" >>"$ROWS")
}

# shape_name SHAPE: what the packets of a feed are like (feeds.py).
shape_name() {
    case $1 in
    tiny) echo '100 bytes, one a put' ;;
    audio) echo '100 bytes, 50 a put' ;;
    streams) echo '400 bytes, 64 streams' ;;
    frames) echo '20 kB' ;;
    large) echo '1 MB' ;;
    esac
}
