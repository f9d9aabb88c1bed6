#!/usr/bin/env bash
# The faults of archives and stations go on with a sentence; `links`, `split`, `salvage`, `serve`, `live`, `record` and
# `mux` print their lines alone, for programs that read them.
. "$(dirname "$0")/../helpers/common.bash"

port=$(python3 "$here/asking.py" port)
cd "$work" || exit 1
pages "02 0 1 0 3 abc" "00 5 1 1 5 hello" "04 9 1 2 3 end" >whole
run archive radio.ogg <whole
cp "$work/radio.ogg" damaged.ogg
printf x | dd of=damaged.ogg bs=1 seek=60 conv=notrunc status=none
printf 'ID3\4' >other.mp3
printf hello >hello
mkdir folder
head -c 40 radio.ogg >torn.ogg
records 'begin([1]), put([(1, 5, b"hello")])' >feed

# says NAME FRONT SENTENCE: the last run has ended with this fault, and nothing but the sentence follows its front.
says() {
    check "$1: status $status" [ "$status" -eq 1 ]
    check "$1: $(tail -n 1 "$work/err")" [ "$(tail -n 1 "$work/err")" = "$2: $3" ]
}
# exactly NAME LINE: the same without a sentence.
exactly() {
    check "$1: status $status" [ "$status" -eq 1 ]
    check "$1: $(tail -n 1 "$work/err")" [ "$(tail -n 1 "$work/err")" = "$2" ]
}

run finish missing.ogg </dev/null
says "a file that isn't there" "fault file" "missing.ogg: no such file or folder"
run finish folder </dev/null
says "a folder for a file" "fault open 1 Disk" "folder can't be read, or not written"
run list radio.ogg </dev/null
says "a file for a folder" "fault file" "radio.ogg: it is no folder"
run cut missing/ </dev/null
says "a folder that isn't there" "fault file" "missing/: no such file or folder"
run archive missing/radio.ogg <whole
says "a file in a folder that isn't there" "fault file" "missing/radio.ogg: no such file or folder"
run archive radio.ogg/x <whole
says "a file in a file" "fault file" "radio.ogg/x: a part of this path is no folder"
run archive other.mp3 <whole
says "a file of another kind" "fault foreign" "other.mp3 holds something else than a recording"
run archive damaged.ogg <whole
says "a damaged file" "$(sed -n '$s/: .*//p' "$work/err")" "damaged.ogg is damaged at byte 31; archive NEW.ogg < damaged.ogg keeps what is good"
check "a damaged file: its fault" grep -q '^fault open 2 Page 31 4 Checksum: ' "$work/err"
run archive NEW.ogg <damaged.ogg
check "what is good of it is kept" [ "$status" -eq 0 ]
run archive radio.ogg <radio.ogg
says "a file into itself" "fault archive 1 Read" "radio.ogg is the input itself"
run archive new.ogg <folder
says "an input that can't be read" "fault archive 1 Read" "standard input can't be read"
run archive new.ogg <hello
says "no Ogg" "fault archive 4 NoPage" "no page of Ogg came on standard input"
run archive new.ogg </dev/null
check "nothing at all is no fault" [ "$status" -eq 0 ]
run verify missing.ogg </dev/null
says "nothing to verify" "fault file" "missing.ogg: no such file or folder"
run station missing/radio.ogg 127.0.0.1:0 </dev/null
says "a station without a folder" "fault file" "missing/radio.ogg: no such file or folder"
run station other.mp3 127.0.0.1:0 </dev/null
says "a station over another file" "fault foreign" "other.mp3 holds something else than a recording"
run station new.ogg nowhere </dev/null
says "no address" "fault net" "nowhere: this is no address, such as 127.0.0.1:8000"
run station new.ogg 192.0.2.1:8000 </dev/null
says "the address of another machine" "fault net" "192.0.2.1:8000: this machine hasn't this address"
"$program" station here.ogg "127.0.0.1:$port" </dev/null 2>told &
station=$!
python3 "$here/asking.py" wait "$port"
run station new.ogg "127.0.0.1:$port" </dev/null
says "an address that is taken" "fault net" "127.0.0.1:$port: another program listens there"
run archive here.ogg <whole
says "a file that is written" "fault locked" "here.ogg is written by another program"
kill "$station"
wait "$station" 2>/dev/null
if [ "$(id -u)" -ne 0 ]; then
    chmod a-r damaged.ogg
    run finish damaged.ogg </dev/null
    says "a file that may not be read" "fault file" "damaged.ogg: permission denied"
fi

# Lines that programs read.
run links missing.ogg </dev/null
exactly "links" "fault file"
run split missing.ogg 0 </dev/null
exactly "split" "fault file"
run salvage missing.ogg </dev/null
exactly "salvage" "fault file"
run serve missing.ogg 127.0.0.1:0 1 </dev/null
exactly "serve" "fault file"
run serve radio.ogg nowhere 1 </dev/null
exactly "serve without an address" "fault net"
run live missing/x.ogg 127.0.0.1:0 feed 1 </dev/null
exactly "live" "fault file"
run record missing/x.ogg <feed
exactly "record" "fault file"
run record damaged.ogg <feed
exactly "record over damage" "fault open 2 Page 31 4 Checksum"
run links damaged.ogg </dev/null
exactly "links of damage" "fault open 2 Page 31 4 Checksum"
run mux <hello
exactly "mux" "$(sed -n '$p' "$work/err" | grep -x 'fault feed [0-9] [A-Za-z]*')"

finish
