#!/usr/bin/env bash
# Each command in docs/OPERATION.md's table of things to try works as it stands there, in a folder that has what a clone
# has in which the programs are built; the commands that install packages aren't run. README.md's first lines print what
# stands there.
. "$(dirname "$0")/../helpers/common.bash"

# The launcher is a copy, so that it finds the programs here, which are newer than their sources.
mkdir -p "$work/clone"
cd "$work/clone" || exit 1
for name in check examples tests bench tools crates.txt; do ln -s "$top/$name" "$name"; done
cp "$top/kudzuturret" .
for name in $programs; do
    mkdir -p "crates/$name/out"
    ln -s "$top/crates/$name/src" "crates/$name/src"
    ln -s "$top/crates/$name/out/$name" "crates/$name/out/$name"
done
# What an encoder of Opus begins with (RFC 7845, section 5), and a packet.
pages "02 0 1 0 19 OpusHead-----------" "00 0 1 1 16 OpusTags--------" "04 960 1 2 5 hello" >SONG.ogg
printf 'begin 1 abc\nput 1 5 hello\n' >MINE.txt

# The lines of README's set-up, and what it says that they print, which is all of the indented lines in that section.
python3 - "$top/README.md" "$work/set-up" "$work/printed" <<'END'
import sys
section = open(sys.argv[1]).read().split("\n## Set-up\n")[1].split("\n## ")[0]
commands, printed = [block for block in section.split("\n\n") if block.lstrip("\n").startswith("    ")]
for path, block in zip(sys.argv[2:], (commands, printed)):
    with open(path, "w") as file:
        file.writelines(line.removeprefix("    ") + "\n" for line in block.strip("\n").split("\n"))
END
while read -r line; do
    timeout 60 bash -c "$line" </dev/null >>"$work/found" 2>&1
    check "README: $line" [ $? -eq 0 ]
done <"$work/set-up"
check "README has three lines of set-up" [ "$(wc -l <"$work/set-up")" -eq 3 ]
check "they print what README says" diff "$work/printed" "$work/found"
rm -f hello.ogg radio.ogg

# The code in the first column of the table, a line each: a row may have several commands.
python3 - "$top/docs/OPERATION.md" >"$work/commands" <<'END'
import re, sys
rows = re.findall(r"(?m)^\| (.*?[^\\]) \| ", open(sys.argv[1]).read().split("| Try | It shows |")[1].split("\n## ")[0])
print(*(code.replace("\\|", "|") for row in rows for code in re.findall("`([^`]*)`", row)), sep="\n")
END

ran=0
while read -r line; do
    case $line in
        './check --media' | bench/*) check "$line is there" [ -x "${line%% *}" ] ;;
        *)
            timeout 60 bash -c "$line" >"$work/out" 2>"$work/err"
            status=$?
            check "$line: status $status, $(tail -n 1 "$work/err")" [ "$status" -eq 0 ]
            [[ $line != *'> '* ]] || check "$line: it makes a file" [ -s "${line##*> }" ]
            ran=$((ran + 1))
            ;;
    esac
done <"$work/commands"
check "commands were run: $ran" [ "$ran" -ge 8 ]

finish
