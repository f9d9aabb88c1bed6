#!/usr/bin/env bash
# No crate cites what stands in another crate's proofs/: what two crates need is a definition or a law in the lower one's
# specs/. Each such import is printed.
. "$(dirname "$0")/../helpers/counting.bash"

# foreign FOLDER: the imports below this folder of crates, each with its file, that name another crate's proofs/
foreign() {
    grep -rnoE --include='*.antt' --include='*.rt' --exclude-dir=out 'Rattle\.[a-z0-9_]+\.proofs\.[A-Za-z0-9_.]+' "$1" |
        while IFS=: read -r file line path; do
            crate=${file#"$1"/}
            crate=${crate%%/*}
            named=${path#Rattle.}
            named=${named%%.*}
            [ -d "$1/$named" ] && [ "$named" != "$crate" ] && echo "$crate/${file#"$1/$crate/"}:$line: $path"
        done
}

# The count itself finds an import if there is one.
mkdir -p "$work/low" "$work/high/proofs"
echo 'use Rattle.low.proofs.Facts.{fact}' >"$work/high/proofs/Use.antt"
echo 'use Rattle.high.proofs.Own.{own}' >"$work/high/proofs/Own.antt"
foreign "$work" >"$work/found"
check "an import of another crate's proofs is found" is_text "$work/found" 'high/proofs/Use.antt:1: Rattle.low.proofs.Facts.\n'

foreign "$top/crates" >"$work/found"
check "no crate cites another crate's proofs" is_text "$work/found" ''

finish
