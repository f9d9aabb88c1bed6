#!/usr/bin/env bash
# The Debian package: what is in it runs where nothing of the repository is, each word has a page in the manual, and
# words, options and files are completed.
. "$(dirname "$0")/../helpers/common.bash"

if ! command -v dpkg-deb >/dev/null; then
    check "without dpkg-deb it says so" grep -q "dpkg-deb isn't here" <(python3 "$top/tools/package.py" "$work" 2>&1)
    finish
fi
package=$(DEBFULLNAME=Nobody DEBEMAIL=nobody@127.0.0.1 python3 "$top/tools/package.py" "$work/packages")
check "made: $package" [ -s "$package" ]
dpkg-deb -x "$package" "$work/root"
dpkg-deb --ctrl-tarfile "$package" | tar -xf - -C "$work" ./control ./md5sums
check "its sums" env -C "$work/root" md5sum --quiet -c "$work/md5sums"
check "needs the C library alone" grep -qE '^Depends: libc6 \(>= 2\.[0-9]+\)$' "$work/control"

# The programs run there, whichever word is asked for, and from another folder.
installed=$work/root/usr/bin/kudzuturret
cp "$top/examples/hello.oga" "$top/examples/hello.feed" "$work"
program=$installed
cd "$work" || exit 1
run archive radio.ogg <hello.oga
came "archive" 0 '' 'archived 1 1 91 0\n'
run mux --check <hello.feed
check "mux: status $status" [ "$status" -eq 0 ]
run station
check "station: status $status" [ "$status" -eq 2 ]
check "station: its usage" grep -q '^Usage: kudzuturret station ' err
ln -s "$installed" linked
program=$work/linked run links radio.ogg
check "by a link: status $status" [ "$status" -eq 0 ]
run --version
check "its version is the package's" [ "Version: $(sed 's/kudzuturret //' err)" = "$(grep '^Version: ' control)" ]

# A page of the manual for each word, which says what --help says of its options.
words=$(for name in $programs; do list=words_of_$name; echo "${!list}"; done)
for word in $words; do
    page=$work/root/usr/share/man/man1/kudzuturret-$word.1.gz
    check "$word: its page" [ -s "$page" ]
    gzip -dc "$page" >page
    run "$word" --help
    grep -oE -- '^ +(-h, )?--[a-z-]+' err | sed 's/.*--//; s/-/\\\\-/g' | while read -r option; do
        grep -q -- "\\\\-\\\\-$option" page || echo "$option"
    done >missing
    check "$word: its options" [ ! -s missing ]
done
gzip -dc "$work/root/usr/share/man/man1/kudzuturret.1.gz" >page
for word in $words; do check "$word: in the first page" grep -q "^\.B $word\$" page; done

# completed WORD ..: what bash completes of this command line, the last word of which is unfinished.
completed() {
    bash -c '. "$1"; shift; COMP_WORDS=("$@"); COMP_CWORD=$(($# - 1)); _kudzuturret; echo "${COMPREPLY[*]}"' - \
        "$work/root/usr/share/bash-completion/completions/kudzuturret" kudzuturret "$@"
}
check "completed: a word" [ "$(completed ar)" = archive ]
check "completed: each word" [ "$(completed '' | wc -w)" -ge "$(echo "$words" | wc -w)" ]
check "completed: an option" [ "$(completed archive --se)" = --seal ]
check "completed: no option of another word" [ -z "$(completed links --se)" ]
check "completed: files, by bash itself" [ -z "$(completed archive r)" ]
finish
