# Gets the programs of others that a test wants. Where they can't be had the test says what it leaves out.

# has TOOL ..: whether all of them are there; the first one that isn't is named.
has() {
    local tool
    for tool in "$@"; do
        command -v "$tool" >"$work/which" || {
            echo "no $tool: left out"
            return 1
        }
    done
}

# needs TOOL .. -- PACKAGE ..: whether all of the tools are there, after the packages were installed if one wasn't. No
# server of theirs is begun by that.
needs() {
    local tools=()
    while [ "$1" != -- ]; do
        tools+=("$1")
        shift
    done
    shift
    has "${tools[@]}" >"$work/lacking" && return
    { apt-get update && RUNLEVEL=1 DEBIAN_FRONTEND=noninteractive apt-get install -y "$@"; } </dev/null >"$work/install" 2>&1 ||
        tail -n 5 "$work/install"
    has "${tools[@]}"
}
