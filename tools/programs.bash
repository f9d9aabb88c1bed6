# The programs, and the words that each of them answers. Words that none has are answered by any of them.
programs="ogg_archive ogg_station ogg_main"
words_of_ogg_archive="archive cut feed finish lines links list packets salvage split verify"
words_of_ogg_station="station"
words_of_ogg_main="live mux record serve"

# program_of WORD: leaves the name of the program in `program`, or nothing.
program_of() {
    local words
    for program in $programs; do
        words=words_of_$program
        case " ${!words} " in *" $1 "*) return ;; esac
    done
    program=
}

say() { echo "kudzuturret: $*" >&2; }

# say_at_terminal COMMAND WORD ..: at a terminal, says where the input comes from, and where the output goes. COMMAND is
# what is typed to run the program.
say_at_terminal() {
    local command=$1
    shift
    case "${1:-} $* " in
    *" --help "* | *" -h "*) ;;
    "mux "* | "record "*)
        [ ! -t 0 ] || say "a feed is read from the keyboard; examples/feed.py makes one from lines of text"
        ;;
    "lines "*)
        [ ! -t 0 ] || say "lines are read from the keyboard; Control-D ends them"
        ;;
    "feed "*)
        [ ! -t 0 ] || say "an Ogg stream is read from the keyboard; '< FILE.ogg' reads a file"
        [ ! -t 1 ] || say "a feed goes to the screen; '| $command record FILE' records it"
        ;;
    esac
    case "${1:-} $* " in
    *" --check "* | *" --help "* | *" -h "*) ;;
    "mux "* | "split "* | "finish "*)
        [ ! -t 1 ] || say "pages go to the screen; '> FILE' puts them into a file"
        ;;
    esac
}
