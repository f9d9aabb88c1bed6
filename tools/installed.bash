#!/bin/bash
# Runs the program that does what the first word asks for, with the words that it is given.
set -u
folder=$(dirname "$(readlink -f "$0")")/../lib/kudzuturret
. "$folder/programs.bash"

program_of "${1:-}"
say_at_terminal kudzuturret "$@"
exec "$folder/${program:-ogg_main}" "$@"
