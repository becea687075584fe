# What the scripts of this folder measure with; they `source` it.
# shellcheck shell=bash

# Ends the script with one line where a value is no whole number above 0.
whole() {
    case "$2" in
        '' | 0* | *[!0-9]*)
            echo "$(basename "$0"): $1 has to be a whole number above 0, not \"$2\"" >&2
            exit 1
            ;;
    esac
}

# The time of a command, in milliseconds.
once() {
    local begin
    begin="$(date +%s%N)"
    "$@" >/dev/null
    echo "$((($(date +%s%N) - begin) / 1000000))"
}

# The least time so far, 0 before the first, and the next one: the least of both.
least() { if [ "$1" -eq 0 ] || [ "$2" -lt "$1" ]; then echo "$2"; else echo "$1"; fi; }

# The least time of seven runs of a command.
least_of_seven() {
    local best=0
    for _ in 1 2 3 4 5 6 7; do best="$(least "$best" "$(once "$@")")"; done
    echo "$best"
}

# The ratio of two times, with two digits or that many after the point.
ratio() { awk -v a="$1" -v b="$2" "BEGIN { printf \"%.${3:-2}f\", a / (b > 0 ? b : 1) }"; }
