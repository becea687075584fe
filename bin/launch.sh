# What bin/dsdarc (bash) and the installed launcher (sh) both do; they read this file.
#
#   answer_alone FOLDER FILTERS MANUAL ARGUMENT..
#
# answers the arguments that need no program, and ends this shell; for others it does nothing. FOLDER holds docs/ and
# VERSION. The usage and the version go to standard output. `help`, `-h` and no arguments are usage errors, as for the
# program: its fault comes first, on standard error, and then the usage. That names the filters below FILTERS, and the
# manual as MANUAL.
#
#   run_child PROGRAM ARGUMENT..
#
# runs the program as a child, so that a signal leaves nothing over, and ends this shell with its status. HUP, INT,
# QUIT and TERM end the program too. What it was writing is then removed, and the shell ends by the same signal (status
# 128 + n), so that whoever called it stops too.
#
# If `play` has a rate and width in place of PROJECT, such as 88200/24, and no file has this name, the program gets the
# ready filter that plays IN to it. Of 88200/24,96000/24 this is the first that exists; with --plus6 it is the one that
# is 6 dB louder. --plus6 and --explain may then be anywhere after `play`. IN is read first, so it must not be a pipe.
#
# `sum -r`, `info --json` and `convert --tag` are done by scripts in the folders beside docs/, which run the program.
# shellcheck shell=sh

print_usage() {
    while IFS= read -r usage_line; do
        case "$usage_line" in
            *filters/*) usage_line="${usage_line%%filters/*}$usage_filters/${usage_line#*filters/}" ;;
            *"man docs/dsdarc.1"*) usage_line="${usage_line%docs/dsdarc.1*}$usage_manual" ;;
        esac
        printf '%s\n' "$usage_line" || return
    done <"$usage_folder/docs/usage.txt"
}

answer_alone() {
    usage_folder="$1" usage_filters="$2" usage_manual="$3"
    shift 3
    case "$#:${1-}" in
        1:--help)
            print_usage
            exit
            ;;
        1:--version)
            echo "dsdarc $(cat "$usage_folder/VERSION")"
            exit
            ;;
        0: | 1:help | 1:-h)
            { echo "fault: WrongWords" && print_usage; } >&2 || true
            exit 3
            ;;
    esac
}

# Removes what a process of this number was writing beside files of these names, and half a line of progress.
remove_leftovers() {
    child_number="$1"
    shift
    for child_name; do
        child_path="$(readlink -f -- "$child_name")" || continue
        rm -f -- "${child_path%/*}"/.*.dsdarc-"$child_number"-[0-9]* || true
    done
    if [ -t 2 ]; then printf '\r%30s\r' '' >&2; fi
}

# Ends the program if it has begun, and then this shell by the signal of this name.
end_by() {
    trap '' HUP INT QUIT TERM
    if [ -n "${!-}" ]; then
        # A child in the background ignores INT and QUIT.
        kill -s TERM "$!" 2>/dev/null || true
        wait "$!" 2>/dev/null || true
        remove_leftovers "$!" "$child_first" "$child_second"
    fi
    trap - "$1"
    kill -s "$1" $$
}

# Signals that end this shell end the program first.
trap_signals() {
    for child_name in HUP INT QUIT TERM; do
        # shellcheck disable=SC2064
        trap "end_by $child_name" "$child_name"
    done
}

# A number below ten that no open file has. It gets standard input, as a shell gives a child in the background none.
free_number() {
    child_input=9
    while [ -e "/dev/fd/$child_input" ] && [ "$child_input" -gt 3 ]; do child_input=$((child_input - 1)); done
}

# Whether an argument is RATE/BITS, or several of these with commas between them.
is_wish() {
    wish_rest="$1,"
    while [ -n "$wish_rest" ]; do
        wish_rate="${wish_rest%%[/,]*}" wish_one="${wish_rest%%,*}" wish_rest="${wish_rest#*,}"
        case "$wish_one" in
            0* | *[!0-9/]* | */*/* | */0*) return 1 ;;
            [1-9]*/[1-9] | [1-9]*/[1-9][0-9]) [ ${#wish_rate} -le 10 ] || return 1 ;;
            *) return 1 ;;
        esac
    done
}

# Whether the program's arguments play a file by a wish. It notes the place of the wish among them, the name of IN, and
# the places of arguments that the program doesn't get.
plays_by_wish() {
    play_in='' play_wish='' play_at=0 play_names=0 play_place=0 play_before=program play_louder='' play_explains=''
    play_drops=' '
    for play_argument; do
        play_place=$((play_place + 1))
        case "$play_before $play_argument" in
            program\ *) play_before='' && continue ;;
            --from\ * | --to\ * | --previous\ * | --next\ *) play_before='' && continue ;;
            " --from" | " --to" | " --previous" | " --next") play_before="$play_argument" && continue ;;
            " --from="* | " --to="* | " --previous="* | " --next="* | " --speakers" | " --rf64" | " --dop")
                continue
                ;;
            " --") play_before=names && continue ;;
            " --plus6") play_louder=yes play_drops="$play_drops$play_place " && continue ;;
            " --explain") play_explains=--explain play_drops="$play_drops$play_place " && continue ;;
        esac
        case "$play_names:$play_argument" in
            0:play) ;;
            0:*) return 1 ;;
            1:*) play_wish="$play_argument" play_at="$play_place" ;;
            2:*) play_in="$play_argument" ;;
        esac
        play_names=$((play_names + 1))
    done
    [ "$play_names" -eq 4 ] && is_wish "$play_wish" && [ ! -e "$play_wish" ] && [ ! -L "$play_wish" ]
}

# Says why a file can't be played by a wish, in one line.
no_filter() {
    echo "dsdarc: $(printf '%s' "$play_in" | LC_ALL=C tr '[:cntrl:]' '?'): $*" >&2 || true
    exit 2
}

# Says that --plus6 goes only with a wish, as the program says what is wrong with its arguments.
not_louder() {
    {
        echo "fault: WrongWords"
        if [ -t 2 ] || [ -n "$play_explains" ]; then
            echo "--plus6 goes with a rate and width: usage: dsdarc play --plus6 RATE/BITS IN OUT"
        fi
    } >&2 || true
    exit 3
}

# The rate in the first bytes of a DSF or DSDIFF file, if it is there.
rate_in_head() {
    od -An -v -tu1 -N4096 -- "$1" 2>/dev/null | awk '
        BEGIN { for (i = 32; i < 127; i++) code[sprintf("%c", i)] = i }
        { for (i = 1; i <= NF; i++) byte[size++] = $i }
        function is(at, text,   i) {
            for (i = 1; i <= 4; i++) if (byte[at + i - 1] != code[substr(text, i, 1)]) return 0
            return at + 4 <= size
        }
        function number(at, count, step,   i, sum) {
            for (i = 0; i < count; i++) sum = sum * 256 + byte[at + i * step]
            return sum
        }
        END {
            if (is(0, "DSD ") && is(28, "fmt ") && size >= 60) print number(59, 4, -1)
            at = is(0, "FRM8") ? 16 : size
            while (at + 16 <= size) {
                if (is(at, "PROP") && is(at + 12, "SND ")) at += 16
                else if (is(at, "FS  ")) { print number(at + 12, 4, 1); exit }
                else { length_of = number(at + 4, 8, 1); at += 12 + length_of + length_of % 2 }
            }
        }'
}

# The name of the filter in an index that plays a rate to a wish, or why there is none, and status 1.
filter_in() {
    awk -v rate="$2" -v wishes="$3" -v louder="$4" '
        function sorted(list, count,   i, j, it, text) {
            for (i = 2; i <= count; i++)
                for (j = i; j > 1 && list[j] + 0 < list[j - 1] + 0; j--) { it = list[j]; list[j] = list[j - 1]; list[j - 1] = it }
            for (i = 1; i <= count; i++) text = text (i > 1 ? ", " : "") list[i]
            return text
        }
        /^#/ || NF != 5 { next }
        {
            count = split($2, rates, ",")
            for (i = 1; i <= count; i++) if (!(rates[i] in known)) { known[rates[i]]; all[++many] = rates[i] }
            for (i = 1; i <= count; i++)
                if (rates[i] == rate && ($5 > 0) == (louder != "")) { wish = rate / $3 "/" $4; name[wish] = $1; made[++there] = wish }
        }
        END {
            count = split(wishes, wished, ",")
            for (i = 1; i <= count; i++) if (wished[i] in name) { print name[wished[i]]; exit 0 }
            gsub(",", " or ", wishes)
            if (rate in known) print "no filter plays its " rate " Hz to " wishes "; there are " sorted(made, there)
            else print "no filter plays its " rate " Hz; there are some for " sorted(all, many)
            exit 1
        }' "$1"
}

# Ends with the status of `info`, and with what it printed. Its explanation gets the name that `play` gives the file.
refused_by_info() {
    printf '%s\n' "$play_said" | LC_ALL=C sed '2s/ (FILE)\([: ]\)/ (IN)\1/' >&2 || true
    exit "$1"
}

# Finds the filter by which a program plays a file to a wish, or ends this shell.
find_filter() {
    play_filters="$usage_folder/filters"
    # A name - is standard input, whatever file has it.
    if [ "$play_in" = - ] || [ -p "$play_in" ] || [ -c "$play_in" ]; then
        [ "$play_in" != - ] || play_in="standard input"
        no_filter "by a rate and width only a file can be played, as its own rate is looked at first;" \
            "name a filter, as $play_filters/dsd64-to-88200-24.toml"
    fi
    play_rate="$(rate_in_head "$play_in")" || play_rate=
    if [ -z "$play_rate" ]; then
        # The program says what is wrong with it. It explains where this shell's standard error is a terminal.
        play_asks="$play_explains"
        if [ -t 2 ]; then play_asks=--explain; fi
        play_said="$("$1" ${play_asks:+"$play_asks"} info "$play_in" 2>&1)" || refused_by_info "$?"
        play_rate="$(printf '%s\n' "$play_said" | sed -n 's/^rate //p')"
    fi
    if play_found="$(filter_in "$play_filters/index.txt" "$play_rate" "$play_wish" "$play_louder")"; then
        play_filter="$play_filters/$play_found"
    else
        no_filter "${play_found:-there is no list of filters}"
    fi
}

# The script that does what the program's arguments ask for, if one does.
script_for() {
    script_command='' script_found=''
    for script_word; do
        case "$script_command $script_word" in
            *" --") break ;;
            program\ --explain) ;;
            program\ sum | program\ info | program\ convert) script_command="$script_word" ;;
            program\ *) break ;;
            "sum -r") script_found=workflows/sum_folder ;;
            "info --json") script_found=tools/info_json ;;
            "convert --tag") script_found=workflows/convert_tag ;;
            *) script_command="${script_command:-program}" ;;
        esac
    done
    [ -n "$script_found" ]
}

run_child() {
    if script_for "$@"; then
        export DSDARC="$1"
        shift
        exec "$usage_folder/$script_found" "$@"
    fi
    if plays_by_wish "$@"; then
        find_filter "$1"
        play_place=0
        for play_argument; do
            shift
            play_place=$((play_place + 1))
            case "$play_drops" in *" $play_place "*) continue ;; esac
            if [ "$play_place" -eq "$play_at" ]; then play_argument="$play_filter"; fi
            set -- "$@" "$play_argument"
            if [ "$play_place" -eq 1 ] && [ -n "$play_explains" ]; then set -- "$@" "$play_explains"; fi
        done
    elif [ "$play_names" -gt 0 ] && [ -n "$play_louder" ]; then
        not_louder
    fi
    child_status=0
    # A command writes the files that its last two names name, or one of them; options may follow them.
    child_first='' child_second='' child_before=''
    for child_name; do
        case "$child_before:$child_name" in
            --from:* | --to:* | --previous:* | --next:* | *:--from | *:--to | *:--previous | *:--next) ;;
            *:--from=* | *:--to=* | *:--previous=* | *:--next=* | *:--speakers | *:--rf64 | *:--dop) ;;
            *) child_first="$child_second" child_second="$child_name" ;;
        esac
        child_before="$child_name"
    done
    trap_signals
    if [ -e /dev/fd/0 ]; then
        free_number
        eval "exec $child_input<&0"
        eval '"$@"' "<&$child_input $child_input<&- &"
        eval "exec $child_input<&-"
    else
        "$@" <&- &
    fi
    wait "$!" 2>/dev/null || child_status=$?
    if [ "$child_status" -gt 128 ]; then
        remove_leftovers "$!" "$child_first" "$child_second"
    fi
    exit "$child_status"
}
