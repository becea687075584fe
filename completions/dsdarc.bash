# Completes the arguments of dsdarc in bash: its commands, the names of forms, and files by what a command reads. Where
# a filter is named, the ready ones are found by the fronts of their names too, and rates and widths by their first
# figures. bin/install installs this as share/bash-completion/completions/dsdarc; from a clone it is read by `source
# completions/dsdarc.bash`. The commands of scripts, as dsdarc-fade, have bash's own completion of files. shellcheck
# shell=bash

# The folder of the ready filters, in the clone or the installation that this file belongs to.
_dsdarc_filters=$(
    here=${BASH_SOURCE[0]%/*}
    [ "$here" != "${BASH_SOURCE[0]}" ] || here=.
    cd "$here/../filters" 2>/dev/null || cd "$here/../../dsdarc/filters" 2>/dev/null && pwd
)

# Adds names, each a line of standard input. One that begins with - would be no name to the program.
_dsdarc_add() {
    local name
    while IFS= read -r name; do
        case "$name" in -?*) name="./$name" ;; esac
        COMPREPLY+=("$name")
    done
}

# Adds the files whose names end so, and all folders.
_dsdarc_files() {
    local ending
    for ending; do
        _dsdarc_add < <(compgen -f -X "!*.$ending" -- "$cur")
    done
    _dsdarc_add < <(compgen -d -- "$cur")
}

# Adds standard input or output. Before the first letter it is left out where one name alone fits, which is completed
# at once then.
_dsdarc_stream() {
    case "$cur:${#COMPREPLY[@]}" in
        -:* | :[!01]*) COMPREPLY+=(-) ;;
    esac
}

# Adds the rates and widths that the index of the ready filters has.
_dsdarc_wishes() {
    local rates factor width rate
    while read -r _ rates factor width _; do
        for rate in ${rates//,/ }; do printf '%s\n' "$((rate / factor))/$width"; done
    done < <(grep -v '^#' "$_dsdarc_filters/index.txt" 2>/dev/null) | sort -u
}

_dsdarc_project() {
    local path
    if [ "$1" = play ]; then
        case "$cur" in [1-9]*) _dsdarc_words "$(_dsdarc_wishes)" ;; esac
    fi
    _dsdarc_files '[tT][oO][mM][lL]'
    if [ "$1" = play ] && [ -n "$_dsdarc_filters" ]; then
        for path in "$_dsdarc_filters/$cur"*.toml; do
            if [ -f "$path" ]; then COMPREPLY+=("$path"); fi
        done
    fi
    _dsdarc_stream
}

_dsdarc_words() {
    local word
    while IFS= read -r word; do COMPREPLY+=("$word"); done < <(compgen -W "$*" -- "$cur")
}

_dsdarc() {
    local cur=${COMP_WORDS[COMP_CWORD]} first=1
    # The option that asks to explain comes before the command.
    if [ "${COMP_WORDS[1]-}" = --explain ] && [ "$COMP_CWORD" -gt 1 ]; then first=2; fi
    local command=${COMP_WORDS[first]-} place=$((COMP_CWORD - first + 1))
    COMPREPLY=()
    if [ "$place" -eq 1 ]; then
        compopt +o filenames +o default 2>/dev/null
        _dsdarc_words info convert play edit check nulltest sum
        if [ "$first" -eq 1 ]; then _dsdarc_words --explain --help --version; fi
        return
    fi
    # The options of play and convert come before the names, and a place or a file is an argument of its own. Bash splits
    # words at : and @.
    local next=$((first + 1)) width dop=''
    if [ "$command" = play ] || [ "$command" = convert ]; then
        while [ "$next" -lt "$COMP_CWORD" ]; do
            width=2
            case "$command ${COMP_WORDS[next]}" in
                "play --from" | "play --to" | "play --previous" | "play --next") ;;
                "play --plus6" | "play --rf64" | "convert --tag" | *" --speakers") width=1 ;;
                *" --dop") width=1 dop=yes ;;
                *) break ;;
            esac
            if [ "$width" -eq 2 ] && [ "${COMP_WORDS[next + 1]-}" = @ ]; then width=3; fi
            while [ "${COMP_WORDS[next + width]-}" = : ]; do width=$((width + 2)); done
            next=$((next + width)) place=$((place - width))
        done
        if [ "$next" -gt "$COMP_CWORD" ]; then
            case "${COMP_WORDS[COMP_CWORD - 1]}" in
                --previous | --next) _dsdarc_files '[dD][fF][fF]' '[dD][sS][fF]' ;;
                *) compopt +o default 2>/dev/null ;;
            esac
            return
        fi
        case "$cur" in
            --*)
                compopt +o filenames +o default 2>/dev/null
                if [ "$command" = play ]; then _dsdarc_words --from --to --previous --next --rf64 --plus6; fi
                if [ "$command" = convert ]; then _dsdarc_words --tag; fi
                _dsdarc_words --speakers --dop
                return
                ;;
        esac
    fi
    # The option of info is offered once it is begun, as - is standard input. After it any number of files may follow.
    case "$command:$place:$cur:${COMP_WORDS[next]}" in
        info:2:--*) compopt +o filenames 2>/dev/null; _dsdarc_words --json; return ;;
        info:*:--json) [ "$place" -eq 2 ] || place=2 ;;
    esac
    # With --dop play has no project, and convert reads WAVE files.
    if [ "$command$dop" = playyes ]; then place=$((place + 1)); fi
    case "$command:$place" in
        convert:2 | edit:2) compopt +o filenames 2>/dev/null; _dsdarc_words dsdiff dsf dsf8 ;;
        play:2 | edit:3 | check:2 | nulltest:2) _dsdarc_project "$command" ;;
        convert:3)
            if [ -n "$dop" ]; then _dsdarc_files '[wW][aA][vV]'; else _dsdarc_files '[dD][fF][fF]' '[dD][sS][fF]'; fi
            _dsdarc_stream
            ;;
        info:2 | play:3 | check:3 | nulltest:3)
            _dsdarc_files '[dD][fF][fF]' '[dD][sS][fF]'
            _dsdarc_stream
            ;;
        sum:*)
            case "$place:$cur:${COMP_WORDS[next]}" in
                2:*) _dsdarc_words --check -r ;;
                3:-*:--check) _dsdarc_words -r; return ;;
                3:-*:-r) _dsdarc_words --check; return ;;
            esac
            case "$place:${COMP_WORDS[next]}" in
                2:*) _dsdarc_files '[dD][fF][fF]' '[dD][sS][fF]' ;;
                *:--check | *:-r) _dsdarc_add < <(compgen -f -- "$cur") ;;
                *) _dsdarc_files '[dD][fF][fF]' '[dD][sS][fF]' ;;
            esac
            ;;
        convert:4 | play:4 | edit:4 | edit:5 | check:4)
            _dsdarc_add < <(compgen -f -- "$cur")
            _dsdarc_stream
            ;;
        *) compopt +o default 2>/dev/null ;;
    esac
}

complete -o filenames -o default -F _dsdarc dsdarc
