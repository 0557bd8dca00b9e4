# SPDX-License-Identifier: MIT OR Apache-2.0
# shellcheck shell=bash
# Sourced by a script with its arguments, or by usage.py for one. It answers `--help` with the text at
# the script's head, and exits with 2 after arguments that none of the head's usages allows.
#
# A usage is a line `usage: NAME WORD..`, or one below it that begins with the name; a line below that
# begins with `[` goes on. Two spaces end it. A word in capitals stands for an argument, and a smaller one
# for itself; such a one right after the name is the first argument. Brackets are around what may be left
# out, and after `..` there may be more. `|` is between alternatives: of options only one may be given. A
# word in capitals right after an option is its value. OPTION is any option.

# Whether a usage allows the arguments.
usage_allows() {
    local words word required=() depth=0 option='' slot='' least=0 most=0 other='' options=' ' valued=' ' literals=' '
    local either=() group='' bar='' before
    word=${1//\[/ [ } word=${word//\]/ ] }
    read -ra words <<< "${word//|/ | }"
    shift
    [[ ${words[1]-} != [a-z]* || ${words[2]-} == '|' || ${1-} == "${words[1]}" ]] || return 1
    for word in "${words[@]:1}"; do
        case $word in
        '[') depth=$((depth + 1)) option='' slot='' ;;
        ']') depth=$((depth - 1)) option='' slot='' ;;
        '|') option='' bar=1; [ -z "$slot" ] || slot=alternative ;;
        OPTION) other=1 most=1000 options+='.. ' ;;
        ..) most=1000 ;;
        -*)
            option=$word options+="$word " slot=''
            [ -n "$bar" ] || group=''
            for before in $group; do either+=("$before $word"); done
            group+=" $word" bar=''
            [ $depth -gt 0 ] || required+=("$word")
            ;;
        *)
            if [ -n "$option" ] && [[ $word != *.. ]]; then
                valued+="$option "
                option=''
                continue
            fi
            if [ "$slot" != alternative ]; then
                most=$((most + 1))
                [ $depth -gt 0 ] || least=$((least + 1))
            fi
            slot=1
            case $word in *..) most=1000 ;; esac
            case $word in [A-Z]*) other=1 ;; *) literals+="${word%..} " ;; esac
            ;;
        esac
    done
    local argument value='' count=0
    for argument; do
        if [ -n "$value" ]; then
            value=''
            continue
        fi
        case $argument in
        -?*)
            [[ $options == *" ${argument%%=*} "* || $options == *' .. '* ]] || return 1
            [[ $valued != *" $argument "* ]] || value=1
            ;;
        *)
            count=$((count + 1))
            [[ -n $other || $literals == *" $argument "* ]] || return 1
            ;;
        esac
    done
    for word in "${required[@]}"; do
        [[ " $* " == *" $word"[\ =]* ]] || return 1
    done
    for word in "${either[@]}"; do
        [[ " $* " != *" ${word% *}"[\ =]* || " $* " != *" ${word#* }"[\ =]* ]] || return 1
    done
    [ -z "$value" ] && [ $count -ge $least ] && [ $count -le $most ]
}

usage_check() {
    local language line start head='' usages=()
    {
        IFS= read -r language
        IFS= read -r line
        while IFS= read -r line; do
            case $language in
            *python*) [ "$line" != '"""' ] || break; line=${line#'"""'} ;;
            *) [[ $line == '#'* ]] || break; line=${line#'#'} line=${line# } ;;
            esac
            head+=${line%'"""'}$'\n'
            start=${line#usage:} start=${start#"${start%%[! ]*}"}
            if [ ${#usages[@]} -gt 0 ] && [[ $start == '['* ]]; then
                usages[-1]+=" $start"
            elif [[ ${start%% *} == ?(*/)"${0##*/}"?('"""') && $line == @(usage: |       )* ]]; then
                usages+=("${start%'"""'}")
            fi
            [[ $language != *python* || $line != *'"""' ]] || break
        done
    } < "$0"
    for line; do
        if [ "$line" = --help ]; then
            printf '%s' "$head"
            [[ $head == *$'\nstatus: '* ]] ||
                echo 'status: 0, 2 after wrong arguments, or another where something fails'
            exit 0
        fi
    done
    [ ${#usages[@]} -gt 0 ] || return 0
    for line in "${usages[@]}"; do
        ! usage_allows "${line%%  *}" "$@" || return 0
    done
    line=$(printf '       %s\n' "${usages[@]}")
    printf 'usage: %s\n' "${line#       }" >&2
    exit 2
}
usage_check "$@"
