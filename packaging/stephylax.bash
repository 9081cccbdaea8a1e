# Completion of the command stephylax for bash. The commands and the options are those that `stephylax --help` tells.

# The options in the lines of a command, and in the line on every command.
_stephylax_options() {
    awk -v command="$1" '
        /^$/ { its = 0 }
        /^  stephylax / { its = ($2 == command) }
        /^Every command/ { its = 1 }
        its { while (match($0, /--[a-z][a-z-]*/)) { print substr($0, RSTART, RLENGTH); $0 = substr($0, RSTART + RLENGTH) } }'
}

# The names of the planets that have a text or a published file.
_stephylax_names() {
    local command folder path name
    command=$(type -P "$1") || return
    folder=${STEPHYLAX_DATA:-$(dirname "$command")/../share/stephylax/vsop87d}
    for path in "$folder"/*.txt; do
        [[ -e $path ]] && basename "$path" .txt
    done
    for name in mercury venus earth mars jupiter saturn uranus neptune; do
        [[ -e $folder/VSOP87D.${name:0:3} && ! -e $folder/$name.txt ]] && echo "$name"
    done
}

# What the word becomes where a series stands: a name, or a file if it is a path or follows `text:`, `packed:` or `published:`. bash
# parts words at a colon, unless it is told not to.
_stephylax_series() { # COMMAND
    local word=${COMP_WORDS[COMP_CWORD]} before=${COMP_WORDS[COMP_CWORD - 1]} kind=
    if [[ $word == : ]]; then
        kind=$before word=
    elif [[ $before == : ]]; then
        kind=${COMP_WORDS[COMP_CWORD - 2]}
    fi
    case $kind:$word in
    text:* | packed:* | published:*) compgen -f -- "$word" ;;
    :text:* | :packed:* | :published:*) compgen -f -P "${word%%:*}:" -- "${word#*:}" ;;
    :*/*) compgen -f -- "$word" ;;
    :*) compgen -W "$(_stephylax_names "$1")" -- "$word" ;;
    esac
}

_stephylax() {
    local word=${COMP_WORDS[COMP_CWORD]} before=${COMP_WORDS[COMP_CWORD - 1]} words help
    COMPREPLY=()
    help=$("${COMP_WORDS[0]}" --help 2>/dev/null) || return
    if ((COMP_CWORD == 1)); then
        words=$(awk '/^  stephylax / { print $2 }' <<<"$help")
        mapfile -t COMPREPLY < <(compgen -W "$words --help" -- "$word" | sort -u)
        return
    fi
    case $before in
    --days | --minutes | --keep-out | --every | --t) return ;;
    --svg | --changes) mapfile -t COMPREPLY < <(compgen -f -- "$word") ;;
    --data) mapfile -t COMPREPLY < <(compgen -d -- "$word") ;;
    *)
        if [[ $word == -* ]]; then
            words=$(_stephylax_options "${COMP_WORDS[1]}" <<<"$help")
            mapfile -t COMPREPLY < <(compgen -W "$words" -- "$word" | sort -u)
        elif [[ ${COMP_WORDS[1]} == *pack || ${COMP_WORDS[1]} == mend ]]; then
            mapfile -t COMPREPLY < <(compgen -f -- "${word#:}") # the colon of `published:` is a word
        else
            mapfile -t COMPREPLY < <(_stephylax_series "${COMP_WORDS[0]}")
        fi
        ;;
    esac
}

complete -o filenames -F _stephylax stephylax
