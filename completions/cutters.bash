# Completes the words of cutters in bash: tools, options and files.

# _cutters_offer WORD..: offers those of the words that begin with what was typed. After `=` and `/` no space is put.
_cutters_offer() {
    mapfile -t COMPREPLY < <(compgen -W "$*" -- "$typed")
    case ${COMPREPLY[*]-} in
    *[=/]) compopt -o nospace 2>/dev/null ;;
    esac
}

# _cutters_options TOOL: sets its options, those with a value and those without one.
_cutters_options() {
    valued='' plain=''
    case $1 in
    head)
        valued='-n --lines -c --bytes'
        plain='-q --quiet --silent -v --verbose -z --zero-terminated --help --version'
        ;;
    tail)
        valued='-n --lines -c --bytes --looks -s --sleep-interval --pid --max-unchanged-stats'
        plain='-q --quiet --silent -v --verbose -z --zero-terminated -f --follow --follow= -F --retry --help --version'
        ;;
    split)
        valued='-l --lines -b --bytes -C --line-bytes -n --number -a --suffix-length -t --separator --additional-suffix'
        plain='-d --numeric-suffixes --numeric-suffixes= -x --hex-suffixes --hex-suffixes= -e --elide-empty-files -u --unbuffered --verbose --help --version'
        ;;
    csplit)
        valued='-f --prefix -n --digits -b --suffix-format'
        plain='-k --keep-files -s -q --quiet --silent -z --elide-empty-files --suppress-matched --help --version'
        ;;
    tee) plain='-a --append -p --output-error --output-error= --help --version' ;;
    esac
}

# _cutters_ended: whether `--` ended the options before this word, and isn't the value of an option itself.
_cutters_ended() {
    local at
    for ((at = 2; at < COMP_CWORD; at++)); do
        case " $valued " in
        *" ${COMP_WORDS[at]} "*) ((at++)) ;;
        *) [ "${COMP_WORDS[at]}" != -- ] || return 0 ;;
        esac
    done
    return 1
}

_cutters_files() {
    mapfile -t COMPREPLY < <(compgen -f -- "$typed")
    compopt -o filenames 2>/dev/null
}

_cutters() {
    local typed=${COMP_WORDS[COMP_CWORD]} before=${COMP_WORDS[COMP_CWORD - 1]} valued plain offered option
    COMPREPLY=()
    if [ "$COMP_CWORD" = 1 ]; then
        case $typed in
        -*) _cutters_offer --help --version ;;
        *) _cutters_offer head tail split csplit tee ;;
        esac
        return
    fi
    _cutters_options "${COMP_WORDS[1]}"
    if _cutters_ended; then
        _cutters_files
        return
    fi
    # An equals sign is a word of its own here, after its option.
    if [ "$typed" = = ]; then
        before+=$typed typed=''
    elif [ "$before" = = ]; then
        before=${COMP_WORDS[COMP_CWORD - 2]}=
    fi
    case $before in
    --follow=)
        _cutters_offer descriptor name
        return
        ;;
    --output-error=)
        _cutters_offer warn warn-nopipe exit exit-nopipe
        return
        ;;
    --numeric-suffixes= | --hex-suffixes=)
        _cutters_offer 0 1
        return
        ;;
    esac
    case " $valued " in
    *" ${before%=} "*)
        # Any other value is a count or a text, which nobody can guess.
        case ${COMP_WORDS[1]}${before%=} in
        split-n | split--number) _cutters_offer l/ r/ ;;
        esac
        return
        ;;
    esac
    case $typed in
    -*)
        offered=$plain
        for option in $valued; do
            case $option in
            --*) offered+=" $option=" ;;
            *) offered+=" $option" ;;
            esac
        done
        _cutters_offer "$offered"
        ;;
    *) _cutters_files ;;
    esac
}
complete -F _cutters cutters
