# Bash completion of unwrap: commands, options and their values, and index files.

_unwrap_reader='--encoding --utf8-passthru --strip-bom --bom-override --no-bom-sniffing --limit'

# The options of a command; those with a value are also in _unwrap_valued.
_unwrap_options() {
    case $1 in
    unwrap) echo "$_unwrap_reader --strategy --buffer --piece" ;;
    text) echo "$_unwrap_reader --buffer --piece" ;;
    qp-encode) echo '--binary --line --limit' ;;
    qp-decode) echo '--strict --line --limit' ;;
    esac
}

_unwrap_commands='unwrap text qp-encode qp-decode make'
_unwrap_valued='--encoding --limit --strategy --buffer --piece --line'
_unwrap_strategies='abort skip decode'

# The encodings of one byte, whose names are kinds of index files too.
_unwrap_single='ibm866 iso-8859-2 iso-8859-4 iso-8859-5 iso-8859-7 iso-8859-8 iso-8859-13
    iso-8859-15 koi8-r koi8-u macintosh windows-874 windows-1250 windows-1251 windows-1253
    windows-1254 windows-1255 windows-1256 windows-1257 windows-1258'
_unwrap_encodings="utf-8 utf-16le utf-16be windows-1252 x-user-defined big5 euc-kr shift_jis euc-jp
    gbk gb18030 iso-2022-jp iso-8859-8-i $_unwrap_single"
_unwrap_kinds="big5 euc-kr jis0208 jis0212 gb18030 gb18030-ranges $_unwrap_single"

# The words that may follow, of a list.
_unwrap_some() {
    mapfile -t COMPREPLY < <(compgen -W "$1" -- "$2")
}

# The values of an option that has a list of them.
_unwrap_values() {
    case $1 in
    --encoding) _unwrap_some "$_unwrap_encodings" "$2" ;;
    --strategy) _unwrap_some "$_unwrap_strategies" "$2" ;;
    esac
}

_unwrap_files() {
    mapfile -t COMPREPLY < <(compgen -f -- "$1")
    compopt -o filenames 2>/dev/null
}

# The options of the command that aren't given yet, since none may be given twice.
_unwrap_left() {
    local option
    for option in $(_unwrap_options "$1"); do
        [[ " ${*:2} " == *" $option "* ]] || echo "$option"
    done
}

# The words before the cursor's without redirections and their files, one a line.
_unwrap_words() {
    local word is_file=
    for word in "${COMP_WORDS[@]:0:COMP_CWORD}"; do
        if [[ $word == *[\<\>]* ]]; then
            is_file=1
        elif [[ -n $is_file ]]; then
            is_file=
        else
            printf '%s\n' "$word"
        fi
    done
}

_unwrap() {
    local word=${COMP_WORDS[COMP_CWORD]} name=
    COMPREPLY=()
    # Behind < and > stands the name of a file, which bash completes itself.
    if [[ ${COMP_WORDS[COMP_CWORD - 1]}$word == *[\<\>]* ]]; then
        compopt -o default 2>/dev/null
        return
    fi
    local words before command
    mapfile -t words < <(_unwrap_words)
    before=${words[-1]} command=${words[1]:-}
    if ((${#words[@]} == 1)); then
        _unwrap_some "$_unwrap_commands" "$word"
        return
    fi
    # Bash cuts a word at each =, so `--name=value` and `KIND=FILE` are three words.
    if [[ $word == '=' ]]; then
        name=$before word=
    elif [[ $before == '=' ]]; then
        name=${words[-2]}
    elif [[ " $_unwrap_valued " == *" $before "* ]]; then
        name=$before
    fi
    if [[ $name == --* ]]; then
        _unwrap_values "$name" "$word"
    elif [[ -n $name ]]; then
        _unwrap_files "$word"
    elif [[ $word == -* ]]; then
        _unwrap_some "$(_unwrap_left "$command" "${words[@]:2}")" "$word"
    elif [[ $command == unwrap || $command == text ]]; then
        mapfile -t COMPREPLY < <(compgen -S = -W "$_unwrap_kinds" -- "$word")
        compopt -o nospace 2>/dev/null
    fi
}

complete -F _unwrap unwrap
