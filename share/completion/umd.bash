# Completion of umd for bash. Its words are those that `umd --help` and `umd SUBCOMMAND --help` list: the program that is being typed prints them, so that
# they are its own. Units are those that the manager at the socket knows.

_umd_checkout=${BASH_SOURCE[0]%/*}/../.. # where this stands in a checkout of the repository

# _umd_ask WORDS..: what the program says. In a checkout, where no umd is installed, one that was built there answers.
_umd_ask() {
    local program=${COMP_WORDS[0]/#\~/$HOME} built
    if ! type -P "$program" >/dev/null; then
        for built in "$_umd_checkout"/{crates/umd/out,out/unproved}/umd; do
            if [ -x "$built" ]; then program=$built && break; fi
        done
    fi
    "$program" "$@" </dev/null 2>/dev/null
}

# _umd_offer WORD..: those that begin as the word being typed
_umd_offer() {
    COMPREPLY+=($(compgen -W "$*" -- "$word"))
}

# _umd_offer_files: files and folders, as readline shows them
_umd_offer_files() {
    compopt -o filenames 2>/dev/null
    COMPREPLY+=($(compgen -f -- "$word"))
}

# _umd_options HELP: the options that a help lists; where it lists none, those of its usage
_umd_options() {
    local listed
    listed=$(sed -n '/^Options:/,/^$/s/^ *\(-[a-zA-Z], \)\{0,1\}\(-[a-zA-Z-]*\).*/\2/p' <<<"$1")
    echo "${listed:-$(sed -n 's/^Usage://;/^ *umd /p' <<<"$1" | grep -o -e '--[a-z][a-z-]*' | sort -u)}"
}

# _umd_value HELP OPTION: what stands for the option's value in a help, as PATH; nothing where it has none
_umd_value() {
    sed -n "/^Options:/,/^\$/s/^ *\(-[a-zA-Z], \)\{0,1\}$2 <\([A-Z]*\)>.*/\2/p" <<<"$1"
}

# _umd_fields HELP VERB: what stands for the verb's arguments, in their order
_umd_fields() {
    sed -n "s/^  $2 //p" <<<"$1" | sed 's/\[--[^]]*\]//g;s/<* FILE$//' | grep -o '[a-z]*' # a word without brackets each
}

# _umd_units: the units that the manager at the socket in hand knows
_umd_units() {
    local socket=$UMD_SOCKET place
    for ((place = 2; place < COMP_CWORD; place++)); do
        if [ "${COMP_WORDS[place]}" = --socket ]; then socket=${COMP_WORDS[place + 1]}; fi
    done
    if [ -S "$socket" ]; then _umd_ask ctl --socket "$socket" --timeout 2 list-units | grep -o '\["[^"]*"' | cut -d '"' -f 2; fi
}

# _umd_offer_value KIND: what may stand for this in a help
_umd_offer_value() {
    case $1 in
    PATH | FILE | DIR | OUT | dir) _umd_offer_files ;;
    UNIT | unit) _umd_offer "$(_umd_units)" ;;
    MODE) _umd_offer fail replace ;;
    path) _umd_offer etc/ run/ lib/ && compopt -o nospace 2>/dev/null ;;
    CODE | WORD) _umd_offer E{1..22} ;;
    esac
}

# _umd_plain HELP: the words that are typed after the subcommand and before the one in hand, without options and their values
_umd_plain() {
    local place
    for ((place = 2; place < COMP_CWORD; place++)); do
        case ${COMP_WORDS[place]} in
        -*) if [ -n "$(_umd_value "$1" "${COMP_WORDS[place]}")" ]; then place=$((place + 1)); fi ;;
        *) echo "${COMP_WORDS[place]}" ;;
        esac
    done
}

# _umd_offer_argument HELP: a verb or its next field, or what the usage names last
_umd_offer_argument() {
    local typed fields
    typed=($(_umd_plain "$1"))
    if ! grep -q '^Verbs' <<<"$1"; then
        _umd_offer_value "$(sed -n '1,/^$/d;/^Usage:/s/.*[[<]\([A-Z]*\)[]>.]*$/\1/p' <<<"$1")"
    elif [ ${#typed[@]} = 0 ]; then
        _umd_offer "$(sed -n '/^Verbs/,$s/^  \([a-z-]*\).*/\1/p' <<<"$1")"
    else
        fields=($(_umd_fields "$1" "${typed[0]}"))
        _umd_offer_value "${fields[${#typed[@]} - 1]}"
    fi
}

_umd() {
    local word=${COMP_WORDS[COMP_CWORD]} help value
    COMPREPLY=()
    if [ "$COMP_CWORD" -le 1 ]; then
        help=$(_umd_ask --help)
        _umd_offer "$(sed -n '/^Subcommands/,/^$/s/^  umd \([a-z][a-z-]*\) .*/\1/p' <<<"$help")" "$(_umd_options "$help")"
        return
    fi
    help=$(_umd_ask "${COMP_WORDS[1]}" --help)
    value=$(_umd_value "$help" "${COMP_WORDS[COMP_CWORD - 1]}")
    if [ -n "$value" ]; then
        _umd_offer_value "$value"
    elif [ "${word:0:1}" = - ]; then
        _umd_offer "$(_umd_options "$help")"
    else
        _umd_offer_argument "$help"
    fi
}

complete -F _umd umd
