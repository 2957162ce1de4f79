# Completion of mh for bash: commands, switches and what they take, folders, messages' names and sequences. The program tells its switches.

# The switches of a command, and behind each what it takes.
_mh_switches() {
    "${_mh_program:-mh}" --switches "$1" 2> /dev/null
}

# What the switch takes that this word is, in full or cut short; nothing where it is none, or several.
_mh_takes() {
    _mh_switches "$1" | awk -v word="$2" '$1 == word { whole = $0 } index($1, word) == 1 { found = $0; count++ } END { if (whole == "" && count == 1) whole = found; sub(/^[^ ]+ ?/, "", whole); print whole }'
}

_mh_directory() {
    local path
    path=$(sed -n 's/^[Pp][Aa][Tt][Hh]:[[:space:]]*//p' "$HOME/.mh_profile" 2> /dev/null | head -n 1)
    path=${path:-Mail}
    case $path in /*) echo "$path" ;; *) echo "$HOME/$path" ;; esac
}

_mh_folders() {
    (cd "$(_mh_directory)" 2> /dev/null && find . -mindepth 1 -maxdepth 3 -type d ! -path '*/.*' 2> /dev/null | sed 's|^\./|+|')
}

# The folder that the line names, else the current one.
_mh_folder() {
    local each
    for each in "$@"; do
        each=${each//\\/}
        case $each in +?*) echo "${each#+}" && return ;; esac
    done
    each=$(sed -n 's/^[Cc]urrent-[Ff]older:[[:space:]]*//p' "$(_mh_directory)/context" 2> /dev/null | head -n 1)
    echo "${each:-inbox}"
}

# The sequences of a folder, public and private.
_mh_sequences() {
    local mail
    mail=$(_mh_directory)
    sed -n 's/^\([A-Za-z][A-Za-z0-9]*\):.*/\1/p' "$mail/$1/.mh_sequences" 2> /dev/null | grep -vx cur
    awk -v end="-$1:" 'index($0, "atr-") == 1 && (at = index($0, end)) { print substr($0, 5, at - 5) }' "$mail/context" 2> /dev/null
}

# Offers those lines of the input that begin with the word. A blank in one is escaped, as it is in the word.
_mh_offer() {
    local begin=${1//\\/} line quoted
    while IFS= read -r line; do
        case $line in "$begin"*) printf -v quoted '%q' "$line" && COMPREPLY+=("$quoted") ;; esac
    done
}

_mh_files() {
    compopt -o filenames 2> /dev/null
    local line
    while IFS= read -r line; do COMPREPLY+=("$line"); done < <(compgen -f -- "$1")
}

_mh() {
    local word=${COMP_WORDS[COMP_CWORD]} before=${COMP_WORDS[COMP_CWORD - 1]} command=${COMP_WORDS[0]##*/} first=1 takes= others=() each
    local _mh_program=mh
    COMPREPLY=()
    if [ "$command" = mh ]; then
        _mh_program=${COMP_WORDS[0]/#\~/$HOME}
        [ "${COMP_WORDS[1]}" != --wait ] || first=3
        if [ "$first" = 3 ] && [ "$COMP_CWORD" = 2 ]; then return; fi
        command=${COMP_WORDS[first]}
        first=$((first + 1))
    fi
    if [ "$COMP_CWORD" -lt "$first" ]; then
        _mh_offer "$word" <<< "$(printf '%s\n' inc scan folder pick mark refile rmm anno sortm mhlist mhstore mhbuild help --help --version --wait)"
        return
    fi
    if [ "$command" = help ]; then
        _mh_offer "$word" <<< "$(printf '%s\n' inc scan folder pick mark refile rmm anno sortm mhlist mhstore mhbuild errors)"
        return
    fi
    if [ "$command" = mhbuild ]; then
        _mh_files "$word"
        return
    fi
    case $before in -?*) takes=$(_mh_takes "$command" "$before") ;; esac
    for each in "${!COMP_WORDS[@]}"; do
        if [ "$each" -ge "$first" ] && [ "$each" != "$COMP_CWORD" ]; then others+=("${COMP_WORDS[each]}"); fi
    done
    case $takes in
        '') ;;
        nothing) return ;;
        files) _mh_files "$word" && return ;;
        folders) _mh_offer "$word" < <(_mh_folders) && return ;;
        sequences) _mh_offer "$word" < <(_mh_sequences "$(_mh_folder "${others[@]}")") && return ;;
        *) _mh_offer "$word" <<< "${takes// /$'\n'}" && return ;;
    esac
    case $word in
        -*) _mh_offer "$word" < <(_mh_switches "$command" | cut -d ' ' -f 1) ;;
        +*) _mh_offer "$word" < <(_mh_folders) ;;
        *) _mh_offer "$word" < <(printf '%s\n' all first last cur prev next && _mh_sequences "$(_mh_folder "${others[@]}")") ;;
    esac
}

complete -F _mh mh
# Links to the program by the names of its commands. bash reads this file at the first word of one too, where a link of its name leads here.
for _mh_name in inc scan folder pick mark refile rmm anno sortm mhlist mhstore mhbuild; do
    if [ -n "$(type -P "$_mh_name")" ] && [ "$(readlink -f "$(type -P "$_mh_name")")" = "$(readlink -f "$(type -P mh)")" ]; then complete -F _mh "$_mh_name"; fi
done
unset _mh_name
