# Completion of mh for fish: commands, switches and what they take, folders, messages' names and sequences. The program tells its switches.

# The switches of a command, and behind each what it takes.
function __mh_switches
    command mh --switches $argv[1] 2>/dev/null
end

# What the switch takes that this word is, in full or cut short; nothing where it is none, or several.
function __mh_takes
    __mh_switches $argv[1] | awk -v word="$argv[2]" '$1 == word { whole = $0 } index($1, word) == 1 { found = $0; count++ } END { if (whole == "" && count == 1) whole = found; sub(/^[^ ]+ ?/, "", whole); print whole }'
end

function __mh_directory
    set -l path (sed -n 's/^[Pp][Aa][Tt][Hh]:[[:space:]]*//p' $HOME/.mh_profile 2>/dev/null)
    set -q path[1]; or set path Mail
    string match -q '/*' -- $path[1]; and echo $path[1]; or echo $HOME/$path[1]
end

function __mh_folders
    set -l mail (__mh_directory)
    test -d $mail; and find $mail -mindepth 1 -maxdepth 3 -type d ! -path '*/.*' 2>/dev/null | string replace -- $mail/ +
end

# The folder that the line names, else the current one.
function __mh_folder
    set -l named (string match -r '^\+.+' -- $argv)
    set -q named[1]; and string sub -s 2 -- $named[1]; and return
    set -l folder (sed -n 's/^[Cc]urrent-[Ff]older:[[:space:]]*//p' (__mh_directory)/context 2>/dev/null)
    set -q folder[1]; and echo $folder[1]; or echo inbox
end

# The sequences of a folder, public and private.
function __mh_sequences
    set -l mail (__mh_directory)
    sed -n 's/^\([A-Za-z][A-Za-z0-9]*\):.*/\1/p' "$mail/$argv[1]/.mh_sequences" 2>/dev/null | string match -v cur
    awk -v end="-$argv[1]:" 'index($0, "atr-") == 1 && (at = index($0, end)) { print substr($0, 5, at - 5) }' $mail/context 2>/dev/null
end

# What may stand behind these words of a command, of which the last is cut off.
function __mh_of_command
    set -l name $argv[1]
    set -l others $argv[2..-1]
    test "$name" = mhbuild; and __fish_complete_path (commandline -ct); and return
    set -l takes
    set -q others[1]; and string match -q -- '-?*' $others[-1]; and set takes (__mh_takes $name $others[-1])
    switch "$takes"
        case ''
        case nothing
            return
        case files
            __fish_complete_path (commandline -ct)
            return
        case folders
            __mh_folders
            return
        case sequences
            __mh_sequences (__mh_folder $others)
            return
        case '*'
            string split ' ' -- $takes
            return
    end
    switch (commandline -ct)
        case '-*'
            __mh_switches $name | string replace -r ' .*' ''
        case '+*'
            __mh_folders
        case '*'
            string split ' ' -- "all first last cur prev next"
            __mh_sequences (__mh_folder $others)
    end
end

function __mh_words
    set -l before (commandline -opc)
    if test (string replace -r '.*/' '' -- $before[1]) != mh
        __mh_of_command (string replace -r '.*/' '' -- $before[1]) $before[2..-1]
        return
    end
    if test "$before[2]" = --wait
        set -q before[3]; or return
        set -e before[2..3]
    end
    if not set -q before[2]
        string split ' ' -- "inc scan folder pick mark refile rmm anno sortm mhlist mhstore mhbuild help --help --version --wait"
    else if test $before[2] = help
        string split ' ' -- "inc scan folder pick mark refile rmm anno sortm mhlist mhstore mhbuild errors"
    else
        __mh_of_command $before[2..-1]
    end
end

complete -c mh -f -a '(__mh_words)'
# Links to the program by the names of its commands.
for __mh_name in inc scan folder pick mark refile rmm anno sortm mhlist mhstore mhbuild
    if command -q $__mh_name; and test (realpath (command -s $__mh_name)) = (realpath (command -s mh))
        complete -c $__mh_name -f -a '(__mh_words)'
    end
end
set -e __mh_name
