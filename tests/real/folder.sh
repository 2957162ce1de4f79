# Rows of `folder`, read by `run`: a folder is told, and becomes the current one, in a temporary directory.
home=$room/told
three "$home"
mkdir -p "$home/Mail/empty" "$home/Mail/a/b"
printf 'Subject: deep\n\n' > "$home/Mail/a/b/7"
printf 'todo: 2-3 9\n' > "$home/Mail/inbox/.mh_sequences"
row 'the folder of new mail, before any was named' "$home" 0 'inbox+ has 3 messages (1-3).\n' '' folder
same 'it becomes the current one' "$home/Mail/context" 'Current-Folder: inbox\n'
names 'who only looks takes no lock' "$home/Mail/inbox" '.mh_sequences\n1\n2\n3\n'
row 'a folder without messages' "$home" 0 'empty+ has no messages.\n' '' folder +empty
row 'one message, in a folder below a folder' "$home" 0 'a/b+ has 1 message (7-7).\n' '' folder +a/b
same 'the folder that was told is the current one' "$home/Mail/context" 'Current-Folder: a/b\n'
row 'the current folder' "$home" 0 'a/b+ has 1 message (7-7).\n' '' folder
row 'a folder above one has no messages' "$home" 0 'a+ has no messages.\n' '' folder +a
row 'a message becomes the current one' "$home" 0 'inbox+ has 3 messages (1-3); cur=2.\n' '' folder 2 +inbox
same 'its mark, beside a sequence without an absent number' "$home/Mail/inbox/.mh_sequences" 'cur: 2\ntodo: 2-3\n'
names 'what stands in the folder' "$home/Mail/inbox" '.mh_lock\n.mh_sequences\n1\n2\n3\n'
row 'it is told' "$home" 0 'inbox+ has 3 messages (1-3); cur=2.\n' '' folder
row 'the next one' "$home" 0 'inbox+ has 3 messages (1-3); cur=3.\n' '' folder next
row 'the least of a range' "$home" 0 'inbox+ has 3 messages (1-3); cur=1.\n' '' folder 1-2
row 'the least of a sequence' "$home" 0 'inbox+ has 3 messages (1-3); cur=2.\n' '' folder todo
row 'scan knows it' "$home" 0 '   2 m2\n' '' scan cur
row 'a message that is not there' "$home" 1 '' 'mh: no such message: 9\n' folder 9
row 'an empty range' "$home" 1 '' 'mh: no messages in range: 5-9\n' folder 5-9
row 'no such sequence' "$home" 1 '' 'mh: no messages in sequence: inbox\n' folder inbox
row 'a word that is no name' "$home" 1 '' 'mh: bad message name: 0\n' folder +empty 0
row 'a message of a folder without any' "$home" 1 '' 'mh: no messages in range: first\n' folder +empty first
same 'a refusal leaves the sequences' "$home/Mail/inbox/.mh_sequences" 'cur: 2\ntodo: 2-3\n'
same 'and the current folder' "$home/Mail/context" 'Current-Folder: inbox\n'
row 'two messages' "$home" 1 '' 'mh: unexpected word: 3\n' folder 1 3
row 'two folders' "$home" 1 '' 'mh: unexpected word: +a\n' folder +empty +a
row 'the earliest word that is too many' "$home" 1 '' 'mh: unexpected word: 2\n' folder +inbox 1 2 +a
row 'a switch of nmh' "$home" 1 '' 'mh: unknown switch: -push\n' folder -push
row 'a message beside -pack' "$home" 1 '' 'mh: unexpected word: 2\n' folder -pack 2
row 'the last of -pack and -nopack counts' "$home" 0 'inbox+ has 3 messages (1-3); cur=2.\n' '' folder -pack -nopack +inbox
row 'a wrong folder name' "$home" 1 '' 'mh: bad folder name: +a//b\n' folder +a//b
row 'a folder that is not there' "$home" 1 '' 'mh: no such folder: +none\n' folder +none
row 'nor with a message' "$home" 1 '' 'mh: no such folder: +none\n' folder +none 1
names 'no folder is made' "$home/Mail" '.mh_lock\na\ncontext\nempty\ninbox\n'
same 'the current folder stays' "$home/Mail/context" 'Current-Folder: inbox\n'
row 'the current message is removed' "$home" 0 '' '' rmm
row 'it is told all the same' "$home" 0 'inbox+ has 2 messages (1-3); cur=2.\n' '' folder
row 'and the one behind it is the next' "$home" 0 'inbox+ has 2 messages (1-3); cur=3.\n' '' folder next
row 'the others are removed' "$home" 0 '' '' rmm all
row 'a folder without messages tells no current one' "$home" 0 'inbox+ has no messages.\n' '' folder
printf 'Path: Mail\nInbox: empty\nfolder: 7\n' > "$home/.mh_profile"
row 'a word of the profile' "$home" 0 'a/b+ has 1 message (7-7); cur=7.\n' '' folder +a/b
row 'is one message too many beside another' "$home" 1 '' 'mh: unexpected word: last\n' folder last
printf 'Inbox: empty\n' > "$home/.mh_profile"
rm "$home/Mail/context"
row 'the folder of new mail by the profile' "$home" 0 'empty+ has no messages.\n' '' folder

home=$room/told_beside
three "$home"
flock "$home/Mail/inbox/.mh_lock" env -i HOME="$home" "$room/mh" folder +inbox > "$room/out.txt" 2> "$room/err.txt"
if [ $? = 0 ] && [ "$(cat "$room/out.txt")" = 'inbox+ has 3 messages (1-3).' ]; then passed=$((passed + 1)); else failed=$((failed + 1)); echo 'failed: a locked folder is told'; fi
flock "$home/Mail/inbox/.mh_lock" env -i HOME="$home" "$room/mh" folder 2 > "$room/out.txt" 2> "$room/err.txt"
if [ $? = 3 ] && [ ! -s "$room/out.txt" ] && [ "$(cat "$room/err.txt")" = 'mh: +inbox is locked' ]; then passed=$((passed + 1)); else failed=$((failed + 1)); echo 'failed: a current message in a locked folder'; fi
gone 'no mark in a locked folder' "$home/Mail/inbox/.mh_sequences"
mkdir "$home/Mail/other"
flock "$home/Mail/.mh_lock" env -i HOME="$home" "$room/mh" folder +other > "$room/out.txt" 2> "$room/err.txt"
if [ $? = 3 ] && [ "$(cat "$room/out.txt")" = 'other+ has no messages.' ] && [ "$(cat "$room/err.txt")" = 'mh: mail directory is locked' ]; then passed=$((passed + 1)); else failed=$((failed + 1)); echo 'failed: a locked mail directory at folder'; fi
same 'the current folder stays where the mail directory is locked' "$home/Mail/context" 'Current-Folder: inbox\n'
env -i HOME="$home" "$room/mh" folder 2 > /dev/full 2> "$room/err.txt"
if [ $? = 2 ] && [ "$(cat "$room/err.txt")" = 'mh: fault of output' ]; then passed=$((passed + 1)); else failed=$((failed + 1)); echo 'failed: a line that can not be written'; fi
same 'the current message was set before' "$home/Mail/inbox/.mh_sequences" 'cur: 2\n'

# Who only looks leaves what a dead run held aside; with a message it goes back first.
home=$room/told_held
mailbox "$home"
printf 'Subject: m1\n\n' > "$home/Mail/inbox/1"
printf 'Subject: m2\n\n' > "$home/Mail/inbox/.mh_held_00000000000000000000000000000005_2"
row 'a message that is held aside is not told' "$home" 0 'inbox+ has 1 message (1-1).\n' '' folder +inbox
names 'it stays aside' "$home/Mail/inbox" '.mh_held_00000000000000000000000000000005_2\n1\n'
row 'it goes back, and can be the current one' "$home" 0 'inbox+ has 2 messages (1-2); cur=2.\n' '' folder last
names 'at its number' "$home/Mail/inbox" '.mh_lock\n.mh_sequences\n1\n2\n'

# Messages are numbered anew: marks, and the current message, go along; a file keeps its time and its links.
home=$room/packed
mailbox "$home"
printf 'Subject: m3\n\n' > "$home/Mail/inbox/3"
printf 'Subject: m7\n\n' > "$home/Mail/inbox/7"
printf 'Subject: m9\n\n' > "$home/Mail/inbox/9"
touch -d '2001-02-03 04:05:06 UTC' "$home/Mail/inbox/9"
ln "$home/Mail/inbox/9" "$home/nine"
printf 'cur: 7\ntodo: 7 9\n' > "$home/Mail/inbox/.mh_sequences"
row 'its messages are numbered anew' "$home" 0 'inbox+ has 3 messages (1-3); cur=2.\n' '' folder -pack +inbox
same 'marks go along' "$home/Mail/inbox/.mh_sequences" 'cur: 2\ntodo: 2-3\n'
row 'they keep their order' "$home" 0 '   1 m3\n   2 m7\n   3 m9\n' '' scan
names 'nothing is held aside' "$home/Mail/inbox" '.mh_lock\n.mh_sequences\n1\n2\n3\n'
if [ "$(stat -c '%Y %h' "$home/Mail/inbox/3")" = '981173106 2' ] && [ "$home/nine" -ef "$home/Mail/inbox/3" ]; then passed=$((passed + 1)); else failed=$((failed + 1)); echo 'failed: a file that gets another number is another file'; fi
row 'all have their numbers' "$home" 0 'inbox+ has 3 messages (1-3); cur=2.\n' '' folder -pack
mkdir "$home/Mail/none"
row 'a folder without messages' "$home" 0 'none+ has no messages.\n' '' folder -pack +none
row 'it is the current one then' "$home" 0 'none+ has no messages.\n' '' folder
row 'a folder that is not there' "$home" 1 '' 'mh: no such folder: +nowhere\n' folder -pack +nowhere
printf 'folder: -pack\n' >> "$home/.mh_profile"
row 'rmm leaves a gap' "$home" 0 '' '' rmm +inbox 2
row 'by the profile' "$home" 0 'inbox+ has 2 messages (1-2); cur=2.\n' '' folder
row 'not where words say so' "$home" 0 'inbox+ has 2 messages (1-2); cur=1.\n' '' folder -nopack 1
flock "$home/Mail/inbox/.mh_lock" env -i HOME="$home" "$room/mh" folder -pack > "$room/out.txt" 2> "$room/err.txt"
if [ $? = 3 ] && [ ! -s "$room/out.txt" ] && [ "$(cat "$room/err.txt")" = 'mh: +inbox is locked' ]; then passed=$((passed + 1)); else failed=$((failed + 1)); echo 'failed: -pack in a locked folder'; fi

# Three processes set the current message, twenty times each; one that finds a lock comes again. Each is told what it set.
home=$room/tellers
three "$home"
for n in 1 2 3; do
    (for k in $(seq 1 20); do
        while :; do
            line=$(env -i HOME="$home" "$room/mh" folder +inbox "$n" 2> /dev/null)
            got=$?
            [ $got = 3 ] || break
        done
        [ $got = 0 ] && [ "$line" = "inbox+ has 3 messages (1-3); cur=$n." ] || exit 1
    done) &
    rivals[n]=$!
done
all=0
for n in 1 2 3; do wait "${rivals[n]}" || all=1; done
if [ $all = 0 ] && grep -qx 'cur: [123]' "$home/Mail/inbox/.mh_sequences" && [ "$(ls -A "$home/Mail/inbox" | wc -l)" = 5 ]; then passed=$((passed + 1)); else failed=$((failed + 1)); echo 'failed: three who set the current message at once'; fi
