# Rows of `refile`, read by `run`: messages move between folders in a temporary directory.
home=$room/moves
three "$home"
printf 'todo: 1-3\n' > "$home/Mail/inbox/.mh_sequences"
second=$(cat "$home/Mail/inbox/2"; echo x)
row 'a message moves to two folders' "$home" 0 '' '' refile 2 +a +in/b +a -src inbox
names 'it left its folder' "$home/Mail/inbox" '.mh_lock\n.mh_sequences\n1\n3\n'
names 'it is in the one' "$home/Mail/a" '.mh_lock\n1\n'
same 'and in the other' "$home/Mail/in/b/1" "${second%x}"
same 'its marks left with it' "$home/Mail/inbox/.mh_sequences" 'todo: 1 3\n'
stat -c %a "$home/Mail/in" "$home/Mail/in/b" "$home/Mail/in/b/1" "$home/Mail/context" > "$room/modes.txt"
same 'what it makes is for its owner alone' "$room/modes.txt" '700\n700\n600\n600\n'
same 'the source is the current folder' "$home/Mail/context" 'Current-Folder: inbox\n'
row 'a message is copied' "$home" 0 '' '' refile -link first +a
names 'it stays' "$home/Mail/inbox" '.mh_lock\n.mh_sequences\n1\n3\n'
names 'and is there' "$home/Mail/a" '.mh_lock\n1\n2\n'
row 'no folder is its own destination' "$home" 1 '' 'mh: same folder: +inbox\n' refile 1 +inbox
row 'a folder is missing' "$home" 1 '' 'mh: missing word\n' refile 1
flock "$home/Mail/a/.mh_lock" env -i HOME="$home" "$room/mh" refile 1 +a > "$room/out.txt" 2> "$room/err.txt"
if [ $? = 3 ] && [ "$(cat "$room/err.txt")" = 'mh: +a is locked' ] && [ -f "$home/Mail/inbox/1" ]; then passed=$((passed + 1)); else failed=$((failed + 1)); echo 'failed: a locked destination'; fi

counted refile.py deaths deaths
counted refile.py rivals rivals
