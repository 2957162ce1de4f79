# Rows of `inc`, read by `run`: mail is taken in from drops in a temporary directory.

# two FILE: a drop of two messages.
two() {
    printf 'From ann@a.example Tue Jun  2 10:00:00 2026\nFrom: Ann Lee <ann@a.example>\nSubject: One\nDate: Tue, 02 Jun 2026 10:00:00 +0000\n\n>From here on\n\nFrom bob@b.example Tue Jun  2 11:00:00 2026\nFrom: bob@b.example\nSubject: Two\nDate: Tue, 02 Jun 2026 11:00:00 +0000\n\nend' > "$1"
}

home=$room/new
three "$home"
printf 'Unseen-Sequence: unseen\nMailDrop: drop\n' > "$home/.mh_profile"
two "$home/drop"
row 'new mail' "$home" 0 'Incorporating new mail into inbox...\n\n   4 One\n   5 Two\n' '' inc
same 'the first new message' "$home/Mail/inbox/4" 'From: Ann Lee <ann@a.example>\nSubject: One\nDate: Tue, 02 Jun 2026 10:00:00 +0000\n\n>From here on\n'
same 'the second' "$home/Mail/inbox/5" 'From: bob@b.example\nSubject: Two\nDate: Tue, 02 Jun 2026 11:00:00 +0000\n\nend'
same 'their marks' "$home/Mail/inbox/.mh_sequences" 'cur: 4\nunseen: 4-5\n'
same 'the folder is the current one' "$home/Mail/context" 'Current-Folder: inbox\n'
same 'the drop is empty' "$home/drop" ''
names 'nothing else stands in the folder' "$home/Mail/inbox" '.mh_lock\n.mh_sequences\n1\n2\n3\n4\n5\n'
row 'no mail' "$home" 1 '' 'mh: no mail to incorporate\n' inc
rm "$home/drop"
row 'no drop' "$home" 1 '' 'mh: no mail to incorporate\n' inc
printf 'hello\n' > "$home/drop"
row 'no mail drop' "$home" 1 '' 'mh: not a mail drop\n' inc
two "$room/named"
row 'a drop below the current directory' "$home" 0 'Incorporating new mail into in/new...\n\n   1 One\n   2 Two\n' '' inc +in/new -file named
names 'a folder that was made' "$home/Mail/in/new" '.mh_lock\n.mh_sequences\n1\n2\n'
row 'it stays' "$home" 0 'Incorporating new mail into inbox...\n\n   6 One\n   7 Two\n' '' inc -file "$room/named"
row 'nothing is written' "$home" 0 '' '' inc -silent -nochangecur -file named -truncate
same 'a drop that was to be cut' "$room/named" ''
same 'the current message stays' "$home/Mail/inbox/.mh_sequences" 'cur: 6\nunseen: 4-9\n'
two "$home/drop"
flock "$home/Mail/inbox/.mh_lock" env -i HOME="$home" "$room/mh" inc > "$room/out.txt" 2> "$room/err.txt"
if [ $? = 3 ] && [ ! -s "$room/out.txt" ] && [ "$(cat "$room/err.txt")" = 'mh: +inbox is locked' ] && [ -s "$home/drop" ]; then passed=$((passed + 1)); else failed=$((failed + 1)); echo 'failed: a locked folder at new mail'; fi

home=$room/long
mailbox "$home"
{ printf 'From x\nSubject: one\n\nFrom y\n'; head -c 67108865 /dev/zero; } > "$home/drop"
printf 'MailDrop: drop\n' > "$home/.mh_profile"
row 'a message that is too long by a byte' "$home" 1 '' 'mh: too large: 67108865 bytes, limit 67108864\n' inc
names 'nothing was taken in' "$home/Mail/inbox" '.mh_lock\n'
{ printf 'From x\nSubject: one\n\nFrom y\n'; head -c 67108864 /dev/zero; } > "$home/drop"
row 'a message of 64 MiB' "$home" 0 'Incorporating new mail into inbox...\n\n   1 one\n   2 \n' '' inc
head -c 67108864 /dev/zero | cmp -s - "$home/Mail/inbox/2" && passed=$((passed + 1)) || { failed=$((failed + 1)); echo 'failed: the bytes of a long message'; }
{ printf 'From x\n'; head -c 268435450 /dev/zero; } > "$home/drop"
row 'a drop that is too long by a byte' "$home" 1 '' 'mh: too large: 268435457 bytes, limit 268435456\n' inc
rm -r "$home"

counted inc.py calls calls
counted inc.py delivery delivery
counted inc.py deaths deaths
counted inc.py cost cost
