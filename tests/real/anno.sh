# Rows of `anno`, read by `run`: messages get lines in front, in a temporary directory.
home=$room/noted
three "$home"
printf 'cur: 2\ntodo: 2-3\n' > "$home/Mail/inbox/.mh_sequences"
before=$(date +%s)
row 'the current message gets a date' "$home" 0 '' '' anno +inbox -component Seen
after=$(date +%s)
told=$(sed -n 's/^Seen: //p' "$home/Mail/inbox/2")
when=$(date -d "$told" +%s)
if [ "$before" -le "$when" ] && [ "$when" -le "$after" ] && [ "$(LC_ALL=C TZ=UTC0 date -d "@$when" '+%a, %d %b %Y %H:%M:%S +0000')" = "$told" ]; then passed=$((passed + 1)); else failed=$((failed + 1)); echo "failed: the date of now: $told"; fi
sed 1d "$home/Mail/inbox/2" > "$room/rest.txt"
same 'behind it the message is what it was' "$room/rest.txt" 'Subject: m2\n\n'
names 'what stands in the folder' "$home/Mail/inbox" '.mh_lock\n.mh_sequences\n1\n2\n3\n'
same 'its marks stay' "$home/Mail/inbox/.mh_sequences" 'cur: 2\ntodo: 2-3\n'
same 'the folder is the current one' "$home/Mail/context" 'Current-Folder: inbox\n'
stat -c %a "$home/Mail/inbox/2" > "$room/modes.txt"
same 'the new file is for its owner alone' "$room/modes.txt" '600\n'
row 'several messages get a text' "$home" 0 '' '' anno 1 3 -component Note -text 'ask Bob' -nodate
same 'the first' "$home/Mail/inbox/1" 'Note: ask Bob\nSubject: m1\n\n'
same 'and the last' "$home/Mail/inbox/3" 'Note: ask Bob\nSubject: m3\n\n'
row 'a later line comes before an earlier one' "$home" 0 '' '' anno 3 -component Done -text so -nodate
same 'in the file' "$home/Mail/inbox/3" 'Done: so\nNote: ask Bob\nSubject: m3\n\n'
row 'pick finds it' "$home" 0 '3\n' '' pick --done so
row 'a sequence' "$home" 0 '' '' anno todo -component T -text t -nodate
same 'one of it' "$home/Mail/inbox/3" 'T: t\nDone: so\nNote: ask Bob\nSubject: m3\n\n'
row 'no component' "$home" 1 '' 'mh: missing word\n' anno 1 -text x
row 'neither date nor text' "$home" 1 '' 'mh: missing word\n' anno 1 -component N -nodate
row 'a component that is no name of a field' "$home" 1 '' 'mh: bad value: -component\n' anno 1 -component 'A B'
row 'a text of two lines' "$home" 1 '' 'mh: bad value: -text\n' anno 1 -component N -text "a
b"
row 'a switch of nmh that there is not' "$home" 1 '' 'mh: unknown switch: -inplace\n' anno 1 -component N -inplace
row 'a folder that is not there' "$home" 1 '' 'mh: no such folder: +none\n' anno +none -component N
row 'a message that is not there' "$home" 1 '' 'mh: no such message: 9\n' anno 9 -component N
same 'a refusal leaves the messages' "$home/Mail/inbox/1" 'Note: ask Bob\nSubject: m1\n\n'
ln "$home/Mail/inbox/1" "$room/kept.txt"
row 'a message gets lines' "$home" 0 '' '' anno 1 -component N -text n -nodate
same 'the old file is not written to' "$room/kept.txt" 'Note: ask Bob\nSubject: m1\n\n'
printf 'anno: -component Kept -nodate\nPath: Mail\n' > "$home/.mh_profile"
row 'words of the profile' "$home" 0 '' '' anno 2 -text so
head -n 1 "$home/Mail/inbox/2" > "$room/first.txt"
same 'and of the call' "$room/first.txt" 'Kept: so\n'

# A message of the most bytes that there may be, but for one: with a line it is too long, and the next command puts it back.
home=$room/noted_long
three "$home"
truncate -s 67108863 "$home/Mail/inbox/2"
row 'a message that is too long with its line' "$home" 1 '' 'mh: too large: 67108868 bytes, limit 67108864\n' anno +inbox 1-3 -component N -text n -nodate
same 'the one before it has the line' "$home/Mail/inbox/1" 'N: n\nSubject: m1\n\n'
same 'the one behind it has none' "$home/Mail/inbox/3" 'Subject: m3\n\n'
row 'what was held aside goes back' "$home" 0 '' '' mark +inbox 1 -sequence x
names 'at its number' "$home/Mail/inbox" '.mh_lock\n.mh_sequences\n1\n2\n3\n'
stat -c %s "$home/Mail/inbox/2" > "$room/size.txt"
same 'whole' "$room/size.txt" '67108863\n'

home=$room/noted_locked
three "$home"
flock "$home/Mail/inbox/.mh_lock" env -i HOME="$home" "$room/mh" anno +inbox 1 -component N > "$room/out.txt" 2> "$room/err.txt"
if [ $? = 3 ] && [ ! -s "$room/out.txt" ] && [ "$(cat "$room/err.txt")" = 'mh: +inbox is locked' ]; then passed=$((passed + 1)); else failed=$((failed + 1)); echo 'failed: lines in a locked folder'; fi
same 'no line in a locked folder' "$home/Mail/inbox/1" 'Subject: m1\n\n'

# Three processes put lines in front of the same message, ten times each; one that finds a lock comes again. Each line stands there once.
home=$room/noters
three "$home"
for n in 1 2 3; do
    (for k in $(seq 1 10); do
        while :; do
            env -i HOME="$home" "$room/mh" anno +inbox 2 -component "N$n" -text "$k" -nodate 2> /dev/null
            got=$?
            [ $got = 3 ] || break
        done
        [ $got = 0 ] || exit 1
    done) &
    rivals[n]=$!
done
all=0
for n in 1 2 3; do wait "${rivals[n]}" || all=1; done
lines=$(sort "$home/Mail/inbox/2" | uniq | grep -c '^N[123]: ')
if [ $all = 0 ] && [ "$lines" = 30 ] && [ "$(wc -l < "$home/Mail/inbox/2")" = 32 ] && [ "$(ls -A "$home/Mail/inbox" | wc -l)" = 4 ]; then passed=$((passed + 1)); else failed=$((failed + 1)); echo 'failed: three who put lines in front of one message'; fi
