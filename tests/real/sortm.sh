# Rows of `sortm`, read by `run`: messages come to stand in order, in a temporary directory.
# dated HOME: five messages with gaps between their numbers.
dated() {
    mailbox "$1"
    printf 'Date: 5 Jun 2026 10:00:00 +0000\nSubject: Re: b\n\nfive\n' > "$1/Mail/inbox/2"
    printf 'Date: 1 Jun 2026 10:00:00 +0000\nSubject: c\n\none\n' > "$1/Mail/inbox/3"
    printf 'Date: 4 Jun 2026 10:00:00 +0000\nSubject: a\n\nfour\n' > "$1/Mail/inbox/7"
    printf 'Subject: B\n\nnone\n' > "$1/Mail/inbox/8"
    printf 'Date: 2 Jun 2026 23:00:00 -0900\nSubject: A: b\n\nthree\n' > "$1/Mail/inbox/11"
}
# bodies NAME HOME TEXT: the numbers of the messages with their last lines are these.
bodies() {
    (cd "$2/Mail/inbox" && for n in $(ls | sort -n); do printf '%s %s\n' "$n" "$(tail -n 1 "$n")"; done) > "$room/bodies.txt"
    same "$1" "$room/bodies.txt" "$3"
}

home=$room/sorted
dated "$home"
printf 'cur: 2\ntodo: 2 7\n' > "$home/Mail/inbox/.mh_sequences"
printf 'atr-mine-inbox: 3 11\n' > "$home/Mail/context"
row 'by their dates' "$home" 0 '' '' sortm +inbox
bodies 'they stand in order, one without a date behind the one before it' "$home" '2 one\n3 three\n7 four\n8 none\n11 five\n'
same 'marks went along' "$home/Mail/inbox/.mh_sequences" 'cur: 11\ntodo: 7 11\n'
same 'private ones too' "$home/Mail/context" 'atr-mine-inbox: 2-3\nCurrent-Folder: inbox\n'
names 'nothing else is left' "$home/Mail/inbox" '.mh_lock\n.mh_sequences\n11\n2\n3\n7\n8\n'
ls -i "$home/Mail/inbox/.mh_sequences" > "$room/before.txt"
row 'again' "$home" 0 '' '' sortm
ls -i "$home/Mail/inbox/.mh_sequences" > "$room/after.txt"
same 'nothing is changed where all stand in order' "$room/after.txt" "$(cat "$room/before.txt")\n"
row 'by a text' "$home" 0 '' '' sortm -textfield subject
bodies 'letters and digits count, without Re:, and then the number' "$home" '2 four\n3 three\n7 none\n8 five\n11 one\n'
row 'some of them' "$home" 0 '' '' sortm 2 8-11
bodies 'the others stay' "$home" '2 one\n3 three\n7 none\n8 four\n11 five\n'
row 'of two fields the last counts' "$home" 0 '' '' sortm -textfield subject -datefield date
bodies 'by date' "$home" '2 one\n3 three\n7 none\n8 four\n11 five\n'
row 'one message' "$home" 0 '' '' sortm 8
row 'a field that none has' "$home" 0 '' '' sortm -textfield x-none
bodies 'changes nothing' "$home" '2 one\n3 three\n7 none\n8 four\n11 five\n'
row 'a value that is no name of a field' "$home" 1 '' 'mh: bad value: -datefield\n' sortm -datefield 'a b'
row 'a switch of nmh that there is not' "$home" 1 '' 'mh: unknown switch: -limit\n' sortm -limit 3
row 'a folder that is not there' "$home" 1 '' 'mh: no such folder: +none\n' sortm +none
row 'a message that is not there' "$home" 1 '' 'mh: no such message: 9\n' sortm 9
row 'an empty range' "$home" 1 '' 'mh: no messages in range: 4-6\n' sortm 4-6

home=$room/sorted_long
dated "$home"
truncate -s 67108865 "$home/Mail/inbox/8"
row 'a message that is too long' "$home" 1 '' 'mh: too large: 67108865 bytes, limit 67108864\n' sortm +inbox
(cd "$home/Mail/inbox" && tail -n 1 2 3 7 11 | grep -v '^$\|^==') > "$room/rest.txt"
same 'nothing has moved' "$room/rest.txt" 'five\none\nfour\nthree\n'

home=$room/sorted_locked
dated "$home"
flock "$home/Mail/inbox/.mh_lock" env -i HOME="$home" "$room/mh" sortm +inbox > "$room/out.txt" 2> "$room/err.txt"
if [ $? = 3 ] && [ ! -s "$room/out.txt" ] && [ "$(cat "$room/err.txt")" = 'mh: +inbox is locked' ]; then passed=$((passed + 1)); else failed=$((failed + 1)); echo 'failed: sortm in a locked folder'; fi

# Two sort by date and by subject, others mark, ten times each; a mark stays with its message.
home=$room/sorters
dated "$home"
env -i HOME="$home" "$room/mh" mark +inbox 7 -sequence four
wait_for=
for n in date text mark; do
    (for k in $(seq 1 10); do
        while :; do
            case $n in
                date) env -i HOME="$home" "$room/mh" sortm +inbox 2> /dev/null ;;
                text) env -i HOME="$home" "$room/mh" sortm +inbox -textfield subject 2> /dev/null ;;
                mark) env -i HOME="$home" "$room/mh" mark +inbox first -sequence "s$k" 2> /dev/null ;;
            esac
            got=$?
            [ $got = 3 ] || break
        done
        [ $got = 0 ] || exit 1
    done) &
    wait_for="$wait_for $!"
done
all=0
for n in $wait_for; do wait "$n" || all=1; done
four=$(sed -n 's/^four: //p' "$home/Mail/inbox/.mh_sequences")
if [ $all = 0 ] && [ "$(tail -n 1 "$home/Mail/inbox/$four")" = four ] && [ "$(ls -A "$home/Mail/inbox" | wc -l)" = 7 ]; then passed=$((passed + 1)); else failed=$((failed + 1)); echo 'failed: two who sort and one who marks'; fi
