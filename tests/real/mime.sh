# Rows of `mhlist` and `mhstore`, read by `run`: parts of messages are listed, and stored in a current directory, in a temporary directory.
# parts HOME: message 5 has two parts, and lacks its closing line; message 7 is plain. Files are stored in `work`.
parts() {
    mailbox "$1"
    mkdir "$1/work"
    printf 'Content-Type: multipart/mixed; boundary=x\n\n--x\nContent-Type: application/octet-stream\nContent-Transfer-Encoding: base64\n\nSGVsbG8h\nQQ\n--x\n\nhi\n' > "$1/Mail/inbox/5"
    printf 'Subject: a\n\nx\n' > "$1/Mail/inbox/7"
    printf 'Current-Folder: inbox\n' > "$1/Mail/context"
}
heads=' msg part    type/subtype                 size description\n'
first='storing message 5 part 1 as file 5.1.octet-stream\n'
second='storing message 5 part 2 as file 5.2.plain\n'

home=$room/parts
work=$home/work
parts "$home"
rm "$home/Mail/context"
row_in "$work" 'parts are listed' "$home" 0 "$heads"'   5 -       multipart/mixed                98 [unclosed]\n   5 1       application/octet-stream        7\n   5 2       text/plain                      3\n' '' mhlist +inbox 5
names 'nothing is stored by that' "$work" ''
same 'the folder becomes the current one' "$home/Mail/context" 'Current-Folder: inbox\n'
row_in "$work" 'a part that is not there' "$home" 1 "$heads" 'mh: no such part: 3\n' mhlist 5 -part 3
row_in "$work" 'parts are stored' "$home" 0 "$first$second" '' mhstore 5
names 'their files, and no temporary name' "$work" '5.1.octet-stream\n5.2.plain\n'
same 'the decoded one' "$work/5.1.octet-stream" 'Hello!A'
same 'the plain one' "$work/5.2.plain" 'hi\n'
stat -c '%a %h' "$work"/* > "$room/modes.txt"
same 'they are for their owner alone, and have one name' "$room/modes.txt" '600 1\n600 1\n'
ls -i "$work" > "$room/before.txt"
row_in "$work" 'again' "$home" 1 '' 'mh: file exists: 5.1.octet-stream\n' mhstore 5
row_in "$work" 'the second one is there too' "$home" 1 '' 'mh: file exists: 5.2.plain\n' mhstore 5 -part 2 -clobber never
row_in "$work" 'a part that is not there is stored' "$home" 1 '' 'mh: no such part: 3\n' mhstore 5 -clobber always -part 1 -part 3
ls -i "$work" > "$room/after.txt"
same 'nothing has changed' "$room/after.txt" "$(cat "$room/before.txt")\n"
printf 'old' > "$work/5.1.octet-stream"
ln "$work/5.1.octet-stream" "$work/kept"
row_in "$work" 'files are replaced' "$home" 0 "$first$second" '' mhstore 5 -clobber always
names 'no other name' "$work" '5.1.octet-stream\n5.2.plain\nkept\n'
same 'the new file' "$work/5.1.octet-stream" 'Hello!A'
same 'a second name of the old one keeps it' "$work/kept" 'old'
row_in "$work" 'a message that is plain' "$home" 0 'storing message 7 part - as file 7.plain\n' '' mhstore 7
same 'its body' "$work/7.plain" 'x\n'
row_in "$work" 'the message itself has no name' "$home" 1 '' 'mh: bad value: -part\n' mhstore 5 -part -
row_in "$work" 'no messages' "$home" 1 '' 'mh: no such message: 6\n' mhstore 6
row_in "$work" 'a value of -clobber that is none' "$home" 1 '' 'mh: bad value: -clobber\n' mhstore 5 -clobber ask

row_in "$home/Mail/inbox" 'in the folder itself' "$home" 0 'storing message 7 part - as file 7.plain\n' '' mhstore 7
row 'a file of a part is no message' "$home" 0 '   5 \n   7 a\n' '' scan

# What stands under a file's name and is no file: nothing is written through a link.
home=$room/parts_links
work=$home/work
parts "$home"
printf 'safe' > "$home/outside"
mkdir "$home/below"
for target in outside none below; do
    ln -s "$home/$target" "$work/5.2.plain"
    row_in "$work" "a link to $target" "$home" 1 '' 'mh: file exists: 5.2.plain\n' mhstore 5 -part 2
    [ -L "$work/5.2.plain" ] && passed=$((passed + 1)) || { failed=$((failed + 1)); echo "failed: the link to $target stays"; }
    row_in "$work" "a link to $target is replaced" "$home" 0 "$second" '' mhstore 5 -part 2 -clobber always
    [ ! -L "$work/5.2.plain" ] && passed=$((passed + 1)) || { failed=$((failed + 1)); echo "failed: the link to $target is no link now"; }
    same "by a file of its own, not $target" "$work/5.2.plain" 'hi\n'
    rm "$work/5.2.plain"
done
same 'what a link led to' "$home/outside" 'safe'
gone 'what a link led to in vain' "$home/none"
names 'the directory that a link led to' "$home/below" ''
mkfifo "$work/5.2.plain"
row_in "$work" 'a pipe' "$home" 1 '' 'mh: file exists: 5.2.plain\n' mhstore 5 -part 2
row_in "$work" 'a pipe is replaced' "$home" 0 "$second" '' mhstore 5 -part 2 -clobber always
same 'by a file' "$work/5.2.plain" 'hi\n'
rm "$work/5.2.plain"
mkdir "$work/5.2.plain"
row_in "$work" 'a directory' "$home" 1 '' 'mh: file exists: 5.2.plain\n' mhstore 5 -part 2
names 'nothing is left beside it' "$work" '5.2.plain\n'
row_in "$work" 'a directory is never replaced' "$home" 2 '' 'mh: fault of files\n' mhstore 5 -part 2 -clobber always
names 'nor is anything stored in it' "$work/5.2.plain" ''
rm -f "$work"/.mh_temp_*
names 'a fault may leave a temporary name, and no other' "$work" '5.2.plain\n'

# Modes, and directories and devices that take nothing.
home=$room/parts_room
work=$home/work
parts "$home"
mask=$(umask)
umask 0
row_in "$work" 'without a mask' "$home" 0 "$first" '' mhstore 5 -part 1
umask 0277
row_in "$work" 'with a mask' "$home" 0 "$second" '' mhstore 5 -part 2
umask "$mask"
stat -c %a "$work"/* > "$room/modes.txt"
same 'no file is for others' "$room/modes.txt" '600\n400\n'
rm "$work"/*
(
    cd "$work" && trap '' XFSZ && ulimit -f 0
    env -i HOME="$home" "$room/mh" mhstore 5
    echo $?
) 2>&1 | sed 's/temp_[0-9a-f]*_/temp_/' > "$room/said.txt"
same 'a device that takes no bytes' "$room/said.txt" 'mh: fault of files\nmh: ./.mh_temp_0: File too large\n2\n'
rm -f "$work"/.mh_temp_*
names 'no file has its name there' "$work" ''
(
    cd "$work" && rmdir "$work"
    env -i HOME="$home" "$room/mh" mhstore 5
    echo $?
) 2>&1 | sed 's/temp_[0-9a-f]*/temp/' > "$room/said.txt"
same 'a current directory that is gone' "$room/said.txt" 'mh: name .mh_temp_0 in current directory was changed meanwhile\n4\n'
[ ! -d /sys ] || row_in /sys 'a directory that takes no files' "$home" 2 '' 'mh: fault of files\n' mhstore 5

# Outputs and locks.
home=$room/parts_beside
work=$home/work
parts "$home"
(cd "$work" && env -i HOME="$home" "$room/mh" mhlist 5 > /dev/full; echo $?) > "$room/said.txt" 2>&1
same 'rows to a full device' "$room/said.txt" 'mh: fault of output\n2\n'
(cd "$work" && env -i HOME="$home" "$room/mh" mhstore 5 > /dev/full; echo $?) > "$room/said.txt" 2>&1
same 'lines to a full device' "$room/said.txt" 'mh: fault of output\n2\n'
names 'the file of the line that was to come is there, and no other' "$work" '5.1.octet-stream\n'
rm "$work"/*
mkdir "$home/Mail/other"
printf 'Subject: o\n\no\n' > "$home/Mail/other/1"
: > "$home/Mail/inbox/.mh_lock"
(
    flock 9
    cd "$work" && env -i HOME="$home" "$room/mh" mhlist 5 -part 1 && env -i HOME="$home" "$room/mh" mhstore 5
) 9< "$home/Mail/inbox/.mh_lock" > "$room/said.txt" 2>&1
same 'a locked folder is listed and stored all the same' "$room/said.txt" "$heads"'   5 1       application/octet-stream        7\n'"$first$second"
: > "$home/Mail/.mh_lock"
(
    flock 9
    cd "$work" && env -i HOME="$home" "$room/mh" mhstore +other 1
    echo $?
) 9< "$home/Mail/.mh_lock" > "$room/said.txt" 2>&1
same 'a locked mail directory is met at the end' "$room/said.txt" 'storing message 1 part - as file 1.plain\nmh: mail directory is locked\n3\n'
same 'the part is stored' "$work/1.plain" 'o\n'
same 'the current folder stays' "$home/Mail/context" 'Current-Folder: inbox\n'

# Names that types ask for: what no name may have becomes an underscore, and a type that is none is plain text.
home=$room/parts_names
work=$home/work
parts "$home"
python3 - "$home/Mail/inbox" <<'PY'
import sys
def multi(*kinds):
    return "Content-Type: multipart/mixed; boundary=x\n\n" + "".join(f"--x\nContent-Type: {it}\n\nb\n" for it in kinds) + "--x--\n"
deep = "\nb\n"
for n in range(64):
    deep = f"Content-Type: multipart/mixed; boundary=b{n}\n\n" + f"--b{n}\n" * 999 + f"--b{n}\n{deep}\n--b{n}--\n"
texts = {
    1: multi("a/..", "a/.", "a/..%2F..%2Fetc", "a/-rf", "a/$`~*!|&'#", "a/B-c+d._e", "a/../../x", "a/\"../x\"", "a/x y", "a/\xe9", "a/\x1b[31m"),
    2: multi("a/" + "s" * 251, "a/" + "t" * 252, "a/" + "u" * 10_000),
    3: deep,
    4: "Content-Type: multipart/mixed; boundary=x\n\n--x\nContent-Type: multipart/1.plain; boundary=y\n\n--y\n\nb\n--y--\n--x--\n",
}
for n, text in texts.items():
    with open(f"{sys.argv[1]}/{n}", "wb") as f:
        f.write(text.encode("latin-1"))
PY
told() {
    local n=$1 file
    for file in "${@:2}"; do printf 'storing message %s part %s as file %s\\n' "$n" "$(cut -d. -f2 <<< "$file")" "$file"; done
}
files=(1.1... 1.2.. 1.3..._2F.._2Fetc 1.4.-rf 1.5._________ 1.6.B-c+d._e 1.7.plain 1.8.plain 1.9.plain 1.10.plain 1.11.plain)
row_in "$work" 'names of no directory and of no other file' "$home" 0 "$(told 1 "${files[@]}")" '' mhstore 1
names 'what is stored' "$work" "$(printf '%s\n' "${files[@]}" | LC_ALL=C sort | sed 's/$/\\n/' | tr -d '\n')"
names 'nothing is stored elsewhere' "$home" 'Mail\nwork\n'
rm "$work"/*
files=("2.1.$(printf 's%.0s' {1..251})" "2.2.$(printf 't%.0s' {1..251})" "2.3.$(printf 'u%.0s' {1..251})")
row_in "$work" 'names of 255 bytes' "$home" 0 "$(told 2 "${files[@]}")" '' mhstore 2
names 'each part has its own' "$work" "$(printf '%s\\n' "${files[@]}")"
rm "$work"/*
deep=$(printf '1000.%.0s' {1..63})
file=$(printf '3.%s' "$deep" | head -c 255)
row_in "$work" 'paths that no name has room for' "$home" 1 "storing message 3 part ${deep}999 as file $file\n" "mh: file exists: $file\n" mhstore 3 -part "${deep}1000" -part "${deep}999"
names 'the first is stored' "$work" "$file\n"
rm "$work"/*
row_in "$work" 'a part and one in it that ask for one name' "$home" 1 'storing message 4 part 1 as file 4.1.1.plain\n' 'mh: file exists: 4.1.1.plain\n' mhstore 4 -part 1 -part 1.1
same 'the first is stored too' "$work/4.1.1.plain" '--y\n\nb\n--y--'

# Depths, sizes and codes with junk.
home=$room/parts_deep
work=$home/work
parts "$home"
python3 - "$home/Mail/inbox" <<'PY'
import sys
deep = "\nb\n"
for n in range(100):
    deep = f"Content-Type: multipart/mixed; boundary=b{n}\n\n--b{n}\n{deep}\n--b{n}--\n"
junk = ("Content-Type: multipart/mixed; boundary=x\n\n--x\nContent-Type: a/b\nContent-Transfer-Encoding: base64\n\n<S~G>V sbG8h\x00\xff\n--\nQQ=QQ\n"
        "--x\nContent-Type: a/q\nContent-Transfer-Encoding: quoted-printable\n\n=48=69=\n!  \n=XY=\n=C3=A9=3D\xff=4\n--x--\n")
head = "Content-Type: multipart/mixed; boundary=x\n\n--x\n\n"
texts = {1: deep, 2: junk, 3: head + "line\n" * ((67_108_864 - len(head)) // 5) + "x" * ((67_108_864 - len(head)) % 5)}
texts[4] = texts[3] + "y"
for n, text in texts.items():
    with open(f"{sys.argv[1]}/{n}", "wb") as f:
        f.write(text.encode("latin-1"))
PY
(cd "$work" && env -i HOME="$home" "$room/mh" mhlist 1 > "$room/out.txt" 2> "$room/err.txt"; echo $?; wc -l < "$room/out.txt"; grep -c 'too deep' "$room/out.txt"; tail -n 1 "$room/out.txt" | sed 's/ *[0-9]* \[/ [/') > "$room/said.txt"
same 'a hundred multiparts in one another' "$room/said.txt" '0\n66\n1\n   1 1.1.1.1 multipart/mixed [too deep]\n'
row_in "$work" 'the deepest one is stored as it stands' "$home" 0 "storing message 1 part 1$(printf '.1%.0s' {1..63}) as file 1$(printf '.1%.0s' {1..64}).mixed\n" '' mhstore 1
row_in "$work" 'codes with junk' "$home" 0 'storing message 2 part 1 as file 2.1.b\nstoring message 2 part 2 as file 2.2.q\n' '' mhstore 2
same 'what base64 stands for' "$work/2.1.b" 'Hello!A'
same 'what quoted-printable stands for' "$work/2.2.q" 'Hi!\n=XY\xc3\xa9=\xff=4'
printf 'Content-Description: \033[31mred\033[0m\007\r\t =?utf-8?q?=1B[2J=0Aa?=\n b\nContent-Type: a/b\n\nx' > "$home/Mail/inbox/8"
row_in "$work" 'a description that would steer a terminal' "$home" 0 "$heads"'   8 -       a/b                             1 [31mred [0m [2J a b\n' '' mhlist 8
row_in "$work" 'a message at the limit' "$home" 0 "$heads"'   3 1       text/plain               67108816\n' '' mhlist 3 -part 1
row_in "$work" 'a message above it' "$home" 1 "$heads" 'mh: too large: 67108865 bytes, limit 67108864\n' mhlist 4
row_in "$work" 'is not stored either' "$home" 1 '' 'mh: too large: 67108865 bytes, limit 67108864\n' mhstore 4

counted mime.py mime
