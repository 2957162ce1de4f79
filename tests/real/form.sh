# Rows of `-form`, read by `run`: lines are shown by the format that a file has. The files are below the temporary directory in which the program runs.
home=$room/formed
three "$home"
printf '%%(msg) %%{subject}' > "$room/lines"
printf '%%(msg)\n' > "$room/fed"
printf '%%(msg) %%(nofun)' > "$room/wrong"
mkdir -p "$room/below"
printf '%%{subject}' > "$room/below/lines"
head -c 65536 /dev/zero | tr '\0' x > "$room/longest"
head -c 65537 /dev/zero | tr '\0' x > "$room/longer"
full_row 'the format of a file' "$home" 0 '1 m1\n2 m2\n3 m3\n' '' scan +inbox -form lines
full_row 'that of a file below a directory' "$home" 0 'm1\nm2\nm3\n' '' scan -form below/lines
full_row 'that of an absolute path' "$home" 0 'm3\n' '' scan last -form "$room/below/lines"
full_row 'a line feed at its end is none more' "$home" 0 '1\n2\n3\n' '' scan -form fed
full_row 'a format behind the file' "$home" 0 'm1\n' '' scan 1 -form lines -format '%{subject}'
full_row 'the file behind a format' "$home" 0 '1 m1\n' '' scan 1 -format '%{subject}' -form lines
full_row 'of two files the last' "$home" 0 'm1\n' '' scan 1 -form nofile -form below/lines
full_row 'the longest format' "$home" 0 "$(printf 'x%.0s' $(seq 80))\\n" '' scan 1 -form longest
full_row 'a format that is too long by a byte' "$home" 1 '' 'mh: too large: 65537 bytes, limit 65536\n' scan -form longer
full_row 'no such file' "$home" 1 '' 'mh: no such file: nofile\n' scan -form nofile
full_row 'a wrong format' "$home" 1 '' 'mh: bad format at byte 9\n' scan -form wrong
full_row 'no value' "$home" 1 '' 'mh: missing value: -form\n' scan -form
full_row 'the begin of two names' "$home" 1 '' 'mh: ambiguous switch: -for\n' scan -for lines
full_row 'a folder that is not there, and no file' "$home" 1 '' 'mh: no such file: nofile\n' scan +none -form nofile
full_row 'a folder that is not there, and a wrong format' "$home" 1 '' 'mh: bad format at byte 9\n' scan +none -form wrong
full_row 'a folder that is not there, and a file' "$home" 1 '' 'mh: no such folder: +none\n' scan +none -form lines
full_row 'a wrong word before the file' "$home" 1 '' 'mh: bad value: -width\n' scan -width 0 -form nofile
printf 'scan: -form lines\n' > "$home/.mh_profile"
full_row 'the file of the profile' "$home" 0 '1 m1\n' '' scan 1
full_row 'a format of the words behind it' "$home" 0 'm1\n' '' scan 1 -format '%{subject}'
printf 'MailDrop: drop\n' > "$home/.mh_profile"
two "$home/drop"
full_row 'no file at new mail' "$home" 1 '' 'mh: no such file: nofile\n' inc +new -form nofile
gone 'no folder is made then' "$home/Mail/new"
full_row 'new mail by the format of a file' "$home" 0 'Incorporating new mail into inbox...\n\n4 One\n5 Two\n' '' inc -form lines
same 'the drop is empty' "$home/drop" ''
full_row 'a file that is no drop may be a format' "$home" 1 '' 'mh: not a mail drop\n' inc -file lines -form lines
same 'it stays' "$room/lines" '%(msg) %{subject}'
