#!/usr/bin/env bash
# Installs mh, its manual pages, its formats and its completions; ./install.sh --help tells how.
set -u
top=$(cd "$(dirname "$0")" && pwd)
commands="inc scan folder pick mark refile rmm anno sortm mhlist mhstore mhbuild"
built=$top/crates/mh/out/mh
links=
force=
job=install
program=

usage() {
    cat <<END
usage: ./install.sh [--links] [--force] [PROGRAM]
       ./install.sh --uninstall

Installs the program mh, its manual pages, its formats and the completions of
bash, zsh and fish below PREFIX, which is /usr/local without it, as in
  PREFIX=\$HOME/.local ./install.sh
and all that below DESTDIR, where that is given. PROGRAM is the program that
was built, $built, without one.

  --links      each command runs by its own name too: scan is mh scan
  --force      a link replaces a file of that name that isn't a link to mh
  --uninstall  takes away what was installed there, and nothing else
END
}

stop() {
    echo "install.sh: $1" >&2
    exit 1
}

for word in "$@"; do
    case $word in
        --links) links=yes ;;
        --force) force=yes ;;
        --uninstall) job=uninstall ;;
        --help | -h) usage && exit 0 ;;
        -*) usage >&2 && exit 1 ;;
        *) [ -z "$program" ] || stop "one program is installed, not two: $program $word"; program=$word ;;
    esac
done
program=${program:-$built}
prefix=${DESTDIR-}${PREFIX-/usr/local}
bin=$prefix/bin
share=$prefix/share
list=$share/mh/installed

# What is installed, a line each: where it stands below the prefix, and what it is made of or leads to.
pages() {
    for page in "$top"/man/*.[157]; do echo "file share/man/man${page##*.}/${page##*/} $page"; done
}

link_pages() {
    for command in $commands; do echo "link share/man/man1/$command.1 mh-$command.1"; done
}

completions() {
    echo "file share/bash-completion/completions/mh $top/completion/mh.bash"
    echo "zsh share/zsh/site-functions/_mh_commands $top/completion/_mh_commands"
    echo "file share/fish/vendor_completions.d/mh.fish $top/completion/mh.fish"
}

plan() {
    echo "program bin/mh $program"
    pages
    for format in "$top"/share/mh/*; do echo "file share/mh/${format##*/} $format"; done
    completions
    echo "version share/mh/version -"
    if [ -n "$links" ]; then
        for command in $commands; do
            echo "link bin/$command mh"
            echo "link share/bash-completion/completions/$command mh"
            echo "link share/fish/vendor_completions.d/$command.fish mh.fish"
        done
        link_pages
    fi
}

# The commit, its date and the kit, as `mh --version` tells them.
version() {
    if commit=$(git -C "$top" log -1 --format='%H of %cs' 2> /dev/null); then
        [ -z "$(git -C "$top" status --porcelain --untracked-files=no 2> /dev/null)" ] || commit="$commit, with changes"
    else
        commit="that is not known"
    fi
    echo "commit $commit"
    echo "kit $( (rt version || echo 'that is not known') 2> /dev/null | head -n 1)"
}

# Whether nothing that is not ours stands in the way. Said before anything is written.
look() {
    local kind to from
    while read -r kind to from; do
        if [ -d "$prefix/$to" ] && [ ! -L "$prefix/$to" ]; then
            echo "install.sh: $prefix/$to is a directory, so no file can be put there." >&2
            [ "$to" != bin/mh ] || echo "Debian keeps nmh's commands in /usr/bin/mh; give another prefix: PREFIX=/usr/local ./install.sh" >&2
            return 1
        fi
        if [ "$kind" = link ] && [ -e "$prefix/$to" ] && [ -z "$force" ] && [ "$(readlink "$prefix/$to")" != "$from" ]; then
            echo "install.sh: $prefix/$to is there and isn't a link to $from; --force replaces it." >&2
            return 1
        fi
    done
}

put() {
    local kind=$1 to=$prefix/$2 from=$3
    mkdir -p "$(dirname "$to")" || return 1
    case $kind in
        program) install -m 755 "$from" "$to.new" && mv -f "$to.new" "$to" ;;
        file) install -m 644 "$from" "$to" ;;
        zsh) sed "1s/.*/#compdef mh${links:+ $commands}/" "$from" > "$to" && chmod 644 "$to" ;;
        version) version > "$to" && chmod 644 "$to" ;;
        link) ln -sfn "$from" "$to" ;;
    esac
}

# Takes away what the list names; a directory goes only if nothing is left in it.
take_away() {
    local to directory
    while read -r to; do
        rm -f "$prefix/$to" || return 1
        directory=$(dirname "$to")
        while [ "$directory" != . ] && rmdir "$prefix/$directory" 2> /dev/null; do directory=$(dirname "$directory"); done
    done
}

if [ "$job" = uninstall ]; then
    [ -f "$list" ] || stop "nothing of this is installed in $prefix: there is no $list"
    there=$(cat "$list") || exit 1
    rm -f "$list" || exit 1
    take_away <<< "$there" || stop "not all of it could be taken away"
    rmdir "$share/mh" 2> /dev/null
    echo "mh is taken away from $bin."
    exit 0
fi

[ -f "$program" ] && [ -x "$program" ] || stop "there is no program yet: ./build makes it"
look < <(plan) || exit 1
made=()
old=$(cat "$list" 2> /dev/null)
while read -r kind to from; do
    [ -e "$prefix/$to" ] || [ -L "$prefix/$to" ] || made+=("$to")
    if ! put "$kind" "$to" "$from"; then
        rm -f "$prefix/$to.new"
        [ ${#made[@]} = 0 ] || printf '%s\n' "${made[@]}" | take_away
        stop "$prefix/$to could not be put there; what was new is taken away again"
    fi
done < <(plan)
(printf '%s\n' "$old" && plan | cut -d ' ' -f 2) | grep . | LC_ALL=C sort -u > "$list" || stop "$list could not be written"

echo "mh is installed in $bin. Go on with: mh help"
case ${PREFIX-/usr/local} in /usr | /usr/local) ;; *) echo "zsh completes it with this line above compinit in ~/.zshrc: fpath=($share/zsh/site-functions \$fpath)" ;; esac
case :$PATH: in *:"${PREFIX-/usr/local}/bin":*) ;; *) [ -n "${DESTDIR-}" ] || echo "$bin is not in your PATH: export PATH=\"$bin:\$PATH\"" ;; esac
