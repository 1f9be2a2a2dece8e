#!/bin/sh
# Installs mgd, or removes it: ./install.sh PREFIX or ./install.sh --remove PREFIX, for example /usr/local. With DESTDIR set, PREFIX is
# below that folder.
# It installs proved programs: those that ./mgd prove built of these sources, or in an archive of ./mgd package those of the archive. It
# writes all files under other names first, so that either all of them get their names or none does. PREFIX/share/doc/mgd/files lists them:
# by this list the next install removes what it does not replace, and --remove removes all.
set -eu
umask 022

top=$(cd "$(dirname "$0")" && pwd)
tab=$(printf '\t')

fail() {
    printf 'install.sh: %s\n' "$1" >&2
    exit 1
}

# What goes into scripts, units and manual pages has to mean itself there.
need_plain() {
    case $2 in
    *[!A-Za-z0-9/._-]*) fail "$1 has a character that is no letter, no digit and none of / . _ -: $2" ;;
    /../* | */../* | */..) fail "$1 leads back by ..: $2" ;;
    esac
}

is_removing=
if [ "${1-}" = --remove ]; then
    is_removing=yes
    shift
fi
case $#,${1-} in
1,/*) prefix=${1%/} ;;
*)
    echo 'usage: ./install.sh [--remove] PREFIX, a path that begins with /' >&2
    exit 2
    ;;
esac
need_plain PREFIX "$prefix"
need_plain DESTDIR "${DESTDIR-}"

to=${DESTDIR-}$prefix
case $(uname -s) in
OpenBSD) man=$to/man ;;
*) man=$to/share/man ;;
esac
files=share/doc/mgd/files

# Checks that a name of the list of files leads to a place below PREFIX, by folders and not by links.
need_own_place() {
    need_plain "a name of $to/$files" "/$1"
    way=$to
    rest=$1
    while [ "$rest" != "${rest#*/}" ]; do
        way=$way/${rest%%/*}
        rest=${rest#*/}
        [ ! -L "$way" ] || fail "$way is a link, and nothing is removed through one"
    done
    [ -n "$rest" ] || fail "a name of $to/$files is empty or ends with /"
    [ -L "$way/$rest" ] || [ ! -d "$way/$rest" ] || fail "$way/$rest is a folder, and only files are removed"
}

# Checks the names of a list that another list does not have.
check_names() {
    while IFS= read -r name; do
        grep -qxF -e "$name" "$2" || need_own_place "$name"
    done < "$1"
}

# Removes the files of a list that another list does not have, and prints each.
remove_files() {
    while IFS= read -r name; do
        if ! grep -qxF -e "$name" "$2"; then
            rm -f "$to/$name"
            printf 'removed %s\n' "$to/$name"
        fi
    done < "$1"
}

# Removes what is installed. Units in /etc and texts are not in the list of files, and stay.
remove() {
    [ -f "$to/$files" ] || fail "there is no $to/$files, which an install writes; nothing is removed"
    need_own_place "$files"
    check_names "$to/$files" /dev/null
    cat "$to/$files" > "$old"
    remove_files "$old" /dev/null
    for folder in share/doc/mgd/examples share/doc/mgd; do
        rmdir "$to/$folder" 2> /dev/null || [ ! -d "$to/$folder" ] || printf '%s has files of others, and stays\n' "$to/$folder"
    done
    for unit in mgd mgd-keep; do
        place=${DESTDIR-}/etc/systemd/system/$unit.service
        [ ! -e "$place" ] || printf 'install.sh: %s is still there: systemctl disable --now %s; rm %s; systemctl daemon-reload\n' "$place" "$unit" "$place" >&2
    done
}

# Moves a file to a place where no folder is. Where mv can be told so, it takes no link to one for a folder either.
move() {
    case $(uname -s) in
    Linux) mv -fT "$1" "$2" ;;
    *) mv -f "$1" "$2" ;;
    esac
}

# The files that were written and are not in their places, each with its place. What is left of them at the end goes.
list=$(mktemp)
text=$(mktemp)
old=$(mktemp)
clear_up() {
    while IFS=$tab read -r new place; do
        [ "$new" = "$place" ] || rm -f "$new"
    done < "$list"
    rm -f "$list" "$text" "$old"
}
trap clear_up EXIT
trap 'exit 129' HUP
trap 'exit 130' INT
trap 'exit 143' TERM

if [ -n "$is_removing" ]; then
    remove
    exit
fi

# An archive has the sum of each of its files; sources have the state of what was proved.
if [ -f "$top/archive.sha256" ]; then
    (cd "$top" && sha256sum --check --strict --quiet archive.sha256) || fail 'a file is not as it was packed; unpack the archive again'
    program=$top/bin/mgd
    keep_program=$top/bin/mgd-keep
else
    case $("$top/mgd" --state) in
    proved) ;;
    older) fail 'the proved programs were built of older sources; ./mgd prove proves these' ;;
    other) fail 'a program is not as it was built; ./mgd prove builds it' ;;
    *) fail 'nothing is proved and built yet; ./mgd prove does it' ;;
    esac
    program=$top/crates/mgd/out/mgd
    keep_program=$top/crates/mgd_keep/out/mgd_keep
fi

# Makes a folder below the prefix, where no part of the way may be a link.
make_folder() {
    mkdir -p "$to/"
    way=$to
    rest=${1#"$to"/}/
    while [ -n "$rest" ]; do
        way=$way/${rest%%/*}
        rest=${rest#*/}
        [ ! -L "$way" ] || fail "$way is a link, and nothing is put through one; name the folder itself as PREFIX, or take the link away"
        [ -d "$way" ] || mkdir "$way"
    done
}

# Writes what comes on standard input into a new file beside a place: its mode, its place.
put() {
    make_folder "${2%/*}"
    [ -L "$2" ] || [ ! -d "$2" ] || fail "$2 is a folder, where a file has to be"
    new=$(mktemp "${2%/*}/.mgd-new.XXXXXXXX")
    printf '%s\t%s\n' "$new" "$2" >> "$list"
    cat > "$new"
    chmod "$1" "$new"
}

# The same of a text that names the program, which lies in PREFIX.
put_text() {
    sed -e "s|/usr/local/bin/|$prefix/bin/|g" -e "s|/usr/local/share/|$prefix/share/|g" "$1" > "$text"
    put 0644 "$2" < "$text"
}

put 0755 "$to/bin/mgd" < "$program"
put 0755 "$to/bin/mgd-keep" < "$keep_program"
put 0755 "$to/bin/mgd-join" < "$top/join"
put 0755 "$to/bin/mgd-check" < "$top/contrib/mgd-check"
put 0755 "$to/bin/mgd-ops" < "$top/contrib/mgd-ops"
put_text "$top/man/mgd.1" "$man/man1/mgd.1"
put_text "$top/man/mgd-keep.1" "$man/man1/mgd-keep.1"
put_text "$top/man/mgd-join.1" "$man/man1/mgd-join.1"
put_text "$top/man/mgd-check.1" "$man/man1/mgd-check.1"
put_text "$top/man/mgd-ops.1" "$man/man1/mgd-ops.1"
put_text "$top/man/mgd.toml.5" "$man/man5/mgd.toml.5"
put_text "$top/man/mgd-keys.7" "$man/man7/mgd-keys.7"
for file in "$top"/examples/*; do
    put 0644 "$to/share/doc/mgd/examples/${file##*/}" < "$file"
done
put_text "$top/contrib/mgd.service" "$to/share/doc/mgd/mgd.service"
put_text "$top/contrib/mgd-keep.service" "$to/share/doc/mgd/mgd-keep.service"
put_text "$top/contrib/mgd.rc" "$to/share/doc/mgd/mgd.rc"
put 0644 "$to/share/doc/mgd/LICENSE" < "$top/LICENSE"
for page in CHANGELOG.md SECURITY.md docs/OPERATING.md docs/TUTORIAL.md; do
    [ ! -f "$top/$page" ] || put_text "$top/$page" "$to/share/doc/mgd/${page##*/}"
done
if [ -f "$top/archive.sha256" ]; then
    cat "$top/version" > "$text"
else
    "$top/mgd" --version > "$text"
fi
put 0644 "$to/share/doc/mgd/version" < "$text"
# The list of files has its own name too.
{
    while IFS=$tab read -r new place; do
        printf '%s\n' "${place#"$to"/}"
    done < "$list"
    printf '%s\n' "$files"
} > "$text"
put 0644 "$to/$files" < "$text"
[ -L "$to/$files" ] || [ ! -f "$to/$files" ] || cat "$to/$files" > "$old"
check_names "$old" "$text"

while IFS=$tab read -r new place; do
    move "$new" "$place"
    printf '%s\n' "$place"
done < "$list"
remove_files "$old" "$text"
