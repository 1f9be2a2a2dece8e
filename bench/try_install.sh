#!/usr/bin/env bash
# Tries install.sh: bench/try_install.sh [PROGRAM [KEEPING]]
#
# It makes a copy of what install.sh and mgd package read, with PROGRAM and KEEPING (or crates/mgd/out/mgd and crates/mgd_keep/out/mgd_keep, or
# stand-ins) as programs that pass for proved, and installs it in folders of its own. It is started by hand and ends with status 0 if all is as
# it should be. A row that needs git, dpkg-deb or lintian is skipped where that is not installed, and the last line says how many were.
top=$(dirname "$(dirname "$(readlink -f "${BASH_SOURCE[0]}")")")
work=$(mktemp -d)
trap 'rm -rf "$work"' EXIT
program=${1:-$top/crates/mgd/out/mgd}
keep_program=${2:-$top/crates/mgd_keep/out/mgd_keep}
version=$(cat "$top/VERSION")
failed=0
skipped=0

# Skips rows: how many, and why.
skip() {
    echo "skipped: $1 rows, $2"
    skipped=$((skipped + $1))
}

expect() {
    if [ "$2" = "$3" ]; then
        echo "ok    $1"
    else
        printf 'FAILED %s: %s, and not %s\n' "$1" "$2" "$3"
        failed=$((failed + 1))
    fi
}

# What ./install.sh ended with and said last.
install() {
    "$work/tree/install.sh" "$@" > "$work/said" 2>&1
    echo "$? $(tail -n 1 "$work/said")"
}

# All that a folder has, with modes and where links lead.
contents() {
    (cd "$1" && find . -printf '%p %m %l\n' | LC_ALL=C sort)
}

# Takes a program, or a stand-in where there is none: the program, the place, what the stand-in says.
take() {
    if [ -x "$1" ]; then
        cp "$1" "$2"
    else
        printf '#!/bin/sh\necho "usage: %s" >&2\nexit 2\n' "$3" > "$2"
        chmod +x "$2"
    fi
}

mkdir -p "$work/tree/crates/mgd/out" "$work/tree/crates/mgd_keep/out"
cp -r "$top"/{mgd,join,install.sh,LICENSE,VERSION,COMMIT,.gitattributes,.gitignore,crates.txt,contrib,examples,man} "$work/tree/"
mkdir -p "$work/tree/docs"
for page in CHANGELOG.md SECURITY.md docs/OPERATING.md docs/TUTORIAL.md; do
    echo "/usr/local/bin/mgd, $page" > "$work/tree/$page"
done
built=$work/tree/crates/mgd/out
kept=$work/tree/crates/mgd_keep/out
take "$program" "$built/mgd" "mgd replay | mgd serve CONFIG PORT"
expect "without the program that keeps nothing is installed" "$(install "$work/a")" "1 install.sh: nothing is proved and built yet; ./mgd prove does it"
take "$keep_program" "$kept/mgd_keep" "mgd-keep serve FOLDER CONFIG PORT | mgd-keep audit FOLDER"

expect "what was never proved is refused" "$(install "$work/a")" "1 install.sh: the proved programs were built of older sources; ./mgd prove proves these"
# As the launcher keeps them.
(
    # shellcheck disable=SC2034
    top=$work/tree program=$built/mgd keep_program=$kept/mgd_keep
    eval "$(sed -n '/^crates_below()/,/^}/p; /^sum_of_sources()/,/^}/p; /^sums_of_programs()/,/^}/p' "$work/tree/mgd")"
    (sum_of_sources) > "$built/mgd.sources"
    sums_of_programs > "$built/mgd.sum"
    printf 'mgd %s, commit 0123456789ab\nthe kit of the proof\n' "$version" > "$built/mgd.version"
)
expect "the sums are the launcher's" "$("$work/tree/mgd" --state)" proved

for words in "" "relative" "$work/a $work/b" --remove "--remove relative" "$work/a --remove"; do
    # shellcheck disable=SC2086
    expect "arguments '$words'" "$(install $words)" "2 usage: ./install.sh [--remove] PREFIX, a path that begins with /"
done
# shellcheck disable=SC2016
for odd in 'a b' 'a|b' 'a&b' 'a;b' 'a$b' "a'b" 'a\b' 'aüb' $'a\nb' 'a:b'; do
    got=$(install "$work/$odd")
    expect "a prefix with ${odd@Q}" "${got%% *} $(grep -c 'has a character that is no letter' "$work/said")" "1 1"
    expect "and nothing is made" "$(find "$work" -maxdepth 1 -name 'a*')" ""
done
got=$(install "$work/a/../b")
expect "a prefix that leads back" "${got%%:*} $(grep -c 'leads back' "$work/said")" "1 install.sh 1"

# All is there, readable for all whatever the mask, and named after the prefix.
(umask 077 && "$work/tree/install.sh" "$work/a" > "$work/said" 2>&1)
expect "it installs" "$?" 0
expect "it prints each file" "$(sort "$work/said")" "$(find "$work/a" -type f | sort)"
expect "five programs" "$(cd "$work/a/bin" && echo *)" "mgd mgd-check mgd-join mgd-keep mgd-ops"
expect "pages" "$(cd "$work/a/share/man" && echo */*)" "man1/mgd-check.1 man1/mgd-join.1 man1/mgd-keep.1 man1/mgd-ops.1 man1/mgd.1 man5/mgd.toml.5 man7/mgd-keys.7"
expect "folders are open to all to read" "$(find "$work/a" -type d ! -perm 755)" ""
expect "files too" "$(find "$work/a" -type f ! -perm 644 ! -perm 755)" ""
expect "programs can be run" "$(find "$work/a/bin" -type f ! -perm 755)" ""
expect "no name is left of what is installed elsewhere" "$(grep -rl /usr/local "$work/a/share")" ""
expect "the unit names the program" "$(grep -c "$work/a/bin/mgd serve" "$work/a/share/doc/mgd/mgd.service")" 1
expect "so does the other" "$(grep -c "$work/a/bin/mgd-keep serve" "$work/a/share/doc/mgd/mgd-keep.service")" 1
expect "the program is that which was built" "$(cmp "$built/mgd" "$work/a/bin/mgd" && echo same)" same
expect "so is the one that keeps" "$(cmp "$kept/mgd_keep" "$work/a/bin/mgd-keep" && echo same)" same
expect "the operator's pages name it too" "$(cat "$work"/a/share/doc/mgd/*.md)" "$work/a/bin/mgd, CHANGELOG.md
$work/a/bin/mgd, docs/OPERATING.md
$work/a/bin/mgd, SECURITY.md
$work/a/bin/mgd, docs/TUTORIAL.md"
expect "its version is kept" "$("$work/a/bin/mgd-check" --version)" "$("$work/tree/mgd" --version)"
expect "with the version and the commit that were recorded at the proof" "$(head -n 1 "$work/a/share/doc/mgd/version")" "mgd $version, commit 0123456789ab"
expect "and the kit" "$(sed -n 2p "$work/a/share/doc/mgd/version")" "the kit of the proof"
expect "the list of files has them all" "$(LC_ALL=C sort "$work/a/share/doc/mgd/files")" "$(cd "$work/a" && find . -type f -printf '%P\n' | LC_ALL=C sort)"
for name in mgd mgd-keep; do
    expect "with the sum of $name" "$(grep -c "$name sha256 $(sha256sum < "$work/a/bin/$name" | cut -d ' ' -f 1)" "$work/a/share/doc/mgd/version")" 1
done
before=$(contents "$work/a")
expect "again it installs" "$(install "$work/a" | cut -d ' ' -f 1)" 0
expect "and nothing else is there then" "$(contents "$work/a")" "$before"

# A program that runs is replaced, and not written over.
mkdir -p "$work/b/bin"
cp /bin/sleep "$work/b/bin/mgd"
"$work/b/bin/mgd" 600 &
sleeping=$!
expect "over a program that runs" "$(install "$work/b" | cut -d ' ' -f 1)" 0
expect "it runs on" "$(kill "$sleeping" && echo it does)" "it does"

# Links are not followed.
echo mine > "$work/mine"
mkdir -p "$work/c/bin" "$work/c/share/doc/mgd" "$work/elsewhere"
ln -s "$work/mine" "$work/c/bin/mgd"
ln -s "$work/elsewhere" "$work/c/bin/mgd-join"
ln -s "$work/mine" "$work/c/bin/mgd.new"
ln -s "$work/nowhere" "$work/c/share/doc/mgd/version"
expect "over links to a file, a folder and nothing" "$(install "$work/c" | cut -d ' ' -f 1)" 0
expect "what they led to is as it was" "$(cat "$work/mine"; ls "$work/elsewhere"; test -e "$work/nowhere" || echo nothing)" $'mine\nnothing'
expect "the files stand in their places" "$(find "$work/c/bin" -type l -printf '%f ')" "mgd.new "
mkdir -p "$work/d/share" "$work/e"
ln -s "$work/elsewhere" "$work/d/share/man"
before=$(contents "$work/d")
got=$(install "$work/d")
expect "through the link of a folder it does not go" "${got%%,*}" "1 install.sh: $work/d/share/man is a link"
expect "and nothing was put there" "$(find "$work/d" "$work/elsewhere" -type f)" ""
ln -s "$work/e" "$work/link"
expect "a prefix may be one" "$(install "$work/link" | cut -d ' ' -f 1) $(find "$work/e/bin" -type f | wc -l)" "0 5"

# Nothing is half installed.
mkdir -p "$work/f/share/doc/mgd/version" "$work/f/bin"
echo old > "$work/f/bin/mgd"
got=$(install "$work/f")
expect "a folder in a file's place is refused" "$got" "1 install.sh: $work/f/share/doc/mgd/version is a folder, where a file has to be"
expect "and nothing is installed" "$(find "$work/f" -type f -printf '%f ') $(cat "$work/f/bin/mgd")" "mgd  old"
mv "$work/tree/contrib/mgd.rc" "$work/kept"
expect "so it is where a source is gone" "$(install "$work/g" | cut -c 1) $(find "$work/g" -type f)" "2 "
mv "$work/kept" "$work/tree/contrib/mgd.rc"

expect "DESTDIR" "$(DESTDIR=$work/h install /usr | cut -d ' ' -f 1) $(find "$work/h/usr/bin" -type f | wc -l) $(grep -c 'ExecStart=/usr/bin/mgd serve' "$work/h/usr/share/doc/mgd/mgd.service")" "0 5 1"

# What an earlier install put and this one does not have is removed, and nothing else.
echo bin/mgd-older >> "$work/a/share/doc/mgd/files"
touch "$work/a/bin/mgd-older" "$work/a/bin/mgd-mine"
expect "over an older install" "$(install "$work/a")" "0 removed $work/a/bin/mgd-older"
expect "its file is gone, and another is there" "$(cd "$work/a/bin" && echo *)" "mgd mgd-check mgd-join mgd-keep mgd-mine mgd-ops"
for name in ../mine 'bin/a b' bin/ '' share/man; do
    cp -r "$work/a" "$work/j"
    echo "$name" >> "$work/j/share/doc/mgd/files"
    before=$(contents "$work/j")
    expect "a list of files with ${name@Q} is refused" "$(install "$work/j" | cut -c 1) $(install --remove "$work/j" | cut -c 1)" "1 1"
    expect "and nothing is changed" "$(contents "$work/j")" "$before"
    rm -r "$work/j"
done

# Removing.
expect "where nothing is installed" "$(install --remove "$work/elsewhere")" \
    "1 install.sh: there is no $work/elsewhere/share/doc/mgd/files, which an install writes; nothing is removed"
cp -r "$work/a" "$work/j"
mv "$work/j/share/man" "$work/j/man"
ln -s "$work/j/man" "$work/j/share/man"
before=$(contents "$work/j")
expect "through a link nothing is removed" "$(install --remove "$work/j")" "1 install.sh: $work/j/share/man is a link, and nothing is removed through one"
expect "and all is there" "$(contents "$work/j")" "$before"
mkdir -p "$work/h/etc/systemd/system"
touch "$work/h/etc/systemd/system/mgd.service"
expect "removing tells of a unit that is left" "$(DESTDIR=$work/h install --remove /usr)" "0 install.sh: $work/h/etc/systemd/system/mgd.service is still there: \
systemctl disable --now mgd; rm $work/h/etc/systemd/system/mgd.service; systemctl daemon-reload"
expect "and all files are gone" "$(find "$work/h/usr" -type f)$(find "$work/h/usr/share/doc" -name mgd)" ""
echo mine > "$work/a/share/doc/mgd/mine"
expect "removing leaves what it did not put" "$(install --remove "$work/a") $(cd "$work/a" && find . -type f -printf '%P\n' | LC_ALL=C sort | tr '\n' ' ')" \
    "0 $work/a/share/doc/mgd has files of others, and stays bin/mgd-mine share/doc/mgd/mine "
expect "removing again" "$(install --remove "$work/a" | cut -d , -f 1)" "1 install.sh: there is no $work/a/share/doc/mgd/files"

# The version that is recorded, and that of git.
expect "without git the version is that of the proof" "$("$work/tree/mgd" --version | head -n 2)" "mgd $version, commit 0123456789ab"$'\n'"the kit of the proof"
if command -v git > /dev/null; then
    git() { command git -C "$work/tree" -c user.name=a -c user.email=a@example.org -c commit.gpgsign=false "$@"; }
    git init -q && git add . && git commit -q -m one
    commit=$(git rev-parse HEAD | cut -c 1-12)
    expect "with git it is git's" "$("$work/tree/mgd" --version | head -n 1)" "mgd $version, commit $commit"
    mkdir "$work/source"
    git archive HEAD | tar -C "$work/source" -x
    expect "an archive of the sources knows it" "$("$work/source/mgd" --version | head -n 1)" "mgd $version, commit $commit"
else
    skip 2 "git is not installed"
fi

# The archive and the Debian package.
if ! command -v git > /dev/null || ! command -v dpkg-deb > /dev/null; then
    skip 18 "git or dpkg-deb is not installed"
else
    name=mgd-$version-linux-x86_64
    deb=mgd_${version}_amd64.deb
    expect "it packs" "$("$work/tree/mgd" package "$work/dist" > "$work/said" 2>&1; echo $?) $(cd "$work/dist" && echo *)" "0 SHA256SUMS $name.tar.gz $deb"
    expect "it prints the sums" "$(cat "$work/said")" "$(cat "$work/dist/SHA256SUMS")"
    expect "the sums are right" "$(cd "$work/dist" && sha256sum --check --quiet SHA256SUMS && echo right)" right
    sleep 1
    "$work/tree/mgd" package "$work/dist2" > /dev/null 2>&1
    expect "again it makes the same bytes" "$(cat "$work/dist2/SHA256SUMS")" "$(cat "$work/dist/SHA256SUMS")"
    tar -C "$work" -xzf "$work/dist/$name.tar.gz"
    expect "the archive installs" "$("$work/$name/install.sh" "$work/k" > /dev/null; echo $?)" 0
    DESTDIR=$work/k1 "$work/$name/install.sh" /usr > /dev/null
    DESTDIR=$work/k2 install /usr > /dev/null
    expect "the same as the sources do" "$(diff -r "$work/k1" "$work/k2") $(contents "$work/k1")" " $(contents "$work/k2")"
    expect "its version has the commit" "$(head -n 1 "$work/k/share/doc/mgd/version")" "mgd $version, commit $commit"
    expect "and mgd-check prints it" "$("$work/k/bin/mgd-check" --version)" "$(cat "$work/k/share/doc/mgd/version")"
    echo >> "$work/$name/man/mgd.1"
    got=$("$work/$name/install.sh" "$work/m" 2>&1)
    expect "an archive that was changed is refused" "$? ${got##*$'\n'} $(find "$work/m" 2> /dev/null)" \
        "1 install.sh: a file is not as it was packed; unpack the archive again "
    dpkg-deb -x "$work/dist/$deb" "$work/n"
    expect "the package has the programs as they were built" "$(cmp "$built/mgd" "$work/n/usr/bin/mgd" && cmp "$kept/mgd_keep" "$work/n/usr/bin/mgd-keep" && echo same)" same
    expect "and the units at their place" "$(cd "$work/n" && find . -name '*.service' | sort | tr '\n' ' ')" \
        "./lib/systemd/system/mgd-keep.service ./lib/systemd/system/mgd.service "
    expect "with the programs of the package" "$(grep -c 'local/bin' "$work"/n/lib/systemd/system/*.service | cut -d : -f 2 | tr '\n' ' ')" "0 0 "
    dpkg-deb -e "$work/dist/$deb" "$work/n/DEBIAN"
    expect "what it needs" "$(sed -n 's/^Depends: //p' "$work/n/DEBIAN/control")" "libc6 (>= 2.34), perl"
    for script in postinst prerm postrm; do
        expect "its $script is a script" "$(sh -n "$work/n/DEBIAN/$script" && echo yes)" yes
    done
    echo >> "$work/tree/join"
    expect "what is not committed is not packed" "$("$work/tree/mgd" package "$work/dist3" 2>&1; echo $?)" \
        "mgd: there are changes that are not committed, so the package would be of no commit"$'\n'"1"
    git checkout -q join
    # What the programs are matters to lintian, so stand-ins are not shown to it.
    if ! command -v lintian > /dev/null || ! head -c 4 "$built/mgd" | grep -q ELF; then
        skip 1 "lintian is not installed, or the programs are stand-ins"
    else
        expect "lintian finds no error" "$(lintian --allow-root --fail-on error "$work/dist/$deb" > "$work/said" 2>&1; echo $?; grep '^[EW]:' "$work/said")" 0
    fi
fi

cp "$built/mgd" "$work/kept"
for changed in "$built/mgd" "$kept/mgd_keep"; do
    echo >> "$changed"
    expect "a program that was changed is refused: ${changed##*/}" "$(install "$work/i")" "1 install.sh: a program is not as it was built; ./mgd prove builds it"
    cp "$work/kept" "$built/mgd"
done
rm "$built/mgd"
expect "no program" "$(install "$work/i")" "1 install.sh: nothing is proved and built yet; ./mgd prove does it"

[ "$skipped" = 0 ] || echo "$skipped skipped"
echo "$failed failed"
[ "$failed" = 0 ]
