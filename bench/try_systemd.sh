#!/usr/bin/env bash
# Tries the units and the packages under a real systemd: bench/try_systemd.sh FOLDER
#
# FOLDER has what ./mgd package made. All is tried on another machine, of which these variables tell; it is a Debian that nobody else uses,
# since its mgd and texts come and go.
#   SSH        runs one command line as root there, as: ssh -p 2222 root@127.0.0.1
#   PUT        copies the files that it is given to /root there
#   REBOOT     boots it again, and ends when SSH works again (if it is not set, the rows on that are skipped)
#   POWER_CUT  takes its power away at once, boots it, and ends when SSH works again (the same)
#   PATIENCE   how many seconds a client may take to be back after a restart; 2, and more for a machine that is emulated
# With SSH=here all is tried on this machine, by root, if it has no mgd of its own.
# It ends with status 0 if no row failed.
#
# What stands in single quotes is for the shell of that machine.
# shellcheck disable=SC2016
set -u
top=$(dirname "$(dirname "$(readlink -f "${BASH_SOURCE[0]}")")")
version=$(cat "$top/VERSION")
folder=${1:?FOLDER is missing: what ./mgd package made}
patience=${PATIENCE:-2}
passed=0
failed=0
skipped=0
work=$(mktemp -d)
trap 'rm -rf "$work"' EXIT

# Runs a command line on the machine.
on() {
    if [ "${SSH:?SSH is missing: see the head of this file}" = here ]; then
        (cd /root && exec bash -c "$1")
    else
        $SSH "$1"
    fi < /dev/null 2>&1
}

put() {
    if [ "$SSH" = here ]; then
        cp -r "$@" /root/
    else
        $PUT "$@"
    fi
}

expect() {
    if [ "$2" = "$3" ]; then
        echo "ok    $1"
        passed=$((passed + 1))
    else
        printf 'FAILED %s: %s, and not %s\n' "$1" "$2" "$3"
        failed=$((failed + 1))
    fi
}

# Skips rows: how many, and why.
skip() {
    echo "skipped: $1 rows, $2"
    skipped=$((skipped + $1))
}

# Waits until a command on the machine succeeds: seconds, the command.
wait_for() {
    on "for ((i = 0; i < $1 * 5; i++)); do if $2; then exit 0; fi; sleep 0.2; done; exit 1" > /dev/null
}

# Begins a part: what is said of a unit from here on is what said prints.
part() {
    echo "-- $1"
    cursor=$(on "journalctl -n 0 --show-cursor -q" | sed -n 's/^-- cursor: //p')
}

# Prints what a unit, and systemd about it, put into the journal of systemd since the part began.
said() {
    on "journalctl -q --after-cursor='$cursor' -o cat -u $1 --no-pager"
}

# Prints whether a unit said a line of one of these forms.
has_said() {
    local forms=("${@:2}")
    if said "$1" | grep -q "${forms[@]/#/-e}"; then echo yes; else echo "no: $(said "$1")"; fi
}

# Prints state, result and restarts of a unit.
state() {
    on "systemctl show $1 -p ActiveState -p Result -p NRestarts" | sed 's/.*=//' | sort | tr '\n' ' '
}

# Prints whether bob reads the notes.
bob_reads() {
    on 'perl client.pl screen bob %18bnotes%0D' > "$work/bob"
    if grep -q first "$work/bob"; then echo yes; elif grep -q 'no read: entry 1' "$work/bob"; then echo no; else cat "$work/bob"; fi
}

# Starts a client in the background, whose output goes to a file: the file's name, the words for it. It has logged in when this ends.
client() {
    on "setsid -f perl /root/client.pl ${*:2} > /root/$1.out 2>&1"
    wait_for 20 "grep -q . /root/$1.out"
}

cat > "$work/client.pl" << 'PERL'
# A client for try_systemd.sh. Bytes of its words may be written as %41.
use strict;
use warnings;
use IO::Socket::INET;
$| = 1;
my %ticket = (ann => 'kx8Vw2Lq5Tz0Rb7Nc4Mf6Hd1', bob => 'Pj3Gs9Yt6Wn2Xk8Qv5Bz1Lc7', eve => 'Zr4Hm7Dq1Fx9Tk3Vn6Sw8Gb2');
sub dial { return IO::Socket::INET->new(PeerAddr => '127.0.0.1:7000') || do { print "no server\n"; exit 3 } }
sub login {
    my ($user) = @_;
    my $server = dial();
    syswrite $server, "login $user $ticket{$user} 24 80\n";
    return $server;
}
# Reads for some seconds, or until something came and nothing more comes for so long.
sub drain {
    my ($server, $seconds, $quiet) = @_;
    my ($end, $all) = (time + $seconds, '');
    while (time <= $end) {
        my $bits = '';
        vec($bits, fileno $server, 1) = 1;
        my $count = select my $ready = $bits, undef, undef, $quiet // 0.2;
        return $all if !$count && defined $quiet && $all ne '';
        next if $count <= 0;
        return "$all\nended" unless sysread $server, $all, 65_536, length $all;
    }
    return $all;
}
my ($what, @words) = map { s/%([0-9A-F]{2})/chr hex $1/ger } @ARGV;
if ($what eq 'type') {    # USER KEYS SECONDS: types, says so, and stays
    my ($user, $keys, $seconds) = @words;
    my $server = login($user);
    my $screen = drain($server, 20, 0.5);
    if ($screen !~ /\A\e/) { print $screen; exit 1 }
    syswrite $server, $keys;
    drain($server, 20, 0.5);
    print "typed\n";
    print drain($server, $seconds) =~ /ended\z/ ? "ended\n" : "stayed\n";
}
elsif ($what eq 'screen') {    # USER KEYS: prints all that is painted
    my $server = login($words[0]);
    my $painted = drain($server, 20, 0.5);
    if (defined $words[1]) {
        syswrite $server, $words[1];
        $painted .= drain($server, 20, 0.5);
    }
    print $painted =~ s/\e\[[0-9;?]*[A-Za-z]/ /gr, "\n";
}
elsif ($what eq 'fill') {    # NUMBER SECONDS: connections that say nothing
    my @held = map { dial() } 1 .. $words[0];
    print "filled\n";
    sleep $words[1];
}
elsif ($what eq 'health') {
    my $server = dial();
    syswrite $server, "health\n";
    print drain($server, 20, 5) =~ s/\n.*//sr, "\n";
}
elsif ($what eq 'flood') {    # NUMBER: logins that are refused, each by another name, and denials, up to 150 a second
    my $session = login('bob');
    drain($session, 20, 0.5);
    for my $number (1 .. $words[0]) {
        my $server = dial();
        syswrite $server, "login u$number x 24 80\n";
        sysread $server, my $answer, 100;
        syswrite $session, 'x' unless $number % 10;
        select undef, undef, undef, 0.1 unless $number % 15;
    }
    drain($session, 20, 1);
    print "flooded\n";
}
elsif ($what eq 'listen') {    # SECONDS
    my $socket = IO::Socket::INET->new(LocalAddr => '127.0.0.1:7000', Listen => 5, ReuseAddr => 1) or die;
    print "listens\n";
    sleep $words[0];
}
PERL

# What another mgd of this machine would lose.
if ! found=$(on 'ls -d /etc/mgd.toml /var/lib/private/mgd /var/lib/private/mgd-keep /usr/bin/mgd /usr/local/bin/mgd 2> /dev/null; test -d /run/systemd/system && id -u'); then
    echo "the machine does not answer, or has no systemd: $found" >&2
    exit 1
fi
if [ "$found" != 0 ]; then
    echo "this is not done by root, or the machine has an mgd of its own: $found" >&2
    exit 1
fi
put "$work/client.pl" "$folder/mgd-$version-linux-x86_64.tar.gz" "$folder/mgd_${version}_amd64.deb"
on 'systemctl --version | head -n 1; grep PRETTY /etc/os-release'
# A low limit, to see that the units do not come under it. It is multiplied by up to 6 where the disk has room.
on 'mkdir -p /etc/systemd/journald.conf.d; printf "[Journal]\nRateLimitIntervalSec=600s\nRateLimitBurst=100\n" > /etc/systemd/journald.conf.d/try_systemd.conf
    systemctl restart systemd-journald'

# Writes a configuration. Each word is one more line at the end.
configure() {
    cat > "$work/mgd.toml" << 'TOML'
[[user]]
name = "ann"
ticket = "kx8Vw2Lq5Tz0Rb7Nc4Mf6Hd1"
[[user]]
name = "bob"
ticket = "Pj3Gs9Yt6Wn2Xk8Qv5Bz1Lc7"
[[user]]
name = "eve"
ticket = "Zr4Hm7Dq1Fx9Tk3Vn6Sw8Gb2"
[[user]]
name = "ops"
ticket = "Sk2mWq8Zr5Tn1Vb7Xc3Lp9Qd"
[[buffer]]
name = "notes"
owner = "ann"
list = ["ALLOW OWNER@ rwatcCo", "ALLOW ops rwtc", "ALLOW EVERYONE@ rt"]
file = "notes.txt"
TOML
    [ $# = 0 ] || printf '%s\n' "$@" >> "$work/mgd.toml"
    put "$work/mgd.toml"
    on 'install -m 0600 /root/mgd.toml /etc/mgd.toml'
}

ticket_of_ops='umask 077; echo Sk2mWq8Zr5Tn1Vb7Xc3Lp9Qd > /etc/mgd-ops.ticket'

part "an archive is installed"
expect "install.sh" "$(on "cd /root && tar -xzf mgd-$version-linux-x86_64.tar.gz && mgd-$version-linux-x86_64/install.sh /usr/local > /root/installed; echo \$?")" 0
expect "mgd-check tells the version" "$(on '/usr/local/bin/mgd-check --version' | head -n 1 | cut -d , -f 1)" "mgd $version"
on 'cp /usr/local/share/doc/mgd/*.service /etc/systemd/system/ && systemctl daemon-reload && mandb -q' > /dev/null
for unit in mgd mgd-keep; do
    expect "systemd-analyze verify $unit is silent" "$(on "systemd-analyze verify /etc/systemd/system/$unit.service; echo \$?")" 0
    expect "systemd-analyze security $unit is at most 1.1" "$(on "systemd-analyze security $unit" | sed -n 's/.*exposure level.*: \([0-9.]*\) .*/\1/p' | awk '{ print ($1 <= 1.1) ? "yes" : $1 }')" yes
    expect "without a configuration $unit does not start" "$(on "systemctl start $unit > /dev/null 2>&1; echo \$?") $(state $unit)" "1 0 inactive success "
done

part "mgd starts, and a stop saves"
configure
on "$ticket_of_ops"
on 'mkdir /var/lib/mgd && (echo first; yes line | head -n 40) > /var/lib/mgd/notes.txt'
expect "it starts" "$(on 'systemctl start mgd; echo $?')" 0
expect "'Started' comes after 'listening'" "$(said mgd | grep -n -e '^listening 127.0.0.1:7000$' -e '^Started mgd.service' | sed 's/^[0-9]*://; s/ .*//' | tr '\n' ' ')" "listening Started "
expect "it is healthy" "$(on 'perl client.pl health')" "refused 1 Line"
expect "it is not root, and has no root's groups" "$(on 'ps -o uid=,gid= -p $(systemctl show -P MainPID mgd)' | awk '{ print ($1 >= 61184 && $2 >= 61184) ? "yes" : $0 }')" yes
# With systemd 257 all files there belong to nobody outside of the unit.
expect "the folder that root made is not root's any more, with what is in it" \
    "$(on 'stat -c %u /var/lib/private/mgd/. /var/lib/private/mgd/notes.txt' | sort -u | awk '$1 >= 61184 { count++ } END { print count, NR }')" "1 1"
expect "others cannot read it" "$(on 'stat -c %a /var/lib/private/mgd/. /var/lib/private | tr "\n" " "')" "700 700 "
client ann type ann 'typed%20' 60
expect "a stop with an unsaved text" "$(on 'systemctl stop mgd; echo $?') $(state mgd)" "0 0 inactive success "
expect "its file has it" "$(on 'head -n 1 /var/lib/private/mgd/notes.txt')" "typed first"
expect "the journal says so" "$(has_said mgd '^notes: Wrote notes')" yes
expect "the session ended" "$(on 'cat ann.out' | tail -n 1)" ended
expect "the copy of the ticket is gone" "$(on 'ls /run/mgd /run/private/mgd 2>&1 | grep -c "No such file"')" 2

on 'systemctl start mgd'
client ann type ann 'more%20' 60
on 'echo another > /etc/mgd-ops.ticket'
expect "a ticket of ops that was changed since the start" "$(on 'systemctl stop mgd; echo $?; head -n 1 /var/lib/private/mgd/notes.txt' | tr '\n' ' ')" "0 more typed first "
on "$ticket_of_ops"

on 'systemctl start mgd'
client ann type ann 'full%20' 60
client fill fill 63 60
expect "with all 64 places taken" "$(on 'perl client.pl health; systemctl stop mgd; echo $?; head -n 1 /var/lib/private/mgd/notes.txt' | tr '\n' ' ')" "refused 5 Full 0 full more typed first "

part "a text that ops may not save"
configure '[[buffer]]' 'name = "closed"' 'owner = "ann"' 'list = ["ALLOW OWNER@ rwatcCo", "ALLOW ops t"]' 'file = "closed.txt"'
on 'echo closed > /var/lib/private/mgd/closed.txt; chown --reference=/var/lib/private/mgd /var/lib/private/mgd/*'
on 'systemctl start mgd'
client ann type ann '%18bclosed%0Dlost%20' 60
expect "the stop says 0, and the unit failed" "$(on 'systemctl stop mgd; echo $?') $(state mgd)" "0 0 exit-code failed "
expect "the journal names it" "$(has_said mgd '^closed: ')" yes

part "a stop without ops"
on 'rm /etc/mgd-ops.ticket'
configure
on 'systemctl start mgd'
client ann type ann 'lost%20' 60
expect "it stops" "$(on 'systemctl stop mgd; echo $?') $(state mgd)" "0 0 inactive success "
expect "the journal says what is lost" "$(has_said mgd 'texts that were not saved are lost (there is no /etc/mgd-ops.ticket)')" yes
expect "and the file is as it was" "$(on 'head -n 1 /var/lib/private/mgd/notes.txt')" "full more typed first"
on "$ticket_of_ops"

part "a refused configuration"
on 'systemctl start mgd'
client ann type ann 'kept%20' 120
configure '[[user]]' 'name = "bob"' 'ticket = "another-ticket-of-bob"'
expect "mgd-check refuses it" "$(on 'mgd-check --from /var/lib/mgd /etc/mgd.toml > /root/check.out 2>&1; echo $?')" 1
expect "and names the line" "$(on 'grep -c "mgd.toml:19: user 5: .*bob" /root/check.out')" 1
expect "the session is there" "$(on 'cat ann.out' | tail -n 1)" typed
expect "a restart answers 1" "$(on 'systemctl restart mgd > /dev/null 2>&1; echo $?')" 1
expect "the session ended, since the stop was asked for" "$(on 'sleep 1; cat ann.out' | tail -n 1)" ended
expect "its text was saved" "$(on 'head -n 1 /var/lib/private/mgd/notes.txt')" "kept full more typed first"
sleep 8
expect "it is not tried again" "$(state mgd)" "0 exit-code failed "
expect "journalctl has the fault" "$(has_said mgd '^user 5: Twice')" yes
expect "and what is wrong, with its line" "$(has_said mgd 'mgd.toml:19: user 5: .*bob')" yes
configure
expect "with the configuration of before it starts" "$(on 'systemctl start mgd; echo $?; perl client.pl health' | tr '\n' ' ')" "0 refused 1 Line "

part "a new file by root"
configure '[[buffer]]' 'name = "new"' 'owner = "ann"' 'list = ["ALLOW OWNER@ rwatcCo", "ALLOW ops rwtc"]' 'file = "new.txt"'
on '(umask 077; echo new > /var/lib/private/mgd/new.txt)'
expect "a file that is root's own is refused" "$(on 'systemctl restart mgd > /dev/null 2>&1; echo $?')" 1
expect "journalctl says why" "$(has_said mgd 'new.txt.*cannot be read')" yes
expect "with the owner of its folder it starts" "$(on 'chown --reference=/var/lib/private/mgd /var/lib/private/mgd/new.txt; systemctl start mgd; echo $?')" 0

part "a port that is taken, and a crash"
on 'systemctl stop mgd'
client listen listen 12
expect "the start answers 1" "$(on 'systemctl start mgd > /dev/null 2>&1; echo $?')" 1
expect "it is tried again, and serves when the port is free" "$(wait_for 60 'systemctl --quiet is-active mgd' && on 'perl client.pl health')" "refused 1 Line"
on 'kill -9 $(systemctl show -P MainPID mgd)'
expect "after a crash it is there again" "$(on 'sleep 1'; wait_for 60 'systemctl --quiet is-active mgd' && on 'perl client.pl health')" "refused 1 Line"

part "from mgd to mgd-keep"
configure
on 'systemctl restart mgd'
on 'systemctl enable mgd' > /dev/null
client ann type ann 'moved%20' 60
expect "three commands" "$(on 'systemctl disable --now mgd > /dev/null 2>&1 && cp -a /var/lib/private/mgd /var/lib/private/mgd-keep && systemctl enable --now mgd-keep > /dev/null 2>&1; echo $?')" 0
expect "mgd-keep serves" "$(on 'perl client.pl health') $(state mgd-keep)" "refused 1 Line 0 active success "
expect "mgd does not" "$(state mgd)" "0 inactive success "
expect "the text of before the stop is there" "$(on 'perl client.pl screen bob' | grep -c 'moved kept full more typed first')" 1
# The list is changed in a session: bob loses his right. Then a text is typed, and nobody saves it.
client ann type ann '%151%1Bxacl-insert%0DDENY%20bob%20r%0D' 60
client ann type ann '%1B%3Eunsaved' 60
on 'rm /etc/mgd-ops.ticket; sleep 2'
expect "a restart" "$(on 'systemctl restart mgd-keep; echo $?')" 0
expect "what bob lost he does not have again" "$(bob_reads)" no
expect "the unsaved text is there" "$(on 'perl client.pl screen ann %1B%3E' | grep -c 'unsaved')" 1
on "$ticket_of_ops; systemctl restart mgd-keep"
expect "a start of mgd stops mgd-keep" "$(on 'systemctl start mgd; echo $?') $(state mgd-keep)" "0 0 inactive success "
expect "and the other way round" "$(on 'systemctl start mgd-keep; echo $?') $(state mgd)" "0 0 inactive success "
expect "its lines have its name" "$(on 'journalctl -u mgd-keep -o json --output-fields=SYSLOG_IDENTIFIER -n 1 _TRANSPORT=stdout' | grep -c '"mgd-keep"')" 1

part "options for one start"
client eve type eve '%18bdraft%0Dtext' 60
on 'sleep 2'
configure
on 'perl -0pi -e "s/\[\[user\]\]\nname = .eve.\nticket = .*\n//" /etc/mgd.toml'
expect "a user who owns a buffer is gone: refused" "$(on 'grep -c eve /etc/mgd.toml; systemctl restart mgd-keep > /dev/null 2>&1; echo $?' | tr '\n' ' ')" "0 1 "
expect "journalctl names the buffer" "$(has_said mgd-keep 'buffer draft: owner eve is no user')" yes
on 'echo "MGD_KEEP_ONCE=--owner draft ann" > /run/mgd-keep.once'
expect "with a new owner for one start" "$(on 'systemctl start mgd-keep; echo $?; ls /run/mgd-keep.once 2> /dev/null')" 0
expect "and again without" "$(on 'systemctl restart mgd-keep; echo $?')" 0
configure
on 'systemctl restart mgd-keep'

part "a flood"
on 'systemd-run --quiet --wait -u try-flood bash -c "seq 3000"' > /dev/null
expect "a unit with the limit of the machine loses lines" "$(on 'journalctl -q --no-pager -o cat -u try-flood | grep -c "^[0-9]*$"' | awk '{ print ($1 < 3000) ? "yes" : $1 }')" yes
client flood flood 3000
expect "all logins were refused" "$(wait_for 600 'grep -q flooded /root/flood.out' && echo yes)" yes
on 'sleep 2'
# Every line of the audit since the part began, and as many in the journal of systemd, which strips the TABs at the end of a line.
on "journalctl -q --after-cursor='$cursor' -o cat -u mgd-keep --no-pager | grep -P '^20[^\t]*Z\t' > /root/lines; mgd-keep audit /var/lib/private/mgd-keep/journal | grep -P '^20[^\t]*Z\t' | sed 's/\t*\$//' | tail -n \$(wc -l < /root/lines) > /root/audit" > /dev/null
expect "mgd-keep has more than 1,000" "$(on 'wc -l < /root/lines' | awk '{ print ($1 > 1000) ? "yes" : $1 }')" yes
expect "the journal has each line of the audit" "$(on 'cmp /root/lines /root/audit && echo same')" same

part "a journal that fails"
on 'mv /var/lib/private/mgd-keep/journal/journal.sqlite3 /root/taken'
expect "its file was moved away: it ends" "$(wait_for 60 '! systemctl --quiet is-active mgd-keep' && echo yes)" yes
sleep 8
expect "and is not started again" "$(state mgd-keep)" "0 exit-code failed "
expect "the journal says why" "$(has_said mgd-keep '^journal failed')" yes
expect "it made no new one" "$(on 'ls /var/lib/private/mgd-keep/journal')" journal.sqlite3-wal
expect "put back, it starts" "$(on 'mv /root/taken /var/lib/private/mgd-keep/journal/journal.sqlite3; systemctl start mgd-keep; echo $?')" 0
expect "with the rights of before" "$(bob_reads)" no

part "a full disk"
on 'systemctl stop mgd-keep; cp -a /var/lib/private/mgd-keep /root/kept
    mount -t tmpfs -o size=3M,mode=0700 none /var/lib/private/mgd-keep && cp -a /root/kept/. /var/lib/private/mgd-keep/; systemctl start mgd-keep'
on 'head -c 3M /dev/zero > /var/lib/private/mgd-keep/ballast 2> /dev/null'
client ann type ann '%18bbig%0D%151000x%18h%1Bw%19%19%19%19%19%19' 30
expect "it ends" "$(wait_for 60 '! systemctl --quiet is-active mgd-keep' && echo yes)" yes
sleep 8
expect "and nobody is let in" "$(state mgd-keep) $(on 'perl client.pl health')" "0 exit-code failed  no server"
expect "a start says what is wrong" "$(on 'systemctl start mgd-keep > /dev/null 2>&1; echo $?') $(has_said mgd-keep '^journal failed' 'the disk is full')" "1 yes"
on 'systemctl stop mgd-keep; umount /var/lib/private/mgd-keep; rm -r /root/kept'
expect "with the disk of before it starts" "$(on 'systemctl start mgd-keep; echo $?')" 0

part "a restart with ten joins"
# Each is at a line of its own. C-] r makes join paint all of its picture, so that the file has the whole mode line.
server_user=$(on 'ps -o uid= -p $(systemctl show -P MainPID mgd-keep)' | tr -d ' ')
for number in 1 2 3 4 5 6 7 8 9 10; do
    on "mkfifo /root/keys$number; (exec 3<> /root/keys$number; env MGD_TICKET=kx8Vw2Lq5Tz0Rb7Nc4Mf6Hd1 TERM=xterm LANG=C.UTF-8 setsid -f \
        script -qfc 'mgd-join --server-user $server_user ann' /root/join$number < /root/keys$number; sleep 600) > /dev/null 2>&1 &"
    wait_for 20 "grep -q -a -e '-notes-' /root/join$number"
    on "printf '\\x18g$((20 + number))\\r' > /root/keys$number"
    wait_for 20 "sleep 0.5; printf '\\x1dr' > /root/keys$number; sleep 0.5; grep -q -a -e '-L$((20 + number))-' /root/join$number"
done
expect "ten are there" "$(on 'ss -Htn state established src 127.0.0.1 sport = :7000 | wc -l')" 10
on 'for n in 1 2 3 4 5 6 7 8 9 10; do : > /root/join$n; done; systemctl restart mgd-keep; date +%s.%N > /root/started'
wait_for $((30 + patience)) 'for n in 1 2 3 4 5 6 7 8 9 10; do grep -q -a -e "-L$((20 + n))-" /root/join$n || break; done; [ $n = 10 ] && grep -q -a -e "-L30-" /root/join10'
seconds=$(on 'echo "$(date +%s.%N) $(cat /root/started)"' | awk '{ printf "%.1f", $1 - $2 }')
for number in 1 2 3 4 5 6 7 8 9 10; do
    expect "join $number is back at its line" "$(on "grep -q -a -e '-L$((20 + number))-' /root/join$number && echo yes")" yes
done
expect "within $patience s of the start ($seconds s)" "$(awk -v s="$seconds" -v p="$patience" 'BEGIN { print (s <= p) ? "yes" : "no" }')" yes
on 'pkill -x mgd-join; pkill -f "^join ann"; rm -f /root/keys*' > /dev/null

part "the machine is booted again"
client ann type ann '%1B%3Cboot%20' 10
if [ -z "${REBOOT-}" ]; then
    skip 3 "REBOOT is not set"
else
    on 'systemctl enable mgd' > /dev/null
    $REBOOT > /dev/null 2>&1
    expect "mgd-keep serves, though both are enabled" "$(wait_for 120 'systemctl --quiet is-active mgd-keep' && on 'perl client.pl health') $(state mgd)" "refused 1 Line 0 inactive success "
    expect "the text that nobody saved was saved at the stop" "$(on 'head -n 1 /var/lib/private/mgd-keep/notes.txt' | cut -d ' ' -f 1)" boot
    expect "what bob lost he does not have again" "$(bob_reads)" no
    on 'systemctl disable mgd' > /dev/null
fi

part "the power is cut"
if [ -z "${POWER_CUT-}" ]; then
    skip 4 "POWER_CUT is not set"
else
    client ann type ann '%1B%3Cpower%20' 10
    on 'sleep 3'
    $POWER_CUT > /dev/null 2>&1
    expect "mgd-keep serves" "$(wait_for 120 'systemctl --quiet is-active mgd-keep' && on 'perl client.pl health')" "refused 1 Line"
    expect "the unsaved text is there" "$(on 'perl client.pl screen ann %1B%3C' | grep -c 'power boot')" 1
    expect "its file is as it was saved last" "$(on 'head -n 1 /var/lib/private/mgd-keep/notes.txt' | cut -d ' ' -f 1)" boot
    expect "what bob lost he does not have again" "$(bob_reads)" no
fi

part "install.sh --remove"
on 'systemctl disable --now mgd-keep > /dev/null 2>&1'
expect "it removes all" "$(on "cd /root && mgd-$version-linux-x86_64/install.sh --remove /usr/local > /dev/null; echo \$?; find /usr/local -type f" | grep -v '^install.sh: ' | tr '\n' ' ')" "0 "
on 'rm /etc/systemd/system/mgd.service /etc/systemd/system/mgd-keep.service; systemctl daemon-reload'

part "the Debian package"
deb=/root/mgd_${version}_amd64.deb
expect "it is installed" "$(on "dpkg -i $deb > /root/dpkg.out 2>&1; echo \$?")" 0
expect "it starts nothing" "$(state mgd)$(state mgd-keep)" "0 inactive success 0 inactive success "
for unit in mgd mgd-keep; do
    expect "and enables nothing: $unit" "$(on "systemctl is-enabled $unit")" disabled
    expect "systemd-analyze verify $unit is silent" "$(on "systemd-analyze verify $unit.service; echo \$?")" 0
done
expect "it serves" "$(on 'systemctl enable --now mgd-keep > /dev/null 2>&1; echo $?; perl client.pl health' | tr '\n' ' ')" "0 refused 1 Line "
client ann type ann 'upgrade%20' 300
process=$(on 'systemctl show -P MainPID mgd-keep')
on "rm -rf /root/newer; dpkg-deb -R $deb /root/newer && sed -i 's/^Version: .*/&.1/' /root/newer/DEBIAN/control && dpkg-deb --root-owner-group -b /root/newer /root/newer.deb" > /dev/null
expect "an upgrade" "$(on 'dpkg -i /root/newer.deb > /root/dpkg.out 2>&1; echo $?')" 0
expect "the session goes on" "$(on 'cat ann.out' | tail -n 1) $(on 'systemctl show -P MainPID mgd-keep')" "typed $process"
expect "it says that the older program runs" "$(on 'grep -c "mgd-keep runs the program of before" /root/dpkg.out')" 1
expect "it is still enabled" "$(on 'systemctl is-enabled mgd-keep')" enabled
expect "a removal stops it" "$(on 'dpkg -r mgd > /dev/null 2>&1; echo $?; sleep 1; tail -n 1 ann.out; ls /usr/bin/mgd* 2> /dev/null' | tr '\n' ' ')" "0 ended "
expect "and saves" "$(on 'head -n 1 /var/lib/private/mgd-keep/notes.txt' | cut -d ' ' -f 1)" upgrade
expect "a purge keeps texts, journal and configuration" "$(on 'dpkg -P mgd > /dev/null 2>&1; echo $?; ls /etc/mgd.toml /var/lib/private/mgd/notes.txt /var/lib/private/mgd-keep/notes.txt /var/lib/private/mgd-keep/journal/journal.sqlite3 | wc -l' | tr '\n' ' ')" "0 4 "
expect "and leaves nothing of systemd's" "$(on 'find /etc/systemd /var/lib/systemd /lib/systemd -name "*mgd*"')" ""

on 'rm /etc/systemd/journald.conf.d/try_systemd.conf; systemctl restart systemd-journald
    rm -rf /etc/mgd.toml /etc/mgd-ops.ticket /var/lib/private/mgd /var/lib/private/mgd-keep /var/lib/mgd /var/lib/mgd-keep /root/client.pl /root/mgd* /root/newer* /root/*.out /root/join* /root/lines /root/audit /root/installed; systemctl daemon-reload; systemctl reset-failed' > /dev/null
[ "$skipped" = 0 ] || echo "$skipped skipped"
echo "$passed passed, $failed failed"
[ "$failed" = 0 ]
