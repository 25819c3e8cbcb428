# Sourced by every script that has the kit build here, with `root` set: one such build at a time.
# shellcheck shell=bash disable=SC2154

# hold FD [now]: the lock of an open file, waited for unless `now`; it ends with the last process that has the file open
hold() {
    if command -v flock >/dev/null 2>&1; then
        flock ${2:+-n} "$1"
    elif command -v perl >/dev/null 2>&1; then
        perl -e 'open my $file, "<&=", $ARGV[0] or exit 1; exit !flock $file, 2 | ($ARGV[1] ? 4 : 0)' "$@"
    else
        python3 -c 'import fcntl, sys; fcntl.flock(int(sys.argv[1]), fcntl.LOCK_EX | fcntl.LOCK_NB * (len(sys.argv) > 2))' "$@" 2>/dev/null
    fi
}

# alone COMMAND..: runs it while nobody else builds here. The lock is that of the folder crates/, which stays.
alone() {
    local lock status
    exec {lock}<"$root/crates" || return 2
    if ! hold "$lock" now; then
        echo "waiting for another build in this folder" >&2
        hold "$lock" || { echo "no lock: flock, perl or python3 is wanted" >&2; return 2; }
    fi
    "$@"
    status=$?
    exec {lock}<&-
    return "$status"
}
