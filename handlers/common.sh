# What the handlers of this folder share; each sources it, with the serial of its key as the first word. docs/HANDLERS.md is the manual.
#
# A plain handler speaks to the daemon over its standard streams. No other program may write or read there, or hold them open: they are moved to the
# descriptors 3 and 4, which `ask` alone hands on. What else is printed goes to standard error, which is the daemon's.
set -u
umask 077
export LC_ALL=C PATH="$PATH:/usr/local/bin/"
unset REQKEYD_SOCKET # it is for clients
exec 3<&0 4>&1 < /dev/null >&2

name=${0##*/} key=$1
limit=${REQKEY_LIMIT:-10} # how many seconds one program may take
room=$(mktemp -d -p /dev/shm 2> /dev/null || mktemp -d) || exit # in memory, where there is that
trap 'rm -rf "$room"' EXIT
: > "$room/errors"

# One request to the daemon.
ask() {
    reqkeyctl --quiet "$@" <&3 >&4 3<&- 4>&-
}

# refuse ERROR SECONDS REASON: whoever requests the key gets this error for so many seconds. 126: it can't be made here. 127: a time is over. 128: the account
# was revoked. 129: a login or a name is refused. The log gets the reason, and what a program has said of it, without what a terminal could take amiss.
refuse() {
    said=$(tr -cs '[:print:]' ' ' < "$room/errors" | cut -c 1-200)
    printf '%s: key %s: %s\n' "$name" "$key" "$3${said:+: $said}" >&2
    ask reject "$key" "$2" "$1" none
    exit
}

# Whether these programs are here, and `timeout`.
needs() {
    for program in timeout "$@"; do
        command -v "$program" > /dev/null || refuse 126 60 "there is no $program"
    done
}

# Runs a program within the limit: its output is $room/out, its errors $room/errors, and the result is its status.
attempt() {
    timeout -k 1 "$limit" "$@" > "$room/out" 2> "$room/errors" 3<&- 4>&-
    status=$?
    case $status in 124 | 137) refuse 127 5 "$1 has not ended within $limit seconds" ;; esac
    return "$status"
}

# give SECONDS FILE: the key gets the bytes of the file, and expires in so many seconds.
give() {
    case $1 in '' | *[!0-9]* | ??????????*) refuse 127 5 "its end can't be told, or is over: '$1' seconds" ;; esac
    [ "$1" -gt 0 ] || refuse 127 5 "it has expired already"
    ask timeout "$key" "$1" || exit
    ask --payload-from "$2" instantiate "$key" none || refuse 126 60 "the payload has no place in a key"
    exit 0
}

ask assume "$key" || exit
