"""The commands of keyutils' keyctl, and what each has to print on the daemon, whichever way it is reached."""
import re
import shlex

MISSING, REVOKED, EXPIRED, REJECTED = "Required key not available", "Key has been revoked", "Key has expired", "Key was rejected by service"
LEFT_OUT, INVALID, DENIED, NOT_ALLOWED = "Operation not supported", "Invalid argument", "Permission denied", "Operation not permitted"

NO_TYPE, NO_RING, ABSENT = "No such device", "Not a directory", "No such file or directory"

SERIAL, NONE = r"\d+\n", "2000000000"
RAW = r"user;{uid};-1;3f000000;k\n"

# Commands that are right without arguments; their status, and their output and errors, as patterns.
ALONE = {
    "new_session": (1, "", LEFT_OUT),
    "reap": (0, "-1 keys reaped\n", ""),
    "session": (0, "", "Joined session keyring"),
    "show": (1, r"Session Keyring\n *{session} --alswrv +{uid} +-1  keyring: _ses\n", LEFT_OUT),
    "supports": (0, "have_capabilities=1\n(have_[a-z_]+=0\n)+", ""),
}

USAGE = (2, "", "Format:")

# Commands that take any number of arguments.
OF_ANY_LENGTH = ["pkey_decrypt", "pkey_encrypt", "pkey_query", "pkey_sign", "pkey_verify", "session", "watch_session"]

# Runs of keyctl that follow one another: words, status, and output and errors as patterns. {key} is a key `k` of the type user with the payload `v`, alone in
# the session ring {session}; {user} is the user ring, and {uid} who acts. What is piped in is `piped`. Keys `made:*` are made of their callout.
CASES = [
    [("add user n w @s", 0, SERIAL, ""), ("print %user:n", 0, "w\n", "")],
    [("add -x user n 77_78 @s", 1, "", "hex"), ("add -x user n 7778 @s", 0, SERIAL, ""), ("print %user:n", 0, "wx\n", "")],
    [("add user k w @s", 0, SERIAL, ""), ("print {key}", 1, "", MISSING), ("print %user:k", 0, "w\n", "")],
    [("add user n v @t", 1, "", MISSING)],
    [("add user n v " + NONE, 1, "", MISSING)],
    [("add .user n v @s", 1, "", NOT_ALLOWED)],
    [("add keyring n v @s", 1, "", INVALID), ("newring '' @s", 1, "", INVALID), ("newring .n @s", 1, "", NOT_ALLOWED), ("newring n 0", 1, "", INVALID)],
    [("add user n v 0", 1, "", INVALID), ("add unheard n v @t", 1, "", NO_TYPE), ("add user n v {key}", 1, "", NO_RING)],
    # of the type `logon`, and of the others that the kernel itself would look for: none is added, and a handler's can't be read
    [("add logon a:b v @s", 1, "", LEFT_OUT), ("add logon none v @s", 1, "", INVALID), ("add encrypted n 'new user:k 32' @s", 1, "", LEFT_OUT)],
    [("request2 logon made:1 secret @s", 0, SERIAL, ""), ("print %logon:made:1", 1, "", LEFT_OUT), ("request2 logon none x", 1, "", INVALID),
     ("pipe %logon:made:1", 1, "", LEFT_OUT), ("revoke %logon:made:1", 0, "", "")],
    [("padd user n @s", 0, SERIAL, ""), ("print %user:n", 0, "piped\n", ""), ("padd user n @p", 1, "", MISSING)],
    [("request user k", 0, "{key}\n", ""), ("request user none", 1, "", MISSING), ("request user k " + NONE, 1, "", MISSING)],
    [("request user k @u", 0, "{key}\n", ""), ("unlink {key} @s", 0, "", ""), ("print {key}", 0, "v\n", ""), ("unlink {key} @u", 0, "", ""),
     ("print {key}", 1, "", MISSING)],
    [("request2 user made:1 hello @s", 0, SERIAL, ""), ("print %user:made:1", 0, "hello\n", ""), ("request2 user none hello", 1, "", MISSING)],
    [("prequest2 user made:2 @s", 0, SERIAL, ""), ("print %user:made:2", 0, "piped\n", ""), ("prequest2 user none @s", 1, "", MISSING)],
    [("print {key}", 0, "v\n", ""), ("print " + NONE, 1, "", MISSING), ("print @s", 1, "", LEFT_OUT), ("print 0", 1, "", MISSING),
     ("print nothing", 2, "", "Unparsable key")],
    [("pipe {key}", 0, "v", ""), ("pipe " + NONE, 1, "", MISSING)],
    [("read {key}", 0, "1 bytes of data in key:\n76 ?\n", ""), ("read " + NONE, 1, "", MISSING), ("read @u", 1, "", LEFT_OUT)],
    [("describe {key}", 0, r" *{key}: alswrv-+ +{uid} +-1 user: k\n", ""), ("describe " + NONE, 1, "", MISSING),
     ("describe @s", 0, r" *-3: alswrv-+ +{uid} +-1 keyring: _ses\n", ""), ("describe @t", 1, "", MISSING), ("describe @us", 1, "", LEFT_OUT)],
    [("rdescribe {key}", 0, RAW, ""), ("rdescribe {key} /", 0, RAW.replace(";", "/"), ""),
     ("rdescribe {session}", 0, "keyring;{uid};-1;3f000000;_ses\n", ""), ("rdescribe @u", 0, r"keyring;{uid};-1;3f000000;_uid\.{uid}\n", ""),
     ("request2 'other;1;valid' 'made:it;0;valid;' x @s", 0, SERIAL, ""),
     ("rdescribe '%other;1;valid:made:it;0;valid;'", 0, "other;1;valid;{uid};-1;3f000000;made:it;0;valid;\n", "")],
    [("revoke {key}", 0, "", ""), ("print {key}", 1, "", REVOKED), ("describe {key}", 1, "", REVOKED), ("revoke {key}", 1, "", REVOKED)],
    [("revoke " + NONE, 1, "", MISSING), ("revoke @t", 1, "", MISSING), ("revoke 0", 1, "", INVALID)],
    [("revoke @s", 1, "", LEFT_OUT)],
    [("timeout {key} 4000000000", 0, "", ""), ("timeout {key} 0", 0, "", ""), ("timeout {key} soon", 2, "", "Unparsable timeout")],
    [("timeout " + NONE + " 1", 1, "", MISSING), ("timeout {session} 1", 1, "", LEFT_OUT)],
    [("link {key} @u", 0, "", ""), ("unlink {key} @u", 0, "", ""), ("unlink {key} @u", 1, "", "No such file or directory")],
    [("link {key} " + NONE, 1, "", MISSING), ("link @u @s", 0, "", ""), ("link {user} {session}", 0, "", ""), ("link @s @u", 1, "", LEFT_OUT),
     ("link {key} {key}", 1, "", NO_RING), ("link @s {key}", 1, "", NO_RING), ("link {key} 0", 1, "", INVALID), ("link @s 0", 1, "", INVALID)],
    [("unlink " + NONE + " @s", 1, "", MISSING), ("unlink {key} {key}", 1, "", NO_RING), ("unlink @s {key}", 1, "", NO_RING),
     ("unlink {key} 0", 1, "", INVALID), ("unlink @s @s", 1, "", ABSENT), ("unlink @u @s", 1, "", ABSENT)],
    [("clear @s", 0, "", ""), ("print {key}", 1, "", MISSING), ("clear @p", 1, "", MISSING), ("clear " + NONE, 1, "", MISSING)],
    [("clear 0", 1, "", INVALID), ("clear {key}", 1, "", NO_RING), ("print {key}", 0, "v\n", "")],
    [("id @s", 0, "{session}\n", ""), ("id {key}", 0, "{key}\n", ""), ("id @p", 1, "", MISSING), ("id @us", 1, "", LEFT_OUT), ("id @g", 1, "", INVALID)],
    [("id %user:k", 0, "{key}\n", ""), ("id %user:none", 1, "", "Can't find")],
    [("instantiate {key} w @s", 1, "", NOT_ALLOWED), ("pinstantiate {key} @s", 1, "", NOT_ALLOWED), ("negate {key} 10 @s", 1, "", NOT_ALLOWED)],
    [("reject {key} 10 rejected @s", 1, "", NOT_ALLOWED), ("reject {key} 10 13 @s", 1, "", INVALID)],
    [("session - /bin/sh -c 'keyctl add user in w @s; keyctl print %user:in; keyctl id @s'", 0, SERIAL + "w\n" + SERIAL, "Joined session keyring: ")],
    [("session - keyctl print {key}", 1, "", DENIED), ("session name keyctl id @s", 0, SERIAL, "Joined session keyring: ")],
    [("supports capabilities", 0, "", ""), ("supports persistent_keyrings", 1, "", "")],
    [("unlink {key}", 0, "-1 links removed\n", ""), ("print {key}", 0, "v\n", "")],
    [("show @u", 1, r"Keyring\n *{user} --alswrv +{uid} +-1  keyring: _uid\.{uid}\n", LEFT_OUT), ("show {key}", 0, r"Keyring\n *{key} .* user: k\n", "")],
    [("purge user", 0, ".*-1 keys\n", ""), ("print {key}", 0, "v\n", "")],
    [("search @s user k", 0, "{key}\n", ""), ("search {session} user k", 0, "{key}\n", ""), ("search @u user k", 1, "", MISSING),
     ("search @s user none", 1, "", MISSING), ("search @t user k", 1, "", MISSING), ("search @us user k", 1, "", LEFT_OUT),
     ("search {key} user k", 1, "", NO_RING), ("search @g user k", 1, "", INVALID), ("search 0 user k", 1, "", INVALID)],
    [("add user u w @u", 0, SERIAL, ""), ("search @u user u", 0, SERIAL, ""), ("search {user} user u @s", 0, SERIAL, ""), ("unlink %user:u @u", 0, "", ""),
     ("print %user:u", 0, "w\n", ""), ("search @u user u", 1, "", MISSING)],
    [("setperm {key} 0x3f000000", 0, "", ""), ("setperm @s 0x3f1f0000", 0, "", ""), ("setperm {user} 0x3f3f3f3f", 0, "", ""),
     ("setperm {key} 0x7f000000", 1, "", INVALID), ("setperm " + NONE + " 0x3f000000", 1, "", MISSING), ("setperm 0 0", 1, "", INVALID)],
    [(f"{words.format(NONE)}", 1, "", MISSING) for words in ["update {} v", "chown {} 0", "invalidate {}", "security {}", "move {} @s @u"]],
    [("move {key} {key} @s", 1, "", NO_RING), ("move {key} @s 0", 1, "", INVALID)],
    # what is left out
    *[[(words, 1, ".*", LEFT_OUT)] for words in [
        "update {key} w", "pupdate {key}", "newring n @s", "move {key} @s @u", "restrict_keyring @s", "list @s", "rlist @s",
        "chown {key} 0", "chgrp {key} 0", "setperm {key} 0x1f000000", "setperm {key} 0x003f0000", "security {key}", "invalidate {key}",
        "get_persistent @s", "dh_compute {key} {key} {key}",
        "dh_compute_kdf {key} {key} {key} 9 sha1", "dh_compute_kdf_oi {key} {key} {key} 9 sha1", "pkey_query {key} 0", "pkey_encrypt {key} 0 /dev/null",
        "pkey_decrypt {key} 0 /dev/null", "pkey_sign {key} 0 /dev/null", "pkey_verify {key} 0 /dev/null /dev/null", "watch_add 0 {key}", "watch_rm 0 {key}",
    ]],
]


class Keyctl:
    """Runs of keyctl. Who has it gives `run`, `count`, and `key`, which is a new key `k`, alone in the session ring."""

    def fits(self, words, want, **known):
        """Runs keyctl, and compares what it does with patterns."""
        status, output, errors = self.run("keyctl", *shlex.split(words.format(**known)))
        told, complained = [re.sub(r"\{([a-z]+)\}", lambda name: str(known[name[1]]), text) for text in want[1:]]
        right = status == want[0] and re.fullmatch(told, output, re.DOTALL) and (complained in errors if complained else not errors)
        self.count.same(f"keyctl {words}", (status, output, errors) if not right else want, want)
