"""What python3-keyutils gives, line by line: each of its calls that the daemon answers, and those that are left out."""
import keyutils as k

key = k.add_key(b"n", b"v", k.KEY_SPEC_SESSION_KEYRING)
print(k.read_key(key), k.request_key(b"n", k.KEY_SPEC_SESSION_KEYRING) == key, k.describe_key(key).endswith(b";-1;3f000000;n"))
print(k.search(k.KEY_SPEC_SESSION_KEYRING, b"n") == key, k.request_key(b"none", k.KEY_SPEC_SESSION_KEYRING))
print(k.set_perm(key, 0x3f000000), k.describe_key(k.KEY_SPEC_SESSION_KEYRING))
print(k.link(key, k.KEY_SPEC_USER_KEYRING), k.unlink(key, k.KEY_SPEC_USER_KEYRING), k.set_timeout(key, 1000), k.revoke(key))
other = k.add_key(b"o", b"v", k.KEY_SPEC_SESSION_KEYRING)
for call in [lambda: k.read_key(key), lambda: k.update_key(key, b"w"), lambda: k.update_key(other, b"w"), lambda: k.set_perm(other, 0x1f000000),
             lambda: k.add_key(b"a:b", b"v", k.KEY_SPEC_SESSION_KEYRING, b"logon"), k.session_to_parent]:
    try:
        print(call())
    except k.Error as error:
        print(error.args[1])
print(k.join_session_keyring(b"a name") > 0, k.join_session_keyring() > 0, k.clear(k.KEY_SPEC_SESSION_KEYRING))
