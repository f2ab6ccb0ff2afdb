"""Calls the library of clients/keyutils/ as a program that is linked with it, and prints a line for each call: what it gave, or its error.

usage: calls.py LIBRARY SUBJECT
"""
import concurrent.futures
import ctypes
import errno
import os
import struct
import sys
import threading

library = ctypes.CDLL(sys.argv[1], use_errno=True)
THREAD, SESSION, USER, USER_SESSION, AUTHORITY, REQUESTOR = -1, -3, -4, -5, -7, -8
NOTHING = 2_000_000_000  # a serial that nothing has

LEFT_OUT = ["keyctl_session_to_parent", "keyctl_get_persistent", "keyctl_dh_compute", "keyctl_dh_compute_alloc", "keyctl_dh_compute_kdf",
            "keyctl_restrict_keyring", "keyctl_pkey_query", "keyctl_pkey_encrypt", "keyctl_pkey_decrypt", "keyctl_pkey_sign", "keyctl_pkey_verify",
            "keyctl_watch_key", "recursive_key_scan", "recursive_session_key_scan"]


def call(name, *words):
    """What a call gives: its number, or the name of its error."""
    function = getattr(library, name)
    function.restype = ctypes.c_int
    function.argtypes = [ctypes.c_long if isinstance(word, int) else ctypes.c_char_p if isinstance(word, bytes) else ctypes.c_void_p for word in words]
    ctypes.set_errno(0)
    result = function(*words)
    return result if result >= 0 else "EOPNOTSUPP" if ctypes.get_errno() == errno.EOPNOTSUPP else errno.errorcode[ctypes.get_errno()]


def show(name, *words):
    """Prints what a call gives."""
    print(name, call(name, *words))


def left_out():
    """Those that don't say that they are left out."""
    print([name for name in LEFT_OUT if call(name, 1, 0, 0, 0) != "EOPNOTSUPP"])


def attributes():
    """What would change a key: left out, once it is there."""
    key, ring = call("add_key", b"user", b"n", b"v", 1, SESSION), call("keyctl_get_keyring_ID", SESSION, 0)
    for name, *words in [("update", None, 0), ("chown", 0, 0), ("get_security", None, 0), ("get_security_alloc", None), ("invalidate",)]:
        print(name, [call(f"keyctl_{name}", id, *words) for id in [key, ring, NOTHING, 0, THREAD]])
    print("chown to nobody", call("keyctl_chown", key, -1, -1))
    print("move", [call("keyctl_move", id, from_ring, to_ring, flags) for id, from_ring, to_ring, flags in [
        (key, SESSION, USER, 0), (key, SESSION, USER, 2), (NOTHING, SESSION, USER, 0), (key, 0, USER, 0), (key, SESSION, -6, 0), (key, key, USER, 1),
        (key, SESSION, key, 1)]])
    for mask in [0x3f000000, 0x3f3f3f3f, 0x1f000000, 0, 0x40000000]:
        print(f"{mask:x}", [call("keyctl_setperm", id, mask) for id in [key, ring, USER, NOTHING]])


def types():
    """Types of the kernel, of nobody, and one that has a semicolon."""
    for name in [b"encrypted", b"trusted", b"asymmetric", b"ceph", b"rxrpc", b"cifs.idmap", b"fscrypt-provisioning", b"logon", b".fscrypt", b"unheard"]:
        print(name.decode(), call("add_key", name, b"a:b", b"v", 1, SESSION))
    for name in [b"user", b"big_key", b"dns_resolver", b"id_resolver"]:
        print(name.decode(), call("keyctl_read", call("add_key", name, b"a:b", b"v", 1, SESSION), None, 0))
    for name in [b"", b"none", b":none"]:
        print("logon", name.decode(), call("add_key", b"logon", name, b"v", 1, SESSION), call("request_key", b"logon", name, b"x", SESSION))
    held = ctypes.c_void_p()
    for name in [b"logon", b"other;1;valid"]:
        key = call("request_key", name, b"made:it;0;valid;", b"x", SESSION)
        described = call("keyctl_describe_alloc", key, ctypes.byref(held)) > 0
        print(name.decode(), described, ctypes.string_at(held.value).decode(), call("keyctl_read", key, None, 0))


def faults():
    ring = call("keyctl_get_keyring_ID", SESSION, 0)
    show("add_key", b"keyring", b"n", None, 0, SESSION)
    show("add_key", None, b"n", b"v", 1, SESSION)
    show("add_key", b"user", None, b"v", 1, SESSION)
    show("add_key", b"user", b"n", None, 1, SESSION)
    show("add_key", b"user", b"n", b"", 0, SESSION)
    show("add_key", b"user", b"n", b"v" * 70000, 70000, SESSION)
    show("request_key", None, b"n", None, 0)
    show("keyctl_instantiate", NOTHING, None, 1, 0)
    show("keyctl_instantiate_iov", NOTHING, None, 1, 0)
    show("keyctl_instantiate_iov", NOTHING, struct.pack("@PN", 0, 1), 1, 0)
    show("keyctl_join_session_keyring", b"")
    show("keyctl_join_session_keyring", b"n" * 4096)
    show("keyctl_join_session_keyring", b".name")
    show("keyctl_search", SESSION, b"user", None, 0)
    show("keyctl_search", 0, b"user", b"n", 0)
    show("keyctl_clear", 0)
    for name in ["keyctl_describe", "keyctl_read", "keyctl_revoke", "keyctl_set_timeout"]:
        print(name, [call(name, key, None, 0) for key in [SESSION, USER_SESSION, ring, NOTHING]])
    show("keyctl_link", USER, SESSION)
    show("keyctl_revoke", AUTHORITY)
    print("keyctl_get_keyring_ID", [call("keyctl_get_keyring_ID", key, 1) for key in [THREAD, USER_SESSION, AUTHORITY, REQUESTOR, NOTHING, 0]],
          call("keyctl_get_keyring_ID", ring, 0) == ring)


def buffers():
    """Bytes into buffers that are too short, and long enough, and into memory that the call gets."""
    key, uid = call("add_key", b"user", b"n", b"hello", 5, SESSION), str(os.geteuid())
    for name, size in [("keyctl_read", 0), ("keyctl_read", 3), ("keyctl_read", 9), ("keyctl_describe", 4), ("keyctl_describe", 99)]:
        buffer = ctypes.create_string_buffer(b"." * 99, 99)
        length = call(name, key, buffer, size) - (len(uid) if name == "keyctl_describe" else 0)
        print(name, length, buffer.raw.rstrip(b".").replace(f";{uid};".encode(), b";;"))
    held = ctypes.c_void_p()
    print("keyctl_read_alloc", call("keyctl_read_alloc", key, ctypes.byref(held)), ctypes.string_at(held.value))
    print("keyctl_describe_alloc", call("keyctl_describe_alloc", key, ctypes.byref(held)) == len(ctypes.string_at(held.value)))


def raw():
    """keyctl(2) by the numbers of its commands."""
    ring = call("keyctl_get_keyring_ID", SESSION, 0)
    key = call("add_key", b"user", b"n", b"v", 1, SESSION)
    buffer = ctypes.create_string_buffer(99)
    print("0", call("keyctl", 0, SESSION, 0) == ring)
    print("6", call("keyctl", 6, key, None, 0) == call("keyctl_describe", key, None, 0))
    print("10", call("keyctl", 10, SESSION, b"user", b"n", 0) == key)
    for number, *words in [
        (8, key, USER), (9, key, USER), (11, key, buffer, 99), (12, key, b"v", 1, 0), (13, key, 1, 0), (14, -1), (15, key, 9), (16, key), (16, 0),
        (19, key, 1, 129, 0), (20, key, None, 0, 0), (31, buffer, 99), (3, key), (7, SESSION), (2, key, b"v", 1), (4, key, 0, 0), (5, key, 0),
        (17, key, buffer, 99), (21, key), (30, key, SESSION, USER, 0), (99, 0),
    ]:
        print(number, call("keyctl", number, *words))
    another = call("keyctl", 1, None)
    print("1", isinstance(another, int) and another != ring, call("keyctl", 0, SESSION, 0) == another)


def waiting():
    """A child may call while a thread of its parent waits for a key, whose handler reads the pipe FIFO."""
    made = []
    thread = threading.Thread(target=lambda: made.append(call("request_key", b"user", b"slow:%d" % os.getpid(), b"x", SESSION)))
    thread.start()
    with open(os.environ["FIFO"], "wb") as fifo:  # as soon as the handler runs
        child = os.fork()
        if child == 0:
            os._exit(0 if call("keyctl_get_keyring_ID", SESSION, 0) > 0 else 1)
        print("child", os.waitpid(child, 0)[1])
        fifo.write(b"payload")
    thread.join()
    print("thread", call("keyctl_read", made[0], None, 0))


def shared():
    """Children and threads."""
    ring = call("keyctl_get_keyring_ID", SESSION, 0)
    key = call("add_key", b"user", b"n", b"v", 1, SESSION)
    child = os.fork()
    if child == 0:
        os._exit(0 if call("keyctl_get_keyring_ID", SESSION, 0) == ring and call("keyctl_read", key, None, 0) == 1 and call("keyctl_revoke", key) == 0 else 1)
    print("child", os.waitpid(child, 0)[1], call("keyctl_read", key, None, 0))
    wrong = []

    def works(number):
        for turn in range(20):
            name = f"{number}-{turn}".encode()
            mine = call("add_key", b"user", name, name, len(name), SESSION)
            if call("keyctl_read", mine, None, 0) != len(name) or call("keyctl_unlink", mine, SESSION) != 0:
                wrong.append(name)

    with concurrent.futures.ThreadPoolExecutor(8) as pool:
        list(pool.map(works, range(8)))
    print("threads", wrong)


def anew():
    """A process that calls for long connects anew once in some 50,000 calls, and not at each call after them."""
    def connection():
        return sorted(link for link in map(linked, os.listdir("/proc/self/fd")) if link.startswith("socket:"))

    def linked(number):
        try:
            return os.readlink(f"/proc/self/fd/{number}")
        except FileNotFoundError:  # the folder that was listed
            return ""

    key = call("add_key", b"user", b"n", b"v", 1, USER)
    read = library.keyctl_read
    read.argtypes = [ctypes.c_int, ctypes.c_void_p, ctypes.c_size_t]
    seen = [connection()]
    wrong = sum(read(key, None, 0) != 1 for _ in range(49_900))
    for _ in range(300):
        seen.append(connection())
        wrong += read(key, None, 0) != 1
    print("connections", sum(one != other for one, other in zip(seen, seen[1:])), wrong)


globals()[sys.argv[2]]()
