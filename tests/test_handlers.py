#!/usr/bin/env python3
"""The handlers of handlers/, each against what it is for: a PostgreSQL server, a KDC, gpg and age, the system's hosts, openssl and a server over TLS.

What is not here is installed by apt-get, if root runs this. The time that a handler gives its key is what it has said to reqkeyctl, through a program in the
place of that which notes the words of each call.
"""
import base64
import concurrent.futures
import contextlib
import http.server
import json
import os
import pathlib
import shutil
import socket
import ssl
import subprocess
import tempfile
import threading
import time
import urllib.parse

import protocol_peer as peer
from counted import Counted
from daemon import Daemon, until
from packages import has
from programs import LIMIT, client_of, ran, there, top

count = Counted()
HANDLERS = top / "handlers"
ROOT = os.geteuid() == 0
NOBODY = {"user": 65534, "group": 65534, "extra_groups": []} if ROOT else {}

# Descriptions of a stranger that a program, a shell, a path or a text could take for something else; %s is the folder in which they would leave a file.
HOSTILE = ["-h", "--output=%s/bad", "../a", "a/../../a", "/etc/passwd", "..", "a'; touch %s/bad; '", 'a"; $(touch %s/bad)', "a\nb", "a,DNS:b",
           "\\!touch %s/bad", "a b", "%%s%%n"]

# It notes what a handler says, and says it.
NOTES = """#!/bin/sh
echo "$*" >> %room/said
exec %ctl "$@"
"""


def quiet(*words, **more):
    """The output of a command that has to succeed."""
    status, output, errors = ran(*map(str, words), text=True, **more)
    if status:
        raise RuntimeError(f"{words}: {output}{errors}")
    return output


class Tried:
    """A daemon whose handler for all descriptions of each type is one of handlers/, with its words behind `%k %d`."""

    def __init__(self, program, lines, room, limit=3600, path=os.environ["PATH"], **environment):
        conf = "".join(f"create {kind} * * {HANDLERS / handler} %k %d {' '.join(map(str, words))}\n" for kind, (handler, *words) in lines.items())
        self.room = room
        environment = {"HOME": str(room), "REQKEY_LIMIT": str(limit), **{name: str(value) for name, value in environment.items()}}
        self.daemon = Daemon(program, conf, starts=False, environment=environment)
        self.path = path

    def __enter__(self):
        self.daemon.__enter__()
        tools = self.daemon.room / "tools"
        tools.mkdir()
        self.daemon.script("tools/reqkeyctl", NOTES)
        self.daemon.environment["PATH"] = f"{tools}:{self.path}"
        self.daemon.start()
        self.client = self.daemon.client(1000)
        return self

    def __exit__(self, *_):
        self.daemon.__exit__()

    def request(self, kind, description, client=None):
        return (client or self.client).ask(peer.request(kind.encode(), description.encode(), b"", -4))

    def get(self, kind, description):
        """What a request gives: the payload of its key, the seconds that the key was given, and the moments around it; or its error."""
        begin = int(time.time())
        key = self.request(kind, description)
        if isinstance(key, str):
            return key
        seconds = [int(line.split()[3]) for line in self.said() if line.startswith(f"--quiet timeout {key} ")]
        return self.client.ask(peer.on_key(7, key)), *seconds, range(begin - 1, int(time.time()) + 2)

    def said(self):
        return (self.daemon.room / "said").read_text().splitlines()

    def told(self):
        """What the handlers have told the log so far."""
        return [line for line in self.daemon.lines if line != "reqkeyd: ready"]

    def hostile(self, kind):
        """The answers to what a stranger may say, and what that has left."""
        texts = [text.replace("%s", str(self.room)) for text in HOSTILE]
        clients = [self.daemon.client(2000 + at) for at in range(len(texts))]
        with concurrent.futures.ThreadPoolExecutor(4) as pool:
            answers = list(pool.map(lambda it: self.request(kind, it[0], it[1]), zip(texts, clients)))
        return {text: answer for text, answer in zip(HOSTILE, answers)}, (self.room / "bad").exists()


def refused(tried, name, kind, description, error, words):
    """A request is refused with this error, and a line of the log says why."""
    before = len(tried.told())
    got = tried.request(kind, description)
    line = until(lambda: tried.told()[before:], "a line of the log")[0]
    count.same(f"{name}: {words}", (got, line if words not in line else words, line.split(": key ")[0]), (error, words, name))


def is_safe(tried, name, kind, errors=("E126", "E129")):
    """What a stranger says gives no key, does nothing, and stays in its line of the log."""
    answers, left = tried.hostile(kind)
    count.same(f"{name}: words of a stranger", ({text: it for text, it in answers.items() if it not in errors}, left), ({}, False))
    count.same(f"{name}: lines of the log", [line for line in tried.told() if not line.startswith(f"{name}: key ")], [])


# ---- PostgreSQL


@contextlib.contextmanager
def postgresql(room):
    """A server of its own, at a socket in a folder; the role `keys` may make others, and `reports` is what they are members of."""
    folder = room / "postgresql"
    folder.mkdir()
    if ROOT:
        os.chown(folder, 65534, 65534)
    (room / "password").write_text("secret\n")
    (room / "password").chmod(0o644)
    bin = max(pathlib.Path("/usr/lib/postgresql").glob("*/bin"))
    quiet(bin / "initdb", "-D", folder / "data", "-U", "keys", "-A", "scram-sha-256", "--pwfile", room / "password", "--no-sync", "--locale=C", **NOBODY)
    words = [bin / "postgres", "-D", folder / "data", "-k", folder, "-c", "listen_addresses=", "-c", "fsync=off"]
    server = subprocess.Popen(words, stdin=subprocess.DEVNULL, stdout=subprocess.DEVNULL, stderr=subprocess.DEVNULL, **NOBODY)
    try:
        until(lambda: ran(bin / "pg_isready", "-h", folder)[0] == 0, "the PostgreSQL server")
        yield folder
    finally:
        server.terminate()
        server.wait()


def query(folder, sql, login="user=keys password=secret"):
    return ran("psql", "-XAtw", "-d", f"{login} host={folder} dbname=postgres", "-c", sql, text=True)


def tries_postgresql(program, room):
    name = "postgresql-role"
    with postgresql(room) as folder:
        query(folder, 'CREATE ROLE reports; CREATE ROLE "a\'b"; CREATE ROLE narrow LOGIN PASSWORD \'secret\'')
        lines = {"pg": (name, f"postgresql://keys@/postgres?host={folder}", 3600), "out": (name, f"postgresql://nobody@/postgres?host={folder}", 3600),
                 "narrow": (name, f"postgresql://narrow@/postgres?host={folder}", 3600), "none": (name, f"postgresql://keys@/postgres?host={room}/none", 9)}
        (room / "pgpass").write_text("*:*:*:*:secret\n")
        (room / "pgpass").chmod(0o600)
        with Tried(program, lines, room, PGPASSFILE=room / "pgpass") as tried:
            for group in ["reports", "a'b"]:
                login, seconds, moments = tried.get("pg", group)
                count.same(f"{name}: {group}: login", query(folder, "SELECT current_user ~ '^reqkey_'", login.decode().strip()), (0, "t\n", ""))
                role, member = login.decode().split()[0].partition("=")[2], f"pg_has_role(rolname, '{group.replace(chr(39), 2 * chr(39))}', 'member')"
                asked = f"SELECT {member}, floor(extract(epoch FROM rolvaliduntil)) FROM pg_roles WHERE rolname = '{role}'"
                member, until_then = query(folder, asked)[1].strip().split("|")
                count.same(f"{name}: {group}: its end", (member, int(until_then) - seconds in moments), ("t", True))
            query(folder, "CREATE ROLE reqkey_7_00000000 LOGIN VALID UNTIL '2020-01-01'")
            count.same(f"{name}: another one", len(tried.get("pg", "pg_monitor")), 3)
            gone = query(folder, "SELECT count(*) FROM pg_roles WHERE rolname ~ '^reqkey_'")
            count.same(f"{name}: a role whose time is over is dropped, and no other", gone, (0, "3\n", ""))
            refused(tried, name, "out", "reports", "E129", "the server refuses the login")
            refused(tried, name, "narrow", "reports", "E129", "the server does not make the role")
            refused(tried, name, "none", "reports", "E126", "there is no server")
            refused(tried, name, "pg", "missing", "E126", "there is no such role")
            is_safe(tried, name, "pg")


# ---- Kerberos


def free_port():
    with socket.socket() as one:
        one.bind(("127.0.0.1", 0))
        return one.getsockname()[1]


@contextlib.contextmanager
def kdc(room):
    """A KDC of the realm TEST, with a client, another one that was disabled, and two services; the environment of programs that use it."""
    port = free_port()
    (room / "krb5.conf").write_text(f"""[libdefaults]
 default_realm = TEST
 dns_lookup_kdc = false
 dns_canonicalize_hostname = false
 rdns = false
[realms]
 TEST = {{
  kdc = 127.0.0.1:{port}
 }}
""")
    (room / "kdc.conf").write_text(f"""[realms]
 TEST = {{
  database_name = {room}/principals
  key_stash_file = {room}/stash
  acl_file = {room}/acl
  kdc_listen = 127.0.0.1:{port}
  kdc_tcp_listen = 127.0.0.1:{port}
 }}
[logging]
 kdc = FILE:{room}/kdc.log
""")
    environment = {"KRB5_CONFIG": str(room / "krb5.conf"), "KRB5_KDC_PROFILE": str(room / "kdc.conf"), "PATH": f"{os.environ['PATH']}:/usr/sbin:/sbin"}
    quiet("kdb5_util", "create", "-s", "-r", "TEST", "-P", "master", env=environment)
    script = [*(f"addprinc -randkey {name}" for name in ["client", "gone", "HTTP/www.test", "ldap/two.test"]), f"ktadd -k {room}/keytab client gone",
              f"ktadd -k {room}/old client", f"ktadd -k {room}/keytab client", "modprinc -allow_tix gone"]
    quiet("kadmin.local", "-r", "TEST", input="\n".join(script) + "\n", env=environment)
    server = subprocess.Popen(["krb5kdc", "-n", "-r", "TEST"], env=environment, stdin=subprocess.DEVNULL, stdout=subprocess.DEVNULL, stderr=subprocess.DEVNULL)
    try:
        until(lambda: (room / "kdc.log").exists() and "commencing operation" in (room / "kdc.log").read_text(), "the KDC")
        yield environment
    finally:
        server.terminate()
        server.wait()


def tries_kerberos(program, room):
    name = "kerberos-ticket"
    with kdc(room) as environment:
        lines = {"krb": (name, room / "keytab", "client"), "old": (name, room / "old", "client"), "gone": (name, room / "keytab", "gone"),
                 "who": (name, room / "keytab", "who"), "none": (name, room / "none", "client")}
        with Tried(program, lines, room, KRB5_CONFIG=environment["KRB5_CONFIG"]) as tried:
            for service in ["HTTP/www.test", "ldap/two.test"]:
                ticket, seconds, moments = tried.get("krb", service)
                (room / "ticket").write_bytes(ticket)
                use = {**environment, "KRB5CCNAME": f"FILE:{room}/ticket", "LC_ALL": "C"}
                count.same(f"{name}: {service}", ran("kvno", "-q", "--cached-only", service, env=use)[0], 0)
                count.same(f"{name}: {service}: no other one", ran("kvno", "-q", "krbtgt/TEST", env=use)[0], 1)
                [line] = [line for line in quiet("klist", env=use).splitlines() if service in line]
                end = int(quiet("date", "-d", " ".join(line.split()[2:4]), "+%s", env=use))
                count.same(f"{name}: {service}: its end", end - seconds in moments, True)
            refused(tried, name, "krb", "HTTP/none.test", "E126", "the KDC does not know the service")
            refused(tried, name, "old", "HTTP/www.test", "E129", "the login is refused")
            refused(tried, name, "gone", "HTTP/www.test", "E128", "the account was revoked")
            refused(tried, name, "who", "HTTP/www.test", "E126", "there is no keytab for it")
            refused(tried, name, "none", "HTTP/www.test", "E126", "there is no keytab for it")
            is_safe(tried, name, "krb")


# ---- encrypted files


def ends(tried, name, kind, folder_says):
    """A file that says its end: later than the line's seconds, sooner, in the past, and no time."""
    begin = int(time.time())
    for entry, text in {"later": "2999-01-01", "sooner": f"@{begin + 10_000}", "past": "2001-01-01", "bad": "whenever; ls"}.items():
        folder_says(entry, f"secret\nExpires: {text}\n")
    count.same(f"{name}: a later end", tried.get(kind, "later")[:2], (b"secret\nExpires: 2999-01-01\n", 20_000))
    _, seconds, moments = tried.get(kind, "sooner")
    count.same(f"{name}: an end that is sooner", begin + 10_000 - seconds in moments, True)
    refused(tried, name, kind, "past", "E127", "its end can't be told, or is over")
    refused(tried, name, kind, "bad", "E127", "its line 'expires:' has no time")


def tries_pass(program, room):
    name, home = "pass-entry", tempfile.mkdtemp(prefix="gpg-")  # (the path of gpg-agent's socket has to be short)
    environment = {**os.environ, "GNUPGHOME": home, "PASSWORD_STORE_DIR": str(room / "store")}
    try:
        for who, passphrase in [("ours", ""), ("locked", "unknown")]:
            makes = ["--batch", "--passphrase", passphrase, "--pinentry-mode", "loopback", "--quick-gen-key", who, "rsa1024", "encr", "never"]
            quiet("gpg", *makes, env=environment)
        quiet("pass", "init", "ours", env=environment)

        def write(entry, text, who="ours"):
            path = room / "store" / f"{entry}.gpg"
            path.parent.mkdir(exist_ok=True)
            quiet("gpg", "--batch", "--trust-model", "always", "-r", who, "-o", path, "-e", input=text, env=environment)

        write("mail/joe", "the password\n")
        write("-h", "of an option\n")
        write("locked", "never\n", "locked")
        quiet("gpgconf", "--kill", "gpg-agent", env=environment)
        with Tried(program, {"pass": (name, 20_000)}, room, GNUPGHOME=home, PASSWORD_STORE_DIR=room / "store") as tried:
            count.same(f"{name}: an entry", tried.get("pass", "mail/joe")[:2], (b"the password\n", 20_000))
            count.same(f"{name}: an entry like an option", tried.get("pass", "-h")[:2], (b"of an option\n", 20_000))
            ends(tried, name, "pass", write)
            refused(tried, name, "pass", "mail", "E126", "there is no such entry")
            refused(tried, name, "pass", "locked", "E129", "it can't be decrypted")
            (room / "store" / "-h.gpg").unlink()
            is_safe(tried, name, "pass")
    finally:
        ran("gpgconf", "--kill", "all", env=environment)
        shutil.rmtree(home, ignore_errors=True)


def tries_age(program, room):
    name, folder = "age-file", room / "age"
    folder.mkdir()
    recipient = {}
    for who in ["ours", "another"]:
        quiet("age-keygen", "-o", room / who)
        recipient[who] = quiet("age-keygen", "-y", room / who).strip()

    def write(file, text, who="ours"):
        quiet("age", "-r", recipient[who], "-o", folder / f"{file}.age", input=text)

    write("token", "the token")
    write("two", "of two\n")
    write("sealed", "never", "another")
    (room / "a.age").write_text("beside the folder")
    with Tried(program, {"age": (name, folder, room / "ours", 20_000), "none": (name, folder, room / "none", 9)}, room) as tried:
        for file, text in [("token", b"the token"), ("two", b"of two\n")]:
            count.same(f"{name}: {file}", tried.get("age", file)[:2], (text, 20_000))
        ends(tried, name, "age", write)
        refused(tried, name, "age", "missing", "E126", "there is no such file")
        refused(tried, name, "none", "token", "E126", "there is no identity")
        refused(tried, name, "age", "sealed", "E129", "it can't be decrypted")
        refused(tried, name, "age", "../a", "E129", "this name is not allowed")
        is_safe(tried, name, "age")


# ---- hosts


def tries_addresses(program, room):
    name = "addresses"
    with Tried(program, {"dns": (name, 600)}, room) as tried:
        for host in ["localhost", "127.0.0.2"]:
            wanted = list(dict.fromkeys(line.split()[0] for line in quiet("getent", "ahosts", host).splitlines()))
            count.same(f"{name}: {host}", tried.get("dns", host)[:2], ("".join(f"{it}\n" for it in wanted).encode(), 600))
        refused(tried, name, "dns", "nowhere.invalid", "E126", "there is no such host")
        is_safe(tried, name, "dns")


# ---- certificates, and a server over TLS


CURVE = ["-newkey", "ec", "-pkeyopt", "ec_paramgen_curve:P-256"]


def authority(folder, *words):
    """A CA in a folder."""
    folder.mkdir()
    new = ["openssl", "req", "-x509", *CURVE, "-subj", "/CN=test"]
    quiet(*new, "-keyout", folder / "ca.key", "-out", folder / "ca.pem", *(words or ["-nodes", "-days", "100"]))
    return folder


def tries_certificates(program, room):
    name, ca = "tls-certificate", authority(room / "ca")
    short, locked = authority(room / "short", "-nodes", "-days", "2"), authority(room / "locked", "-passout", "pass:unknown")
    lines = {"tls": (name, ca, 7), "short": (name, short, 7), "locked": (name, locked, 7), "none": (name, room / "none", 7)}
    with Tried(program, lines, room) as tried:
        for host in ["www.test", "a-b.two.test"]:
            pem, seconds, moments = tried.get("tls", host)
            (room / "pem").write_bytes(pem)
            verified = ran("openssl", "verify", "-CAfile", ca / "ca.pem", "-verify_hostname", host, "-purpose", "sslserver", room / "pem", text=True)
            count.same(f"{name}: {host}", verified, (0, f"{room}/pem: OK\n", ""))
            ssl.create_default_context().load_cert_chain(room / "pem")
            count.same(f"{name}: {host}: its end", int(end_of(room / "pem")) - seconds in moments, True)
        _, seconds, moments = tried.get("short", "www.test")
        count.same(f"{name}: the end of the CA", int(end_of(short / "ca.pem")) - seconds in moments, True)
        refused(tried, name, "locked", "www.test", "E129", "the CA does not sign")
        refused(tried, name, "none", "www.test", "E126", "there is no CA")
        refused(tried, name, "tls", "a,DNS:b", "E129", "this is no name of a host")
        is_safe(tried, name, "tls")


def end_of(certificate):
    return ssl.cert_time_to_seconds(quiet("openssl", "x509", "-in", certificate, "-noout", "-enddate").strip().partition("=")[2])


class Tokens(http.server.BaseHTTPRequestHandler):
    """Gives the client `web` tokens that say their scope; some scopes have a reply of their own."""

    REPLIES = {"odd": b"{}", "text": b"no JSON", "endless": b'{"access_token": "t", "token_type": "bearer"}', "whenever":
               b'{"access_token": "t", "token_type": "bearer", "expires_in": "soon"}'}

    def do_POST(self):
        fields = dict(urllib.parse.parse_qsl(self.rfile.read(int(self.headers["Content-Length"])).decode()))
        scope = fields["scope"]
        known = self.headers["Authorization"] == "Basic " + base64.b64encode(b"web:secret").decode() and fields["grant_type"] == "client_credentials"
        reply = self.REPLIES.get(scope) or json.dumps({"access_token": f"for {scope}", "token_type": "Bearer", "expires_in": 1234}).encode()
        self.send_response(503 if scope == "busy" else 200 if known else 401)
        self.end_headers()
        self.wfile.write(reply)

    def log_message(self, *_):
        pass


@contextlib.contextmanager
def tokens(room):
    """The server, with a certificate of a CA; its URL."""
    ca = authority(room / "ca")
    (room / "names").write_text("subjectAltName = DNS:localhost\n")
    quiet("openssl", "req", "-new", *CURVE, "-nodes", "-subj", "/", "-keyout", room / "key", "-out", room / "asked")
    signs = ["-CA", ca / "ca.pem", "-CAkey", ca / "ca.key", "-set_serial", 7, "-extfile", room / "names"]
    quiet("openssl", "x509", "-req", "-in", room / "asked", *signs, "-out", room / "pem")
    context = ssl.SSLContext(ssl.PROTOCOL_TLS_SERVER)
    context.load_cert_chain(room / "pem", room / "key")
    server = http.server.ThreadingHTTPServer(("127.0.0.1", 0), Tokens)
    server.handle_error = lambda *_: None  # a client that does not trust it ends the connection
    server.socket = context.wrap_socket(server.socket, server_side=True, do_handshake_on_connect=False)
    threading.Thread(target=server.serve_forever, args=(0.05,), daemon=True).start()
    try:
        yield f"https://localhost:{server.server_port}/token"
    finally:
        server.shutdown()
        server.server_close()


def tries_tokens(program, room):
    name = "oauth-token"
    with tokens(room) as url:
        trusts = f'cacert = "{room}/ca/ca.pem"\n'
        for login, secret, ca in [("login", "secret", trusts), ("wrong", "guess", trusts), ("trustless", "secret", "")]:
            (room / login).write_text(f'user = "web:{secret}"\n{ca}')
        lines = {"oauth": (name, url, room / "login"), "wrong": (name, url, room / "wrong"), "trustless": (name, url, room / "trustless"),
                 "none": (name, f"https://localhost:{free_port()}/token", room / "login"), "no": (name, url, room / "none")}
        with Tried(program, lines, room) as tried:
            for scope in ["read", "read write", *[text for text in HOSTILE if "%s" not in text]]:
                count.same(f"{name}: {scope!r}", tried.get("oauth", scope)[:2], (f"for {scope}".encode(), 1234))
            count.same(f"{name}: a token without an end", tried.get("oauth", "endless")[:2], (b"t", 60))
            refused(tried, name, "oauth", "odd", "E129", "the reply is no token")
            refused(tried, name, "oauth", "text", "E129", "the reply is no token")
            refused(tried, name, "oauth", "whenever", "E129", "the reply has no end of its token")
            refused(tried, name, "oauth", "busy", "E126", "there is no server")
            refused(tried, name, "wrong", "read", "E129", "the login or the scope is refused")
            refused(tried, name, "trustless", "read", "E129", "the certificate of the server is refused")
            refused(tried, name, "none", "read", "E126", "there is no server")
            refused(tried, name, "no", "read", "E126", "there is no login")
            count.same(f"{name}: words of a stranger do nothing", tried.hostile("oauth")[1], False)


# ---- what all have in common


def lines_of(room):
    """A line for each handler that comes as far as to its first program, and that program."""
    (room / "a.age").touch()
    (room / "a.gpg").touch()
    for file in ["ca.pem", "ca.key"]:
        (room / file).touch()
    return {"postgresql-role": (("x", 9), "psql"), "kerberos-ticket": ((room / "a.age", "client"), "kinit"), "pass-entry": ((9,), "pass"),
            "age-file": ((room, room / "a.age", 9), "age"), "addresses": ((9,), "getent"), "tls-certificate": ((room, 9), "openssl"),
            "oauth-token": (("https://localhost/", room / "a.age"), "curl")}


def tries_limits(program, room):
    """A program that is missing, and one that does not end."""
    wanted = lines_of(room)
    count.same("the handlers that are tried", sorted(wanted), sorted(it.name for it in HANDLERS.iterdir() if it.suffix != ".sh"))
    lines = {name: (name, *words) for name, (words, _) in wanted.items()}
    tools = room / "tools"
    tools.mkdir()
    for tool in ["sh", "timeout", "mktemp", "rm", "tr", "cut", "head", "cat", "od", "date", "grep"]:
        (tools / tool).symlink_to(shutil.which(tool))
    with Tried(program, lines, room, path=str(tools)) as tried:
        for name, (_, needed) in wanted.items():
            refused(tried, name, name, "a", "E126", f"there is no {needed}")
    for needed in [needed for _, needed in wanted.values()] + ["kvno", "klist", "gpg", "jq"]:
        (tools / needed).write_text("#!/bin/sh\nexec sleep 1000\n")
        (tools / needed).chmod(0o755)
    (tools / "sleep").symlink_to(shutil.which("sleep"))
    with Tried(program, lines, room, limit=0.1, path=str(tools), PASSWORD_STORE_DIR=room) as tried:
        for name, (_, needed) in wanted.items():
            refused(tried, name, name, "a", "E127", f"{needed} has not ended within 0.1 seconds")
    with open("/dev/null") as nothing:
        environment = {**os.environ, "PATH": f"{client_of(program).parent}:{os.environ['PATH']}"}
        by_hand = ran(HANDLERS / "addresses", "12", "localhost", "9", stdin=nothing, env=environment)
    count.same("a handler by hand, without a daemon", by_hand[0], 1)


# What is tried, and what has to be there for it: programs, and the Debian packages that have them.
TRIALS = {
    tries_limits: ([], []),
    tries_addresses: (["getent"], ["libc-bin"]),
    tries_certificates: (["openssl"], ["openssl"]),
    tries_age: (["age", "age-keygen"], ["age"]),
    tries_pass: (["pass", "gpg", "gpgconf"], ["pass", "gnupg"]),
    tries_tokens: (["curl", "jq", "openssl"], ["curl", "jq", "openssl"]),
    tries_kerberos: (["kinit", "kvno", "klist", "krb5kdc", "kadmin.local", "kdb5_util"], ["krb5-kdc", "krb5-admin-server", "krb5-user"]),
    tries_postgresql: (["psql", "/usr/lib/postgresql/*/bin/initdb"], ["postgresql"]),
}


def main():
    programs = list(there(count))
    for trial, (needed, packages) in TRIALS.items():
        if has(f"handlers: {trial.__name__.removeprefix('tries_')}", needed, packages):
            for program in programs:
                with tempfile.TemporaryDirectory(prefix="handlers-") as folder:
                    os.chmod(folder, 0o711)
                    try:
                        trial(program, pathlib.Path(folder))
                    except Exception as failed:  # whatever it is, it is this trial that failed
                        count.wrong(trial.__name__, f"{type(failed).__name__}: {failed}")
    count.end()


main()
