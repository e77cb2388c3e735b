"""A time-stamping authority on this machine, in a process of its own, without a network: its certificates and its answers are made by openssl. By the first word of the
path it answers honestly, as a hostile server, or with something else."""

import subprocess
import tempfile
from pathlib import Path

from network import web

SETTINGS = """[tsa]
default_tsa=own
[own]
serial={folder}/serial
signer_cert={folder}/tsa.pem
certs={folder}/root.pem
signer_key={folder}/tsa.key
signer_digest=sha256
default_policy=1.2.3.4.1
digests=sha1,sha256,sha384,sha512
accuracy={accuracy}
"""
EXTENSIONS = "extendedKeyUsage=critical,timeStamping\nkeyUsage=critical,digitalSignature\n"
CURVE = ("-newkey", "ec", "-pkeyopt", "ec_paramgen_curve:prime256v1", "-nodes")


def openssl(*words: "str | Path", folder: Path) -> bytes:
    """Runs openssl within a folder; answers its output."""
    done = subprocess.run(["openssl", *words], cwd=folder, stdin=subprocess.DEVNULL, capture_output=True, check=False, timeout=60)
    if done.returncode:
        raise OSError(f"openssl {words}: {done.stderr!r}")
    return done.stdout


class Authority:
    """An authority: a root, and a certificate for stamps that is good for so many days from now on."""

    def __init__(self, folder: Path, name: str, days: int = 7300, accuracy: str = "secs:1"):
        self.folder, self.name = folder / name, name
        self.folder.mkdir(parents=True)
        openssl("req", "-x509", *CURVE, "-keyout", "root.key", "-out", "root.pem", "-days", "9000", "-subj", f"/CN=Root of {name}", folder=self.folder)
        openssl("req", *CURVE, "-keyout", "tsa.key", "-out", "tsa.csr", "-subj", f"/CN=Stamps of {name}", folder=self.folder)
        (self.folder / "extensions").write_text(EXTENSIONS)
        made = ("-CA", "root.pem", "-CAkey", "root.key", "-CAcreateserial", "-extfile", "extensions", "-out", "tsa.pem")
        openssl("x509", "-req", "-in", "tsa.csr", *made, "-days", str(days), folder=self.folder)
        (self.folder / "settings").write_text(SETTINGS.format(folder=self.folder, accuracy=accuracy))
        (self.folder / "serial").write_text("01\n")

    @property
    def root(self) -> bytes:
        """Its root, as PEM."""
        return (self.folder / "root.pem").read_bytes()

    def answer(self, query: bytes) -> bytes:
        """What it answers."""
        with tempfile.NamedTemporaryFile() as file:
            file.write(query)
            file.flush()
            return openssl("ts", "-reply", "-config", "settings", "-queryfile", file.name, folder=self.folder)

    def stamp(self, text: bytes, digest: str = "sha512") -> bytes:
        """A stamp of a text, as somebody else gets it."""
        with tempfile.NamedTemporaryFile() as file:
            file.write(text)
            file.flush()
            return self.answer(openssl("ts", "-query", "-data", file.name, f"-{digest}", "-cert", folder=self.folder))

    def revoke(self) -> bytes:
        """Revokes its certificate; answers the list that says so, as PEM."""
        (self.folder / "index").touch()
        (self.folder / "ca").write_text(f"[ca]\ndefault_ca=own\n[own]\ndatabase={self.folder}/index\ndefault_md=sha256\ndefault_crl_days=3000\n")
        words = ("ca", "-config", "ca", "-cert", "root.pem", "-keyfile", "root.key")
        openssl(*words, "-revoke", "tsa.pem", folder=self.folder)
        return openssl(*words, "-gencrl", folder=self.folder)


class Handler(web.Handler):
    """Answers one asker, in a way that the path says: honestly, as a hostile server, or with something else."""

    authority: Authority

    def do_POST(self) -> None:
        """Answers what is asked."""
        query, way = self.rfile.read(int(self.headers["Content-Length"])), self.path.split("/")[1]
        self.close_connection = True
        try:
            if way.replace("-", " ") in web.KINDS:
                getattr(self, way.replace("-", "_"))(b"")
            else:
                self.tell(self.made(way, query))
        except OSError:
            self.close_connection = True

    def made(self, way: str, query: bytes) -> bytes:
        """The body of an answer."""
        if way == "page":
            return b"<html>Welcome</html>"
        if way == "other":
            return self.authority.stamp(b"another text")
        if way == "refused":
            return bytes.fromhex("3009300702010203020520")
        answer = self.authority.answer(query)
        return answer[:-1] + bytes([answer[-1] ^ 1]) if way == "changed" else answer


class Served(web.Web):
    """An authority that can be asked, until it is closed."""

    def __init__(self, authority: Authority):
        super().__init__(authority.folder, type("Own", (Handler,), {"authority": authority}))
