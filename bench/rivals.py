"""Other programs that keep, find or vouch for a record, where they are installed: sqlite3, git and openssl ts.

None of them does what Timeweave does. A table and a repository give back what was put in, and prove nothing to others; a time stamp
is a signature by an authority that its holder trusts. They say how long a command takes that people know.
"""

import os
import shutil
import subprocess
from pathlib import Path

# Each program is asked in a folder of its own, with no settings of the user's.
ENVIRONMENT = {
    "GIT_CONFIG_GLOBAL": "/dev/null", "GIT_CONFIG_SYSTEM": "/dev/null",
    "GIT_AUTHOR_NAME": "bench", "GIT_AUTHOR_EMAIL": "bench@localhost", "GIT_COMMITTER_NAME": "bench", "GIT_COMMITTER_EMAIL": "bench@localhost",
}

SETTINGS = """
[tsa]
default_tsa = one
[one]
serial = {folder}/serial
signer_cert = {folder}/tsa.pem
signer_key = {folder}/tsa.key
signer_digest = sha256
default_policy = 1.2.3.4
digests = sha256
ess_cert_id_alg = sha256
[req]
distinguished_name = name
x509_extensions = stamping
prompt = no
[name]
CN = bench
[stamping]
extendedKeyUsage = critical,timeStamping
"""


def quiet(*words, **settings):
    subprocess.run(words, check=True, capture_output=True, **settings)


def sqlite(folder, count):
    """A table of so many rows: reading one, and adding one, which is on the disk when the command ends."""
    database = f"{folder}/steps.db"
    quiet("sqlite3", database, "create table steps (step integer primary key, events blob not null);"
          f"insert into steps with recursive n(i) as (values (1) union all select i + 1 from n where i < {count}) select i, 'bench' from n;")
    return {
        "prove": [("`sqlite3`, one row read", ["sqlite3", database, "select events from steps where step = 1"])],
        "append": [("`sqlite3`, one row added", ["sqlite3", database, "insert into steps (events) values ('bench')"])],
    }


def git(folder, count):
    """A repository of so many commits: reading one, and adding one, with all of it synced and as git does by itself."""
    repository = f"{folder}/repository"
    quiet("git", "init", "-q", "-b", "main", repository)
    commits = "".join(
        f"commit refs/heads/main\ncommitter bench <bench@localhost> {k} +0000\ndata 5\nbench\n" for k in range(1, count + 1)
    )
    quiet("git", "-C", repository, "fast-import", "--quiet", input=commits.encode())
    commit = ["git", "-C", repository, "-c", "gc.auto=0", "commit", "-q", "--allow-empty", "-m", "bench"]
    first = subprocess.run(["git", "-C", repository, "rev-list", "--max-parents=0", "main"], check=True, capture_output=True, text=True)
    return {
        "prove": [("`git cat-file`, one commit read", ["git", "-C", repository, "cat-file", "-p", first.stdout.strip()])],
        "append": [
            ("`git commit`, all synced", [*commit[:3], "-c", "core.fsync=all", *commit[3:]]),
            ("`git commit`, as it syncs by itself", commit),
        ],
    }


def stamps(folder, count):
    """An authority that signs with RSA of 2,048 bits: making a time stamp of a file, and verifying it."""
    settings, event = f"{folder}/tsa.cnf", f"{folder}/event"
    Path(settings).write_text(SETTINGS.format(folder=folder))
    Path(f"{folder}/serial").write_text("01\n")
    Path(event).write_text("bench")
    quiet("openssl", "req", "-x509", "-newkey", "rsa:2048", "-nodes", "-config", settings, "-days", "3650",
          "-keyout", f"{folder}/tsa.key", "-out", f"{folder}/tsa.pem")
    quiet("openssl", "ts", "-query", "-data", event, "-sha256", "-cert", "-out", f"{folder}/query")
    reply = ["openssl", "ts", "-reply", "-config", settings, "-queryfile", f"{folder}/query", "-out", f"{folder}/stamp"]
    quiet(*reply)
    verify = ["openssl", "ts", "-verify", "-data", event, "-in", f"{folder}/stamp", "-CAfile", f"{folder}/tsa.pem"]
    return {"prove": [("`openssl ts -reply`", reply)], "verify": [("`openssl ts -verify`", verify)]}


def all_rivals(folder, count):
    """The commands beside `verify`, `prove` and `append`, each with a label, of the programs that are installed."""
    os.environ.update(ENVIRONMENT)
    found = {}
    for name, made in (("sqlite3", sqlite), ("git", git), ("openssl", stamps)):
        for kind, commands in made(folder, count).items() if shutil.which(name) else ():
            found[kind] = found.get(kind, []) + commands
    return found
