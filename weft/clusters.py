"""Work on more machines than one: the executor that Dask gives of a cluster, by the address of its scheduler.

A scheduler has its workers run whatever it is sent. So it is asked by TLS, with files that say who it and this machine are; without these only on this
machine itself. The workers need weft, its judges, and the files under the same paths."""

from __future__ import annotations

import importlib
import logging
import re
from concurrent.futures import Executor
from contextlib import contextmanager
from pathlib import Path
from typing import Any, Iterator, Optional, Sequence

from weft import files
from weft.statuses import Status
from weft.texts import name_of
from weft.trouble import Trouble

ADDRESS = re.compile(r"(tcp|tls)://(\[[0-9a-fA-F:]+\]|[A-Za-z0-9.-]+):([0-9]{1,5})")
OWN = ("127.0.0.1", "localhost", "[::1]")
MOST_BYTES = 1 << 20
MOST_SECONDS = 20


def checked(address: str, tls: Optional[Sequence[str]]) -> None:
    """Raises Trouble where the address is none, or is to be asked without TLS though it isn't this machine's."""
    found = ADDRESS.fullmatch(address)
    if found is None:
        raise Trouble(Status.USAGE, f"{name_of(address)} is no address of a scheduler", "It is as tls://host:8786, or tcp://127.0.0.1:8786.")
    if found[1] == "tcp" and found[2] not in OWN:
        told = f"{name_of(address)} is another machine's, and without TLS anybody on the way could have the workers run what he likes"
        raise Trouble(Status.USAGE, told, "Give the scheduler TLS: tls://.., with --tls.")
    if found[1] == "tls" and tls is None:
        raise Trouble(Status.USAGE, "TLS needs three files", "Name them: --tls CA.pem CERTIFICATE.pem KEY.pem.")
    for path in tls or ():
        files.read(path, MOST_BYTES)


@contextmanager
def executor(address: str, tls: Optional[Sequence[str]]) -> Iterator[Executor]:
    """The executor of the cluster whose scheduler has this address; `tls` are the files of the authority, of the certificate and of its key."""
    checked(address, tls)
    try:
        distributed: Any = importlib.import_module("distributed")
    except ImportError:
        raise Trouble(Status.USAGE, "the Python package distributed isn't there", "Install it (python3-distributed), or leave out --dask.") from None
    for name in ["asyncio", "tornado", *logging.root.manager.loggerDict]:
        if name.partition(".")[0] in ("asyncio", "distributed", "tornado"):
            logging.getLogger(name).setLevel(logging.CRITICAL)  # (what goes wrong is told by the futures, in sentences)
    security = None
    if tls is not None:
        names = ("tls_ca_file", "tls_client_cert", "tls_client_key")
        security = distributed.Security(require_encryption=True, **{name: str(Path(path).resolve()) for name, path in zip(names, tls)})
    try:
        client = distributed.Client(address, security=security, timeout=MOST_SECONDS, set_as_default=False)
    except (OSError, TimeoutError):
        raise Trouble(Status.DISK, f"no scheduler answers at {name_of(address)}", "Is it running, and is the address right?") from None
    try:
        yield client.get_executor(pure=False)
    finally:
        client.close()
