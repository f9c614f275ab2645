"""Logins by a real sshd on this machine, on ports of their own, for the recipe that sends files to others."""
from __future__ import annotations

import getpass
import os
import shutil
import socket
import subprocess
import tempfile
import time
from typing import Any

SSHD = shutil.which("sshd") or next((path for path in ("/usr/sbin/sshd",) if os.path.exists(path)), None)
NEEDED = ("ssh", "ssh-keygen", "rsync", "parallel", "cat", "awk")
CONFIG = """ListenAddress 127.0.0.1
Port {port}
HostKey {folder}/host
AuthorizedKeysFile {folder}/key.pub
PidFile none
StrictModes no
UsePAM no
PermitRootLogin prohibit-password
PasswordAuthentication no
SetEnv PATH={folder}/bin:/usr/local/bin:/usr/bin:/bin
"""
SILENT: dict[str, Any] = {"stdin": subprocess.DEVNULL, "stdout": subprocess.DEVNULL, "stderr": subprocess.DEVNULL}
ONE = """Host there{port}
HostName 127.0.0.1
Port {port}
IdentityFile {folder}/key
User {user}
StrictHostKeyChecking no
UserKnownHostsFile /dev/null
LogLevel ERROR
BatchMode yes
"""


def are_there() -> bool:
    """Whether this machine has what such logins take."""
    if SSHD is None or not all(map(shutil.which, NEEDED)):
        return False
    if os.geteuid() == 0:
        os.makedirs("/run/sshd", mode=0o755, exist_ok=True)
    return True


def free_port() -> int:
    with socket.socket() as one:
        one.bind(("127.0.0.1", 0))
        port: int = one.getsockname()[1]
        return port


class Logins:
    """So many of them while the block lasts; what stands in the folder `programs` is on their PATH."""

    def __init__(self, count: int, programs: str) -> None:
        self.begun: list[subprocess.Popen[bytes]]
        self.count, self.programs, self.begun = count, programs, []

    def __enter__(self) -> Logins:
        self.folder = tempfile.mkdtemp(prefix="logins-")
        self.names: list[str]
        self.ssh, self.names = ["ssh", "-F", f"{self.folder}/config"], []
        try:
            os.symlink(self.programs, f"{self.folder}/bin")
            for name in ("host", "key"):
                words = ["ssh-keygen", "-q", "-t", "ed25519", "-N", "", "-f", f"{self.folder}/{name}"]
                subprocess.run(words, check=True, stdin=subprocess.DEVNULL)
            for _ in range(self.count):
                self.begin(free_port())
        except BaseException:
            self.__exit__()
            raise
        return self

    def begin(self, port: int) -> None:
        """One more of them, if this user may log in there."""
        with open(f"{self.folder}/config{port}", "w", encoding="utf8") as file:
            file.write(CONFIG.format(port=port, folder=self.folder))
        with open(f"{self.folder}/config", "a", encoding="utf8") as clients:
            clients.write(ONE.format(port=port, folder=self.folder, user=getpass.getuser()))
        assert SSHD is not None  # (are_there says so)
        self.begun.append(subprocess.Popen([SSHD, "-D", "-q", "-f", file.name], **SILENT))
        self.names.append(f"there{port}")
        self.wait(port)
        if subprocess.run([*self.ssh, self.names[-1], "true"], timeout=60, **SILENT).returncode:
            raise OSError("it lets nobody in")

    def wait(self, port: int) -> None:
        for _ in range(100):
            with socket.socket() as one:
                if one.connect_ex(("127.0.0.1", port)) == 0:
                    return
            time.sleep(0.05)
        raise OSError("it doesn't answer")

    def __exit__(self, *_: object) -> None:
        for one in self.begun:
            one.terminate()
            one.wait()
        shutil.rmtree(self.folder, ignore_errors=True)
