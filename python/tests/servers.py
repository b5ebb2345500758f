"""Servers of other systems for tests: each of its own, in a folder, gone at the end; a test is skipped where one is not here."""
from __future__ import annotations

import glob
import os
import random
import shutil
import subprocess
import tempfile
import time
from typing import Protocol, Sequence

import pytest

from conftest import Done


class Server(Protocol):
    def run(self, script: str) -> Done: ...


def _run(words: Sequence[str], script: str) -> Done:
    done = subprocess.run(words, input=script.encode("utf-8"), capture_output=True)
    return Done(done.returncode, done.stdout.decode("utf-8"), done.stderr.decode("utf-8", "replace"))


def _await(server: Server) -> None:
    """Waits until a server answers."""
    end = time.monotonic() + 100
    while server.run("SELECT 1;").status:
        assert time.monotonic() < end, "the server does not start"
        time.sleep(0.2)


class Postgresql:
    """A server of PostgreSQL of one's own, which is not to be started by root."""

    def __enter__(self) -> Postgresql:
        found = sorted(glob.glob("/usr/lib/postgresql/*/bin"))
        if not found or os.geteuid() != 0:
            pytest.skip("PostgreSQL is not here, or not to be started by this user: Debian's package postgresql")
        self.folder = tempfile.mkdtemp(prefix="test-pg-")
        shutil.chown(self.folder, "postgres")
        user = ["runuser", "-u", "postgres", "--"]
        subprocess.run([*user, f"{found[-1]}/initdb", "-D", f"{self.folder}/data", "-E", "UTF8", "--locale=C", "-N"], check=True, capture_output=True)
        self.server = subprocess.Popen([*user, f"{found[-1]}/postgres", "-D", f"{self.folder}/data", "-k", self.folder, "-c", "listen_addresses=",
                                        "-c", "fsync=off"], stdout=subprocess.DEVNULL, stderr=subprocess.DEVNULL)
        self.psql = [*user, f"{found[-1]}/psql", "-h", self.folder, "-X", "-q", "-v", "ON_ERROR_STOP=1", "--csv", "-t", "postgres"]
        _await(self)
        return self

    def run(self, script: str) -> Done:
        """Runs statements, and gives what the client prints of them, as CSV."""
        return _run(self.psql, script if script.rstrip().endswith(";") else script + ";")

    def __exit__(self, *_: object) -> None:
        self.server.terminate()
        self.server.wait()
        shutil.rmtree(self.folder, ignore_errors=True)


class ClickHouse:
    """A server of ClickHouse of one's own."""

    def __enter__(self) -> ClickHouse:
        if shutil.which("clickhouse-server") is None:
            pytest.skip("ClickHouse is not here: Debian's packages clickhouse-server and clickhouse-client")
        self.folder, self.port = tempfile.mkdtemp(prefix="test-ch-"), random.randrange(20_000, 40_000)
        with open(f"{self.folder}/config.xml", "w") as file:
            file.write(f"<yandex><logger><level>none</level></logger><tcp_port>{self.port}</tcp_port><listen_host>127.0.0.1</listen_host>"
                       f"<path>{self.folder}/data/</path><tmp_path>{self.folder}/tmp/</tmp_path><users_config>users.xml</users_config>"
                       "<mark_cache_size>5368709120</mark_cache_size><default_profile>default</default_profile><default_database>default</default_database></yandex>")
        with open(f"{self.folder}/users.xml", "w") as file:
            file.write("<yandex><profiles><default></default></profiles><users><default><password></password><networks><ip>::/0</ip></networks>"
                       "<profile>default</profile><quota>default</quota></default></users><quotas><default></default></quotas></yandex>")
        self.server = subprocess.Popen(["clickhouse-server", f"--config-file={self.folder}/config.xml"], stdout=subprocess.DEVNULL,
                                       stderr=subprocess.DEVNULL, cwd=self.folder)
        _await(self)
        return self

    def run(self, script: str) -> Done:
        """Runs statements, and gives what the client prints of them, as CSV."""
        return _run(["clickhouse-client", "--port", str(self.port), "--multiquery", "--format", "CSV"], script)

    def __exit__(self, *_: object) -> None:
        self.server.terminate()
        self.server.wait()
        shutil.rmtree(self.folder, ignore_errors=True)
