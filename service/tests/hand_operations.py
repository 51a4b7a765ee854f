"""The files for operators, tried by hand: `service/check FOLDER --by-hand`. They want programs that the other tests do without."""

from __future__ import annotations

import contextlib
import os
import shutil
import signal
import socket
import ssl
import subprocess
import tempfile
import time
import urllib.request
from typing import Any, Iterator

from editlens_client import Client
from editlens_client.wire import Call

from .fleet import SERVICE
from .load import PROGRAM
from .room import Room, Skipped

OPERATIONS = os.path.join(SERVICE, "operations")
ADD = [{"at": ["hours", [{"add": 1}]]}]
MAIN = """daemon off; worker_processes 1; error_log {folder}/error.log; pid {folder}/pid;
events {{}}
http {{ access_log off; client_body_temp_path {folder}/b; proxy_temp_path {folder}/p; fastcgi_temp_path {folder}/f;
uwsgi_temp_path {folder}/u; scgi_temp_path {folder}/s; include {folder}/service.conf; }}
"""


def _read(name: str) -> str:
    with open(os.path.join(OPERATIONS, name), encoding="utf-8") as file:
        return file.read()


def _need(name: str, package: str) -> str:
    found = shutil.which(name) or shutil.which(name, path="/usr/sbin:/sbin")
    if found is None:
        raise Skipped(f"there is no {name}: its Debian package is {package}")
    return found


def test_the_unit_of_systemd(room: Room) -> None:
    """systemd-analyze finds nothing wrong with the unit, whose paths are those of this copy."""
    program = _need("systemd-analyze", "systemd")
    with tempfile.TemporaryDirectory() as folder:
        path = os.path.join(folder, "editlens@8081.service")
        with open(path, "w", encoding="utf-8") as file:
            file.write(_read("editlens@.service").replace("/opt/editlens/service", SERVICE))
        ran = subprocess.run([program, "verify", "--man=no", path], capture_output=True, text=True, check=False)
    said = [line for line in ran.stderr.splitlines() if "editlens" in line]
    assert not ran.returncode and not said, ran.stderr


def _free_port() -> int:
    with socket.socket() as there:
        there.bind(("127.0.0.1", 0))
        return there.getsockname()[1]


@contextlib.contextmanager
def _proxy(ports: "list[int]") -> "Iterator[tuple[str, str]]":
    """nginx with the configuration of the operations, before workers on these ports. Its address, and the file of its certificate."""
    program, port = _need("nginx", "nginx"), _free_port()
    with tempfile.TemporaryDirectory() as folder:
        os.chmod(folder, 0o755)
        key, certificate = os.path.join(folder, "key.pem"), os.path.join(folder, "fullchain.pem")
        name = ["-subj", "/CN=localhost", "-addext", "subjectAltName=DNS:localhost"]
        made = ["req", "-x509", "-newkey", "rsa:2048", "-nodes", "-days", "2", "-keyout", key, "-out", certificate, *name]
        subprocess.run([_need("openssl", "openssl"), *made], capture_output=True, check=True)
        text = _read("nginx.conf").replace("/etc/ssl/editlens", folder).replace("listen 443", f"listen 127.0.0.1:{port}")
        for old, new in zip((8081, 8082), ports, strict=True):
            text = text.replace(f"127.0.0.1:{old}", f"127.0.0.1:{new}")
        for file_name, content in (("service.conf", text), ("nginx.conf", MAIN.format(folder=folder))):
            with open(os.path.join(folder, file_name), "w", encoding="utf-8") as file:
                file.write(content)
        words = ["-c", os.path.join(folder, "nginx.conf"), "-p", folder, "-e", os.path.join(folder, "error.log")]
        process = subprocess.Popen([program, *words])
        try:
            _await_port(port, process)
            yield f"https://localhost:{port}", certificate
        finally:
            process.send_signal(signal.SIGQUIT)
            try:
                process.wait(10)
            except subprocess.TimeoutExpired:
                process.kill()
                process.wait()


def _await_port(port: int, process: "subprocess.Popen[Any]") -> None:
    deadline = time.monotonic() + 60
    while True:
        assert process.poll() is None and time.monotonic() < deadline, "nginx does not start"
        with contextlib.suppress(OSError), socket.create_connection(("127.0.0.1", port), timeout=5):
            return
        time.sleep(0.1)


def test_nginx_with_tls(room: Room) -> None:
    """Requests and streams go through nginx with TLS. A stream has each event at once, and when a worker is killed another one answers."""
    workers, name = room.serve(), room.name()
    direct = room.client(0)
    direct.make(name, PROGRAM)
    with _proxy([it.port for it in workers]) as (address, certificate):
        os.environ["SSL_CERT_FILE"] = certificate
        try:
            client = Client(address, "all", patience=20.0)
            left = client.pair(name, "left")
            events = left.changes(0)
            assert left.edit(ADD).number == 1 and next(events).data["number"] == 1
            times = [_time_of_event(direct.pair(name, "right"), events, number) for number in range(2, 12)]
            assert sorted(times)[5] < 1.0, times
            with urllib.request.urlopen(f"{address}/metrics", context=ssl.create_default_context(cafile=certificate)) as said:
                assert b"editlens_streams" in said.read()
            workers[1].kill()
            try:
                assert [left.edit(ADD, key=f"behind-{it}").number for it in range(6)] == list(range(12, 18))
                assert client.ask(Call("GET", "/healthz")) == {"ok": True}
            finally:
                workers[1].start()
        finally:
            del os.environ["SSL_CERT_FILE"]
    assert direct.pair(name, "left").read() == ({"hours": 7, "plan": []}, 17)


def _time_of_event(document: Any, events: Any, number: int) -> float:
    """Seconds from an edit that is sent to a worker until a stream through the proxy has it."""
    begin = time.monotonic()
    assert document.edit([{"at": ["color", [{"set": str(number)}]]}]).number == number
    assert next(events).data["number"] == number
    return time.monotonic() - begin
