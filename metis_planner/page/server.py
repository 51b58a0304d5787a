"""The server by which a browser on this machine follows a folder: two addresses behind a token, and no file by its name."""

import http.server
import json
import os
import pathlib
import re
import secrets
import webbrowser
from collections.abc import Callable, Mapping

from metis_planner.answers import Refused
from metis_planner.text.terminal import plain, say

HEADERS = {
    "Cache-Control": "no-store",
    "X-Content-Type-Options": "nosniff",
    "X-Frame-Options": "DENY",
    "Referrer-Policy": "no-referrer",
    "Cross-Origin-Resource-Policy": "same-origin",
}
KEPT = re.compile(r"([1-9][0-9]{0,4}) ([A-Za-z0-9_-]{24})\n")
Answers = Mapping[str, tuple[str, Callable[[], str]]]


class Server(http.server.ThreadingHTTPServer):
    """What it answers, by the path. Hosts are looked at too, so that no other site reaches it by a name of its own."""

    daemon_threads = True
    answers: Answers = {}
    hosts: tuple[str, ...] = ()


class Handler(http.server.BaseHTTPRequestHandler):
    timeout = 10
    server: Server

    def do_GET(self) -> None:  # noqa: N802, the name that the library calls
        is_ours = self.headers.get("Host") in self.server.hosts
        found = self.server.answers.get(self.path) if is_ours else None
        if found is None:
            self.answer(404, "text/plain", "no such page")
            return
        kind, text = found
        try:
            self.answer(200, kind, text())
        except (Refused, OSError, ValueError) as fault:
            self.answer(503, "text/plain", plain(str(fault)))

    def answer(self, status: int, kind: str, text: str) -> None:
        data = text.encode()
        self.send_response(status)
        for name, value in HEADERS.items():
            self.send_header(name, value)
        self.send_header("Content-Type", f"{kind}; charset=utf-8")
        self.send_header("Content-Length", str(len(data)))
        self.end_headers()
        self.wfile.write(data)

    def log_message(self, *words: object) -> None:
        """Nothing: the address has the token in it."""


def kept_address(path: pathlib.Path) -> tuple[int, str]:
    """The port and the token of the last time, which only their owner reads; else any free port and a new token."""
    try:
        found = KEPT.fullmatch(path.read_text("ascii"))
    except (OSError, ValueError):
        found = None
    return (int(found[1]), found[2]) if found else (0, secrets.token_urlsafe(18))


def keep_address(path: pathlib.Path, port: int, token: str) -> None:
    path.unlink(missing_ok=True)
    with open(os.open(path, os.O_WRONLY | os.O_CREAT | os.O_EXCL, 0o600), "w", encoding="ascii") as file:
        file.write(f"{port} {token}\n")


def server_at(kept: int, asked: int | None) -> Server:
    """A server at the port that is asked for, else at the one of the last time if that is free, else at any."""
    try:
        return Server(("127.0.0.1", asked or kept), Handler)
    except (OSError, OverflowError) as fault:
        if asked:
            raise Refused(f"port {asked}: {fault}") from fault
        return Server(("127.0.0.1", 0), Handler)


def serve(
    page: Callable[[], str],
    state: Callable[[], dict[str, object]],
    keeper: pathlib.Path,
    asked: int | None = None,
    is_opened: bool = False,
) -> None:
    """Until Ctrl-C. The page is made once before, so that what is wrong with the folder is said at once."""
    page()
    kept, token = kept_address(keeper)
    with server_at(kept, asked) as server:
        port = server.server_address[1]
        keep_address(keeper, port, token)
        server.hosts = (f"127.0.0.1:{port}", f"localhost:{port}")
        server.answers = {
            f"/{token}/": ("text/html", page),
            f"/{token}/state": ("application/json", lambda: json.dumps(state())),
        }
        say(f"http://127.0.0.1:{port}/{token}/ until Ctrl-C")
        if is_opened:
            webbrowser.open(f"http://127.0.0.1:{port}/{token}/")
        try:
            server.serve_forever()
        except KeyboardInterrupt:
            pass
