"""A small application of two versions: it counts its requests in a table, and version 2 notes also who counted.

usage: app.py VERSION PORT PORT_OF_THE_POOL. At SIGTERM it answers what it was asked, and ends.
"""

import http.server
import json
import signal
import sys
import threading

import psycopg2

VERSION, PORT, POOL = sys.argv[1], int(sys.argv[2]), int(sys.argv[3])
COUNT = "SELECT count(*) FROM hits"
INSERT = {"1": "INSERT INTO hits DEFAULT VALUES RETURNING id", "2": "INSERT INTO hits(who) VALUES (%s) RETURNING id"}
VALUES = {"1": (), "2": (f"version {VERSION} at {PORT}",)}


def query(sql: str, values: tuple[str, ...] = ()) -> int:
    connection = psycopg2.connect(host="127.0.0.1", port=POOL, user="app", dbname="store", connect_timeout=3)
    try:
        with connection, connection.cursor() as cursor:
            cursor.execute(sql, values)
            row = cursor.fetchone()
            return int(row[0]) if row else 0
    finally:
        connection.close()


class Handler(http.server.BaseHTTPRequestHandler):
    def log_message(self, format: str, *args: object) -> None:
        """The front has a log of its own."""

    def do_GET(self) -> None:
        try:
            number = query(COUNT) if self.path == "/health" else query(INSERT[VERSION], VALUES[VERSION])
            status, text = 200, json.dumps({"version": VERSION, "port": PORT, "number": number})
        except psycopg2.Error as fault:
            status, text = 500, str(fault)
        data = f"{text}\n".encode()
        self.send_response(status)
        self.send_header("Content-Length", str(len(data)))
        self.end_headers()
        self.wfile.write(data)


def main() -> None:
    server = http.server.ThreadingHTTPServer(("127.0.0.1", PORT), Handler)
    server.daemon_threads = False
    signal.signal(signal.SIGTERM, lambda *_: threading.Thread(target=server.shutdown).start())
    server.serve_forever()
    server.server_close()


main()
