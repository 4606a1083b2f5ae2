"""The hall's program as a server, and what it tells without a browser."""

import http.client
import json
import re

from service import Service

ADDRESS = re.compile(r"http://([\d.]+):(\d+)")
# Seconds until it tells its address, and for one request.
PATIENCE = 10


class ServerError(Exception):
    """The server does not answer what it must."""


class ServedHall:
    """`hall serve`. It is ended with the `with` statement that it is started by."""

    def __init__(self, program):
        self.program = program
        self.service = None
        self.port = 0

    def __enter__(self):
        self.start()
        return self

    def __exit__(self, *_):
        self.end()

    def start(self):
        """Starts it on a free port, or on the one that it had."""
        self.service = Service([self.program, "serve", "--port", str(self.port)], ADDRESS, PATIENCE)
        self.host, self.port = self.service.ready[1], int(self.service.ready[2])

    def end(self):
        if self.service:
            self.service.end()
            self.service = None

    @property
    def address(self):
        return f"http://{self.host}:{self.port}/"

    def get(self, path):
        connection = http.client.HTTPConnection(self.host, self.port, timeout=PATIENCE)
        try:
            connection.request("GET", path)
            answer = connection.getresponse()
            body = answer.read()
        finally:
            connection.close()
        if answer.status != 200:
            raise ServerError(f"GET {path} is answered by {answer.status}")
        return body

    def state(self):
        return json.loads(self.get("/state"))

    def images(self):
        """The bytes of the desk's image and of the wall's."""
        return self.get("/image/desk"), self.get("/image/wall")
