"""A server with a thread for each connection: clients put, get and delete texts under numbers. No
thread keeps a worker of the map, so any number of clients may be connected.

A request is a line: `put 5 five`, `get 5` or `delete 5`. So is its answer.
"""

import socket
import threading
from concurrent.futures import ThreadPoolExecutor
from socketserver import StreamRequestHandler, ThreadingTCPServer

import nm_set

CLIENTS, REQUESTS = 100, 10
texts: "nm_set.Map[str]" = nm_set.Map(65_536)


def answer(request: str) -> str:
    what, number, text = (request.split(" ", 2) + ["", ""])[:3]
    key = int(number)
    if what == "put" and text:
        texts[key] = text  # no client misses the key, also if it had a text
        return "done"
    if what == "get":
        return texts.get(key, "it is not there")
    if what == "delete":
        return "done" if texts.pop(key, None) is not None else "it is not there"
    return "put KEY TEXT, get KEY or delete KEY"


class Connection(StreamRequestHandler):
    def handle(self) -> None:
        for line in self.rfile:
            try:
                told = answer(line.decode().rstrip("\n"))
            except (ValueError, nm_set.Fault) as error:
                told = str(error)
            self.wfile.write(f"{told}\n".encode())


class Server(ThreadingTCPServer):
    daemon_threads = True
    request_queue_size = CLIENTS


def be_a_client(address: "tuple[str, int]", number: int) -> None:
    with socket.create_connection(address) as to, to.makefile() as answers:
        for key in range(number * REQUESTS, (number + 1) * REQUESTS):
            for request, wanted in (
                (f"put {key} text", "done"),
                (f"put {key} another", "done"),
                (f"get {key}", "another"),
                (f"delete {key}", "done"),
                (f"get {key}", "it is not there"),
                ("get five", "invalid literal for int() with base 10: 'five'"),
            ):
                to.sendall(f"{request}\n".encode())
                told = answers.readline().rstrip("\n")
                assert told == wanted, (request, told)


with Server(("127.0.0.1", 0), Connection) as server:
    threading.Thread(target=server.serve_forever).start()
    with ThreadPoolExecutor(CLIENTS) as clients:
        list(clients.map(lambda number: be_a_client(server.server_address, number), range(CLIENTS)))
    server.shutdown()
assert len(texts) == 0
