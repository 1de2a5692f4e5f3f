"""One run: a program under test in one role and with one loss, a peer, and the cases, one after another."""
import http.server
import json
import os
import queue
import re
import signal
import subprocess
import sys
import tempfile
import threading
import time
import urllib.error
import urllib.parse
import urllib.request

import machine

PAGE_FILES = {"cases.html": "text/html", "page.js": "text/javascript", "connection.js": "text/javascript",
              "cases.js": "text/javascript"}
START_SECONDS = 60  # that a peer may need before its first case
BULK_MESSAGES = {True: 320, False: 1280}  # of 16 KiB, with loss and without


class Ended(Exception):
    """The whole run is to end: its time is over, or somebody ended it."""


class Process:
    """A process in a group of its own, whose output goes to a log, line by line, with the time."""

    def __init__(self, name, command, log, environment=None):
        self.name, self.log = name, log
        self.lines = []
        self.process = subprocess.Popen(
            command, stdin=subprocess.DEVNULL, stdout=subprocess.PIPE, stderr=subprocess.STDOUT, env=environment,
            start_new_session=True, text=True, errors="replace",
        )
        self.reader = threading.Thread(target=self.read, daemon=True)
        self.reader.start()

    def read(self):
        for line in self.process.stdout:
            self.lines.append(line)
            self.log(f"{self.name}: {line.rstrip()}")

    def is_over(self):
        return self.process.poll() is not None

    def end(self):
        for number in (signal.SIGTERM, signal.SIGKILL):
            try:
                os.killpg(self.process.pid, number)
            except ProcessLookupError:
                break
            try:
                self.process.wait(timeout=3)
            except subprocess.TimeoutExpired:
                pass
        self.process.wait()
        self.reader.join(timeout=3)


class Handler(http.server.BaseHTTPRequestHandler):
    """Gives out the page of the cases, hands offers on to the program, and takes results."""

    protocol_version = "HTTP/1.1"

    def answer(self, code, kind, body):
        self.send_response(code)
        self.send_header("Content-Type", f"{kind}; charset=utf-8")
        self.send_header("Content-Length", str(len(body)))
        self.end_headers()
        self.wfile.write(body)

    def do_GET(self):
        name = urllib.parse.urlsplit(self.path).path.lstrip("/")
        if name not in PAGE_FILES:
            self.answer(404, "text/plain", b"")
            return
        with open(os.path.join(machine.HERE, name), "rb") as file:
            self.answer(200, PAGE_FILES[name], file.read())

    def do_POST(self):
        body = self.rfile.read(int(self.headers["Content-Length"]))
        if self.path == "/offer":
            self.answer(*self.server.run.offer(body))
        elif self.path == "/result":
            self.server.run.results.put(json.loads(body))
            self.answer(200, "text/plain", b"")
        else:
            self.answer(404, "text/plain", b"")

    def log_message(self, *_):
        pass


class Server(http.server.ThreadingHTTPServer):
    """For the peer of one run. Connections that break off when the peer is ended are no fault."""

    daemon_threads = True

    def __init__(self, run):
        super().__init__(("127.0.0.1", 0), Handler)
        self.run = run

    def handle_error(self, _request, _client_address):
        self.run.log(f"a connection broke off: {sys.exc_info()[1]}")


class Run:
    def __init__(self, peer, role, loss, delay, port, is_ended, tell):
        self.peer, self.role, self.loss, self.delay, self.port = peer, role, loss, delay, port
        self.is_ended = is_ended  # tells whether the whole is to end
        self.tell = tell  # gets each result: the run, the case, whether it passed, and a note
        self.results = queue.Queue()
        self.program = None
        self.began = time.monotonic()
        name = f"{peer.name}.{role}.{loss}.log"
        self.log_file = open(os.path.join(machine.OUT, name), "w", encoding="utf-8")

    def log(self, text):
        if self.log_file.closed:
            return
        self.log_file.write(f"{time.monotonic() - self.began:8.3f} {text}\n")
        self.log_file.flush()

    def offer(self, body):
        """Hands an offer on to the program. Gives the code, the type and the body of the answer."""
        request = urllib.request.Request(f"http://{machine.ADDRESS}:{self.port}/offer", body)
        request.add_header("Content-Type", "application/sdp")
        try:
            with urllib.request.urlopen(request, timeout=10) as answer:
                return 200, "application/sdp", answer.read()
        except (OSError, urllib.error.URLError) as error:
            self.log(f"the offer was not answered: {error}")
            return 502, "text/plain", str(error).encode()

    def start_program(self):
        command = [os.path.join(machine.OUT, "webrtc"), "--address", machine.ADDRESS, "--port", str(self.port)]
        command += ["--client"] if self.role == "client" else []
        command += ["--loss", str(self.loss)] if self.loss else []
        command += ["--delay", str(self.delay)] if self.delay else []
        self.seen = 0  # of the program's lines, those that came before the case
        self.program = Process("program", command, self.log)
        until = time.monotonic() + 10
        while not self.program.lines and not self.program.is_over() and time.monotonic() < until:
            time.sleep(0.05)

    def go(self, cases):
        server = Server(self)
        threading.Thread(target=server.serve_forever, daemon=True).start()
        waiting = list(cases)
        try:
            while waiting:
                waiting = self.run_peer(waiting, f"http://127.0.0.1:{server.server_address[1]}/")
        except Ended:
            pass
        finally:
            if self.program:
                self.program.end()
            server.shutdown()
            self.log_file.close()

    def run_peer(self, cases, base):
        """Runs cases in one process of the peer, up to the first one that does not end by itself. Gives the rest."""
        self.results = queue.Queue()  # of this process alone
        if self.program is None or self.program.is_over():
            self.start_program()
        names = ",".join(case.name for case in cases)
        query = f"cases={names}&loss={self.loss}&bulk={BULK_MESSAGES[self.loss > 0]}"
        with tempfile.TemporaryDirectory(ignore_cleanup_errors=True) as folder:
            command = self.peer.command(folder, base, query)
            process = Process("peer", command, self.log, self.peer.environment(folder))
            try:
                for index, case in enumerate(cases):
                    if not self.take_result(process, case, 0 if index else START_SECONDS):
                        return cases[index + 1 :]
            finally:
                process.end()
        return []

    def take_result(self, process, case, more_seconds):
        """Waits for the result of a case. Answers whether the peer goes on with the next one."""
        seen = self.seen
        self.log(f"case {case.name}")
        result, why = self.wait_for_result(process, case.seconds + more_seconds)
        self.seen = len(self.program.lines)  # of the next case, which the peer has begun by now
        if result is None:
            self.tell(self, case, False, why)
            return False
        passed, note = result["passed"], result["note"]
        if result["case"] != case.name:
            passed, note = False, f"the result of {result['case']} came"
        if passed and case.program_says and not self.program_says(case.program_says, seen):
            passed, note = False, f"the program does not say '{case.program_says}'"
        if self.program.is_over():
            passed, note = False, f"the program ended by {self.program.process.returncode}: {note}"
        self.log(f"{case.name} {'passed' if passed else 'failed'}: {note}")
        self.tell(self, case, passed, note)
        return not self.program.is_over()

    def wait_for_result(self, process, seconds):
        """Gives the result, or None and why there is none."""
        until = time.monotonic() + seconds
        while time.monotonic() < until:
            try:
                return self.results.get(timeout=0.5), ""
            except queue.Empty:
                pass
            if self.is_ended():
                raise Ended
            if self.program.is_over():
                return None, f"the program ended by {self.program.process.returncode}"
            if process.is_over() and self.results.empty():
                return None, f"the peer ended by {process.process.returncode}"
        return None, f"no result within {seconds} s"

    def program_says(self, expression, seen):
        until = time.monotonic() + 10
        while time.monotonic() < until:
            if any(re.search(expression, line) for line in self.program.lines[seen:]):
                return True
            time.sleep(0.1)
        return False
