"""Programs that run on loopback while something is judged."""
import contextlib
import datetime
import http.server
import json
import pathlib
import socket
import subprocess
import tempfile
import threading
import time
import urllib.parse
import urllib.request

EVERY = '5s'
TYPES = {
    'prometheus': 'text/plain; version=0.0.4; charset=utf-8',
    'openmetrics': 'application/openmetrics-text; version=1.0.0; charset=utf-8',
}


def free_port():
    with socket.socket() as found:
        found.bind(('127.0.0.1', 0))
        return found.getsockname()[1]


def fetch(url, data=None, method=None):
    return urllib.request.urlopen(urllib.request.Request(url, data=data, method=method), timeout=10).read()


@contextlib.contextmanager
def running(command, ready):
    """Runs a program, which is told a port and a folder of its own by `{port}` and `{place}`, until it is not needed.
    Gives its address and the folder. It is ready once this path is served.
    """
    with tempfile.TemporaryDirectory() as place:
        port = free_port()
        words = [word.format(port=port, place=place) for word in command]
        with open(f'{place}/log', 'w', encoding='utf-8') as log:
            process = subprocess.Popen(words, stdout=log, stderr=log)
        try:
            wait_until(lambda: served(f'http://127.0.0.1:{port}{ready}'), f'{command[0]} does not answer')
            yield f'http://127.0.0.1:{port}', pathlib.Path(place)
        finally:
            process.terminate()
            process.wait()


def served(url):
    try:
        fetch(url)
        return True
    except OSError:
        return False


def wait_until(is_so, otherwise, seconds=300):
    ended = time.monotonic() + seconds
    while not is_so():
        if time.monotonic() > ended:
            raise TimeoutError(otherwise)
        time.sleep(0.1)


class Answer(http.server.BaseHTTPRequestHandler):
    """Answers with the text of a number."""

    def do_GET(self):
        form, text = self.server.texts[int(self.path[1:])]
        self.send_response(200)
        self.send_header('Content-Type', TYPES[form])
        self.end_headers()
        self.wfile.write(text)

    def log_message(self, *args):
        pass


class Texts(http.server.ThreadingHTTPServer):
    """Serves texts by number to many who ask at once. One who goes away is none of its business."""
    request_queue_size = 256

    def __init__(self, count):
        super().__init__(('127.0.0.1', 0), Answer)
        self.texts = [('prometheus', b'')] * count

    def handle_error(self, *args):
        pass


def is_scraped(target, moment):
    """Whether a target was scraped since a moment, and in time."""
    last = datetime.datetime.fromisoformat(target['lastScrape']).timestamp()
    return last > moment and 'deadline' not in target['lastError']


class Scraped:
    """A Prometheus server that scrapes texts, each of a target of its own, which is the label `instance`."""

    def __init__(self, names):
        self.names, self.stack = names, contextlib.ExitStack()

    def __enter__(self):
        self.server = Texts(len(self.names))
        threading.Thread(target=self.server.serve_forever, daemon=True).start()
        self.stack.callback(self.server.shutdown)
        settings = self.stack.enter_context(tempfile.NamedTemporaryFile('w', suffix='.yml'))
        json.dump({'scrape_configs': [{
            'job_name': 'judged', 'scrape_interval': EVERY, 'scrape_timeout': EVERY,
            'static_configs': [self.target(*one) for one in enumerate(self.names)]}]}, settings)
        settings.flush()
        command = ['prometheus', f'--config.file={settings.name}', '--storage.tsdb.path={place}/data',
                   '--web.listen-address=127.0.0.1:{port}']
        self.url, _ = self.stack.enter_context(running(command, '/-/ready'))
        return self

    def __exit__(self, *args):
        self.stack.close()

    def target(self, number, name):
        return {'targets': [f'127.0.0.1:{self.server.server_port}'],
                'labels': {'__metrics_path__': f'/{number}', 'instance': name}}

    def ask(self, path, **query):
        return json.loads(fetch(f'{self.url}{path}?{urllib.parse.urlencode(query)}'))['data']

    def query(self, query, **more):
        return self.ask('/api/v1/query', query=query, **more)['result']

    def publish(self, texts):
        """Serves these texts, each a format and bytes under a name, from now on. Returns once each was scraped, and
        once more: then the first is stored.
        """
        self.server.texts = [texts[name] for name in self.names]
        for _ in range(2):
            now = time.time()
            wait_until(lambda: sum(is_scraped(target, now) for target in self.targets()) == len(self.names),
                       'not all was scraped')

    def targets(self):
        return self.ask('/api/v1/targets')['activeTargets']

    def faults(self):
        """What the server says of each target that it can't read."""
        return {target['labels']['instance']: target['lastError'] for target in self.targets()
                if target['health'] != 'up'}
