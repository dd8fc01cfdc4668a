"""Consumers of the exporters' texts that others wrote. Each is a context in which texts are read: it gives a function
that returns the samples that the consumer shows of a text, or none if it judges the grammar alone. What the consumer
refuses is a `Refusal`.
"""
import collections
import contextlib
import subprocess

from programs import Scraped, fetch, running
from samples import sample


class Refusal(Exception):
    """What a consumer says of a text that it refuses."""


def parsers():
    from prometheus_client.openmetrics.parser import text_string_to_metric_families as openmetrics
    from prometheus_client.parser import text_string_to_metric_families as prometheus
    return {'prometheus': prometheus, 'openmetrics': openmetrics}


def parsed(form, text):
    """The samples of a text, as Prometheus' Python client reads them."""
    try:
        families = list(parsers()[form](text.decode()))
    except ValueError as fault:
        raise Refusal(str(fault)) from fault
    return collections.Counter(sample(one.name, one.labels, one.value) for family in families for one in family.samples)


def without(samples, labels=(), front=None):
    """The samples without these labels, and without those whose name begins so."""
    found = collections.Counter()
    for (name, own, value), count in samples.items():
        if front is None or not name.startswith(front):
            found[name, frozenset(pair for pair in own if pair[0] not in labels), value] += count
    return found


@contextlib.contextmanager
def promtool(_texts):
    def read(_name, _form, text):
        done = subprocess.run(['promtool', 'check', 'metrics'], input=text, capture_output=True, check=False)
        if done.returncode not in (0, 3):  # 3 is about style alone
            raise Refusal((done.stdout + done.stderr).decode())
    yield read


@contextlib.contextmanager
def client_parser(_texts):
    yield lambda _name, form, text: parsed(form, text)


@contextlib.contextmanager
def server(texts):
    """All texts are scraped at once, each as a target of its own."""
    with Scraped(list(texts)) as scraped:
        scraped.publish(texts)
        faults = scraped.faults()

        def read(name, _form, _text):
            if name in faults:
                raise Refusal(faults[name])
            shown = scraped.query(f'{{instance="{name}",__name__!~"scrape_.*|up"}}')
            found = collections.Counter(sample(one['metric'].pop('__name__'), one['metric'], one['value'][1])
                                        for one in shown)
            return without(found, labels=('instance', 'job'))
        yield read


@contextlib.contextmanager
def textfile(_texts):
    """node_exporter's textfile collector reads its folder again at each request."""
    command = ['prometheus-node-exporter', '--collector.disable-defaults', '--collector.textfile',
               '--collector.textfile.directory={place}', '--web.listen-address=127.0.0.1:{port}',
               '--web.disable-exporter-metrics']
    with running(command, '/') as (url, place):
        def read(_name, _form, text):
            (place / 'judged.prom').write_bytes(text)
            found = parsed('prometheus', fetch(url + '/metrics'))
            if found[sample('node_textfile_scrape_error', {}, 0)] != 1:
                raise Refusal((place / 'log').read_text().splitlines()[-1])
            return without(found, front=('node_', 'promhttp_'))
        yield read


@contextlib.contextmanager
def pushgateway(_texts):
    with running(['prometheus-pushgateway', '--web.listen-address=127.0.0.1:{port}'], '/-/ready') as (url, _):
        def read(_name, _form, text):
            try:
                fetch(url + '/metrics/job/judged', text, 'PUT')
            except OSError as fault:
                raise Refusal(fault.read().decode()) from fault
            found = parsed('prometheus', fetch(url + '/metrics'))
            own = collections.Counter({one: count for one, count in found.items() if ('job', 'judged') in one[1]})
            fetch(url + '/metrics/job/judged', method='DELETE')
            return without(own, ('instance', 'job'), 'push_')
        yield read
