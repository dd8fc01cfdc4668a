"""What a script says of the points that `metrics_run` prints for it: the points of each of its collections."""
import dataclasses
import pathlib
import re
import subprocess
import sys
from urllib.parse import unquote

TOP = pathlib.Path(__file__).resolve().parent.parent
BUILT = TOP / 'crates/metrics_run/out/metrics_run'
DEFAULT_BOUNDS = (0, 5, 10, 25, 50, 75, 100, 250, 500, 750, 1000, 2500, 5000, 7500, 10000)
SKIPPED = re.compile(r' *(#|$)')


@dataclasses.dataclass(frozen=True)
class Stream:
    """What no point says, but the script: the rest of the scope, and of the instrument as its views made it."""
    scope: str
    version: str
    name: str
    unit: str
    description: str
    sort: str
    bounds: tuple
    made: int

    def keeps_sum(self):
        return not re.search('up_down|observable_gauge', self.sort)


@dataclasses.dataclass(frozen=True)
class Spread:
    """The value of a histogram's point."""
    count: int
    sum: int
    least: int | None
    greatest: int | None
    counts: tuple


@dataclasses.dataclass(frozen=True)
class Point:
    stream: Stream
    kind: str
    temporality: str | None
    is_monotonic: bool
    start: int
    time: int
    attributes: tuple
    value: int | Spread


@dataclasses.dataclass
class Collection:
    """The points of a collection, the script up to it, and the script up to the collection before it."""
    points: list
    script: str
    before: str


class Program:
    """The built `metrics_run`."""

    def __init__(self, path):
        if not pathlib.Path(path).is_file():
            sys.exit(f'{path} is not there: `rt run` in crates/metrics_run builds it')
        self.path = path

    def run(self, script, *words):
        done = subprocess.run([self.path, *words], input=script.encode(), capture_output=True, check=False)
        if done.returncode != 0:
            raise ValueError(f'the program ends with status {done.returncode}')
        return done.stdout

    def export(self, collection, form):
        """What is printed of a collection alone, in a format."""
        before = self.run(collection.before, form) if collection.before else b''
        printed = self.run(collection.script, form)
        if not printed.startswith(before):
            raise ValueError('a longer script prints something else')
        return printed[len(before):]


def words_of(line):
    return [word for word in line.split(' ') if word]


def text_of(word):
    """The text that a word stands for."""
    return '' if word == '-' else unquote(word, errors='strict')


def options_of(words):
    return dict(word.split('=', 1) for word in words)


def bounds_of(word):
    return tuple(int(bound) for bound in word.split(',') if bound)


def value_of(word):
    sort, text = word.split(':', 1)
    return {'b': lambda: text == 'true', 'i': lambda: int(text), 's': lambda: unquote(text, errors='strict')}[sort]()


def attributes_of(word):
    pairs = [] if word == '-' else [pair.split('=', 1) for pair in word.split(',')]
    return tuple((unquote(key, errors='strict'), value_of(value)) for key, value in pairs)


def extreme_of(word):
    return None if word == 'none' else int(word)


class Reading:
    """Follows a script and the replies to it."""

    def __init__(self):
        self.readers, self.views, self.meters, self.builds = [], [], {}, []

    def set_up(self, words):
        """Takes a line before `go`."""
        if words[0] == 'reader':
            self.readers.append(options_of(words[2:]))
        elif words[0] == 'view':
            name = None if words[1] == '*' else text_of(words[1])
            self.views.append((name, options_of(words[2:])))

    def made(self, words, reply):
        """Takes a line that makes something, which the reply numbers."""
        if words[0] == 'meter' and reply != 'meter none':
            self.meters[reply.split()[1]] = (text_of(words[1]), text_of(words[2]) if len(words) > 2 else '')
        elif words[0] == 'build' and reply.startswith('instrument ') and words[1] != 'none':
            options = options_of(words[5:])
            self.builds.append((self.meters[words[1]], words[2], text_of(words[3]), int(words[4]), options))

    def streams(self, reader):
        """The streams of a reader, as far as the judged scripts go: no view asks for what its instrument can't have."""
        for (scope, version), sort, name, now, own in self.builds:
            kind = sort.split('_', 1)[1].replace('_', '')
            asked = [view for of, view in self.views if of in (None, name)] or [{}]
            for view in asked:
                aggregation = view.get('agg') or self.readers[reader].get(f'agg:{kind}', 'default')
                is_spread = aggregation.split(':')[0] in ('hist', 'plain')
                bounds = bounds_of(aggregation.split(':')[1]) if is_spread else \
                    bounds_of(own['bounds']) if 'bounds' in own else DEFAULT_BOUNDS
                said = {key: text_of(view.get(key, own.get(key, '-'))) for key in ('unit', 'description')}
                renamed = text_of(view['name']) if 'name' in view else name
                yield Stream(scope, version, renamed, said['unit'], said['description'], sort, bounds, now)

    def stream_of(self, reader, scope, name, start):
        """The stream of a point. Of several with its names it is the one that was made when it starts."""
        found = {stream for stream in self.streams(reader) if (stream.scope, stream.name) == (scope, name)}
        if len(found) > 1:
            found = {stream for stream in found if stream.made == start}
        if len(found) != 1:
            raise ValueError(f'the script does not tell which stream {scope} {name} from {start} is')
        return found.pop()

    def point(self, reader, line):
        """The point that a line says."""
        _, scope, name, kind, *rest = line.split(' ')
        temporality = None if kind == 'gauge' else rest.pop(0)
        is_monotonic = kind == 'sum' and rest.pop(0) == 'monotonic'
        start, time, attributes, *value = rest
        stream = self.stream_of(reader, text_of(scope), text_of(name), int(start))
        if kind == 'histogram':
            count, total, least, greatest, counts = value
            spread = Spread(int(count), int(total), extreme_of(least), extreme_of(greatest),
                            () if counts == '-' else bounds_of(counts))
        return Point(stream, kind, temporality, is_monotonic, int(start), int(time), attributes_of(attributes),
                     spread if kind == 'histogram' else int(*value))


def collections_of(program, script):
    """The collections that a script gives."""
    replies = iter(program.run(script).decode().splitlines())
    lines, reading, found, before, has_begun = script.splitlines(), Reading(), [], '', False
    for number, line in enumerate(lines):
        words = words_of(line)
        if SKIPPED.match(line) or words[0] == 'observe':
            continue
        if not has_begun:
            reading.set_up(words)
            has_begun = words[0] == 'go'
            continue
        reply = next(replies)
        reading.made(words, reply)
        if not reply.startswith('collected '):
            continue
        count, reader = int(reply.split()[1]), int(words[1])
        points = [reading.point(reader, next(replies)) for _ in range(count)]
        so_far = '\n'.join(lines[:number + 1]) + '\n'
        found.append(Collection(points, so_far, before))
        before = so_far
    return found


def made_cumulative(script):
    """The script with cumulative readers alone."""
    return re.sub(r'^( *reader +)\S+', r'\1cumulative', script, flags=re.MULTILINE)
