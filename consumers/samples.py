"""The samples that a consumer of Prometheus' texts has to show of a collection: from its points and the specification
("Prometheus and OpenMetrics Compatibility"), apart from the exporter.
"""
import collections
import re

UNITS = {
    'd': 'days', 'h': 'hours', 'min': 'minutes', 's': 'seconds', 'ms': 'milliseconds', 'us': 'microseconds',
    'ns': 'nanoseconds', 'By': 'bytes', 'KBy': 'kilobytes', 'MBy': 'megabytes', 'GBy': 'gigabytes', 'TBy': 'terabytes',
    'KiBy': 'kibibytes', 'MiBy': 'mebibytes', 'GiBy': 'gibibytes', 'TiBy': 'tibibytes', 'm': 'meters', 'V': 'volts',
    'A': 'amperes', 'J': 'joules', 'W': 'watts', 'g': 'grams', 'Cel': 'celsius', 'Hz': 'hertz', '%': 'percent',
}
RATES = {'s': 'second', 'm': 'minute', 'h': 'hour', 'd': 'day', 'w': 'week', 'mo': 'month', 'y': 'year'}
ENDS = {'counter': ('_total', '_created'), 'gauge': (), 'histogram': ('_bucket', '_sum', '_count', '_created')}
TARGET = ('target', 'target_info')


def valid_name(text, others=''):
    """The text as the name of a label, or with other characters of a metric."""
    name = re.sub(f'[^a-zA-Z0-9{others}]+', '_', text)
    return '_' + name if not name or name[0].isdigit() else name


def kind_of(point):
    """The type of the point's family; none for a delta point, which Prometheus can't have."""
    if point.temporality == 'delta':
        return None
    return 'counter' if point.is_monotonic else 'histogram' if point.kind == 'histogram' else 'gauge'


def unit_end(point):
    """What the unit, without its notes in braces, adds to a name."""
    unit = re.sub(r'\{[^}]*(\}|$)', '', point.stream.unit)
    if point.kind == 'gauge' and unit == '1':
        return '_ratio'
    parts = [(UNITS, '_', unit)]
    if '/' in unit:
        over, under = unit.split('/', 1)
        parts = [(UNITS, '_', over), (RATES, '_per_', under)]
    words = [(front, words.get(part, re.sub('[^a-zA-Z0-9]+', '_', part).strip('_'))) for words, front, part in parts]
    return ''.join(front + word for front, word in words if word not in ('', '1'))


def family_name(point, kind):
    name = valid_name(point.stream.name, ':')
    if kind == 'counter':
        name = name.removesuffix('_total')
    end = unit_end(point)
    if end or kind != 'gauge':
        name = name.removesuffix('_')
    return valid_name(name if name.endswith(end) else name + end, ':')


def clash(one, other):
    """Whether the families, each a name and a type, can't stand in one text."""
    names = {one[0]} | {one[0] + end for end in ENDS[one[1]]}
    more = {other[0]} | {other[0] + end for end in ENDS[other[1]]}
    return one != other and (one[0] in more or other[0] in names)


def labels_of(point, kind):
    """The labels: the scope's and the attributes'. Values of one name are joined; an empty value is no label."""
    pairs = [('otel_scope_name', point.stream.scope), ('otel_scope_version', point.stream.version)]
    labels = {name: value for name, value in pairs if value}
    for key, value in point.attributes:
        name = valid_name(key)
        if kind == 'histogram' and name == 'le':
            name = 'exported_le'
        text = str(value).lower() if isinstance(value, bool) else str(value)
        labels[name] = f'{labels[name]};{text}' if name in labels else text
    return {name: value for name, value in labels.items() if value}


def sample(name, labels, value):
    """A sample. A label without a value is none."""
    return name, frozenset(pair for pair in labels.items() if pair[1]), float(value)


def spread_samples(name, labels, point, form):
    """The samples of a histogram's point. Bounds that are one double have one bucket; there is no sum where none is
    kept and where it may fall, and in OpenMetrics no count without a sum.
    """
    bounds, end, total = point.stream.bounds, '' if form == 'prometheus' else '.0', 0
    for index, bound in enumerate(bounds):
        total += point.value.counts[index]
        if index + 1 == len(bounds) or float(bounds[index + 1]) != float(bound):
            yield sample(name + '_bucket', labels | {'le': f'{bound}{end}'}, total)
    yield sample(name + '_bucket', labels | {'le': '+Inf'}, point.value.count)
    has_sum = point.stream.keeps_sum() and point.stream.sort.startswith('u64') and min(bounds, default=0) >= 0
    if has_sum:
        yield sample(name + '_sum', labels, point.value.sum)
    if has_sum or form == 'prometheus':
        yield sample(name + '_count', labels, point.value.count)


def samples_of_point(family, labels, point, form):
    name, kind = family
    if kind == 'histogram':
        return spread_samples(name, labels, point, form)
    return [sample(name + ('_total' if kind == 'counter' else ''), labels, point.value)]


def wanted(points, form):
    """The samples of the points, and how many points are left out, by the reason."""
    families, series, found, left_out = [], set(), collections.Counter(), collections.Counter()
    for point in points:
        kind = kind_of(point)
        if kind is None:
            left_out['delta'] += 1
            continue
        family = (family_name(point, kind), kind)
        if family[0] in TARGET or any(clash(family, other) for other in families):
            left_out['conflicting'] += 1
            continue
        if family not in families:
            families.append(family)
        labels = labels_of(point, kind)
        own = (family, frozenset(labels.items()))
        if own in series:
            left_out['doubled'] += 1
            continue
        series.add(own)
        found.update(samples_of_point(family, labels, point, form))
    return found, left_out


def with_numbers(samples):
    """The samples with bounds as numbers, which many programs write in a way of their own."""
    found = collections.Counter()
    for (name, labels, value), count in samples.items():
        has_bound = name.endswith('_bucket')
        pairs = frozenset((key, float(text) if has_bound and key == 'le' else text) for key, text in labels)
        found[name, pairs, value] += count
    return found


def with_all_sums(samples):
    """The samples, and a sum of 0 for each histogram's point without a sum: so programs serve it that keep histograms
    as protobuf's messages.
    """
    names, more = {name for name, _, _ in samples}, collections.Counter()
    for name, labels, _ in samples:
        front = name.removesuffix('_count')
        if front != name and front + '_bucket' in names:
            if not any(own[:2] == (front + '_sum', labels) for own in samples):
                more[front + '_sum', labels, 0.0] += 1
    return samples + more


def difference(found, samples):
    """What a consumer shows too little and too much; empty if it shows these samples."""
    def said(word, some):
        return [f'{word} {name}{dict(labels)} {value}' for name, labels, value in some.elements()]
    return '; '.join(said('missing:', samples - found) + said('too much:', found - samples))
