"""Lines of OTLP JSON, read by protobuf's own reader with the messages of the protocol, which refuses unknown fields."""
import pathlib
import subprocess
import sys
import tempfile

HERE = pathlib.Path(__file__).resolve().parent
TEMPORALITY = {'delta': 1, 'cumulative': 2}


def messages():
    """The module that protobuf's compiler makes of the messages."""
    with tempfile.TemporaryDirectory() as made:
        subprocess.run(['protoc', f'-I{HERE}', f'--python_out={made}', HERE / 'metrics.proto'], check=True)
        sys.path.insert(0, made)
        import metrics_pb2
        return metrics_pb2


def request_of(line, request_type):
    from google.protobuf import json_format
    request = json_format.Parse(line, request_type())
    if json_format.Parse(json_format.MessageToJson(request), request_type()) != request:
        raise ValueError('what was read is not what is written again')
    return request


def points_of(request):
    """Each point with its metric and its scope."""
    for resource in request.resource_metrics:
        for scope in resource.scope_metrics:
            for metric in scope.metrics:
                for point in getattr(metric, metric.WhichOneof('data')).data_points:
                    yield scope.scope, metric, point


def value_read(value):
    return getattr(value, value.WhichOneof('value'))


def fields_read(scope, metric, point):
    """What a request says of a point."""
    kind = metric.WhichOneof('data')
    data = getattr(metric, kind)
    said = {
        'scope': (scope.name, scope.version), 'name': metric.name, 'unit': metric.unit,
        'description': metric.description, 'kind': kind, 'start': point.start_time_unix_nano,
        'time': point.time_unix_nano, 'attributes': [(one.key, value_read(one.value)) for one in point.attributes]}
    if kind != 'gauge':
        said['temporality'] = data.aggregation_temporality
    if kind == 'sum':
        said['is_monotonic'] = data.is_monotonic
    if kind != 'histogram':
        return said | {'value': value_read(point)}
    return said | {
        'count': point.count, 'counts': list(point.bucket_counts), 'bounds': list(point.explicit_bounds),
        **{name: getattr(point, name) if point.HasField(name) else None for name in ('sum', 'min', 'max')}}


def number(value):
    """A number as a request has it: from 2^63 on a double."""
    return value if value < 2**63 else float(value)


def double(value):
    return None if value is None else float(value)


def fields_of(point):
    """The same of a point of a collection."""
    stream = point.stream
    said = {
        'scope': (stream.scope, stream.version), 'name': stream.name, 'unit': stream.unit,
        'description': stream.description, 'kind': point.kind, 'start': point.start, 'time': point.time,
        'attributes': list(point.attributes)}
    if point.kind != 'gauge':
        said['temporality'] = TEMPORALITY[point.temporality]
    if point.kind == 'sum':
        said['is_monotonic'] = point.is_monotonic
    if point.kind != 'histogram':
        return said | {'value': number(point.value)}
    spread = point.value
    return said | {
        'count': spread.count, 'counts': list(spread.counts), 'bounds': [float(bound) for bound in stream.bounds],
        'sum': float(spread.sum) if stream.keeps_sum() else None, 'min': double(spread.least),
        'max': double(spread.greatest)}


def read_points(line, request_type):
    """What a line says of each of its points, and what is wrong with the line; empty if nothing is."""
    from google.protobuf import json_format
    try:
        read = [fields_read(*found) for found in points_of(request_of(line, request_type))]
    except (ValueError, json_format.ParseError) as refusal:
        return [], str(refusal)
    return read, '' if len(read) == line.count('"timeUnixNano"') else 'points are missing'


def difference(read, points):
    """What is said otherwise than by the points, in their order; empty if it is the same."""
    wanted = [fields_of(point) for point in points]
    if len(read) != len(wanted):
        return f'{len(read)} points of {len(wanted)}'
    return '; '.join(f'{key}: {found[key]!r} for {said!r}' for found, of in zip(read, wanted)
                     for key, said in of.items() if repr(found[key]) != repr(said))
