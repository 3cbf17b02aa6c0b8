#!/usr/bin/python3
"""The Python client of Prometheus reads what a server counts at /metrics.

    metrics.py PORT [WORD]     WORD: only the checks whose names hold it
"""
import urllib.request

from prometheus_client.parser import text_string_to_metric_families

from python_client import ensure, main

COUNTERS = {'socketio_commands', 'socketio_messages_placed', 'socketio_messages_dropped', 'socketio_messages_taken',
            'socketio_messages_discarded', 'socketio_connections', 'socketio_requests', 'socketio_refused',
            'socketio_unheard', 'socketio_paced'}
GAUGES = {'socketio_messages_waiting', 'socketio_clients', 'socketio_sockets', 'socketio_rooms',
          'socketio_sessions_saved', 'socketio_log_entries'}


async def reads(room):
    answer = urllib.request.urlopen(f'http://127.0.0.1:{room.port}/metrics')
    ensure(answer.headers.get_content_type() == 'text/plain', answer.headers['Content-Type'])
    found = {family.name: family for family in text_string_to_metric_families(answer.read().decode())}
    ensure({name for name, it in found.items() if it.type == 'counter'} == COUNTERS, f'counters {[*found]}')
    ensure({name for name, it in found.items() if it.type == 'gauge'} == GAUGES, f'gauges {[*found]}')
    ensure(all(it.documentation and it.samples for it in found.values()), 'each says what it counts')
    reasons = {sample.labels['reason'] for sample in found['socketio_refused'].samples}
    ensure(len(reasons) == len(found['socketio_refused'].samples) == 11, f'reasons {reasons}')


if __name__ == '__main__':
    main({'reads the counts': reads}, __doc__, ['websocket'])
