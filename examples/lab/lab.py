#!/usr/bin/env python3
"""Two customers over Linux routers in network namespaces, captured at their interfaces and judged: `lab.py RUN FOLDER [--command COMMAND]`

RUN is `well`; `leak`, where the route of customer A's flow at E2 has an interface of customer B too; or `loop`, where C1 takes the flow
off the LAN and C2 puts it there again. The captures come into FOLDER, and the file `answer` beside them: the span of time that is
stable, and after it what tools/observe.py --judge says. COMMAND judges, in the place of `./mvpn`.

                      C1 --- C2
                       |      |
    host X --- X1 E1 --+-LAN--+-- E2 Y1 --- host Y, which joins by IGMPv3
    host P --- P1                    Q1 --- router Q, which joins by PIM

It needs root, and `ip`, `tcpdump` and `smcrouted` (Debian: iproute2, tcpdump, smcroute). All is in namespaces that it makes and removes
again; nothing is sent outside of these. E1 and E2 are plain routers with static multicast routes, so the customers have addresses of
their own. Each source sends twenty datagrams, whose TTL ends a loop after the second copy.
"""

import argparse
import pathlib
import subprocess
import sys
import tempfile
import time

HERE = pathlib.Path(__file__).resolve().parent
OBSERVE = HERE.parent.parent / 'tools' / 'observe.py'
MARK = 'mvpn_lab_'
ROUTERS, HOSTS = ('e1', 'e2', 'c1', 'c2'), ('x', 'y', 'p', 'q')
# links as two ends, each a namespace and an interface
LINKS = (
    ('e1', 'X1', 'x', 'eth0'), ('e1', 'P1', 'p', 'eth0'), ('e2', 'Y1', 'y', 'eth0'), ('e2', 'Q1', 'q', 'eth0'),
    ('e1', 'lan', 'core', 'to_e1'), ('e2', 'lan', 'core', 'to_e2'), ('c1', 'lan', 'core', 'to_c1'), ('c2', 'lan', 'core', 'to_c2'),
    ('c1', 'ring', 'c2', 'ring'))
ADDRESSES = (
    ('e1', 'X1', '10.1.0.1'), ('x', 'eth0', '10.1.0.9'), ('e1', 'P1', '10.3.0.1'), ('p', 'eth0', '10.3.0.9'),
    ('e2', 'Y1', '10.2.0.1'), ('y', 'eth0', '10.2.0.9'), ('e2', 'Q1', '10.4.0.1'), ('q', 'eth0', '10.4.0.2'),
    ('e1', 'lan', '192.0.2.1'), ('e2', 'lan', '192.0.2.2'), ('c1', 'lan', '192.0.2.3'), ('c2', 'lan', '192.0.2.4'),
    ('c1', 'ring', '198.51.100.1'), ('c2', 'ring', '198.51.100.2'))
CAPTURED = (('e1', 'X1'), ('e1', 'P1'), ('e2', 'Y1'), ('e2', 'Q1'))
GROUP, PORT, TTL, COUNT = '232.1.1.1', '5001', '5', '20'
A, B = '10.1.0.9', '10.3.0.9'
# the routes of each router: from, source, to
WELL = {
    'e1': [('X1', A, 'lan'), ('P1', B, 'lan')],
    'e2': [('lan', A, 'Y1'), ('lan', B, 'Q1')]}
RUNS = {
    'well': WELL,
    'leak': WELL | {'e2': [('lan', A, 'Y1 Q1'), ('lan', B, 'Q1')]},
    'loop': WELL | {'c1': [('lan', A, 'ring')], 'c2': [('ring', A, 'lan')]}}


def run(*words):
    subprocess.run(words, check=True, stdout=subprocess.DEVNULL)


def inside(space, *words):
    return ['ip', 'netns', 'exec', MARK + space, *words]


def build():
    """The namespaces, their links and addresses. A default route lets a host send to groups."""
    for space in (*ROUTERS, *HOSTS, 'core'):
        run('ip', 'netns', 'add', MARK + space)
        for setting in ('net.ipv6.conf.all.disable_ipv6=1', 'net.ipv6.conf.default.disable_ipv6=1', 'net.ipv4.ip_forward=1',
                        'net.ipv4.conf.all.rp_filter=0', 'net.ipv4.conf.default.rp_filter=0'):
            run(*inside(space, 'sysctl', '-q', '-w', setting))
    run(*inside('core', 'ip', 'link', 'add', 'lan', 'type', 'bridge', 'mcast_snooping', '0'))
    run(*inside('core', 'ip', 'link', 'set', 'lan', 'up'))
    for space, name, other, peer in LINKS:
        run('ip', 'link', 'add', name, 'netns', MARK + space, 'type', 'veth', 'peer', 'name', peer, 'netns', MARK + other)
        run(*inside(space, 'ip', 'link', 'set', name, 'up'))
        run(*inside(other, 'ip', 'link', 'set', peer, *(['master', 'lan'] if other == 'core' else []), 'up'))
    for space, name, address in ADDRESSES:
        run(*inside(space, 'ip', 'address', 'add', f'{address}/24', 'dev', name))
    for space in HOSTS:
        run(*inside(space, 'ip', 'route', 'add', 'default', 'dev', 'eth0'))


def remove():
    for space in (*ROUTERS, *HOSTS, 'core'):
        subprocess.run(['ip', 'netns', 'del', MARK + space], stderr=subprocess.DEVNULL)


def start_router(space, routes, folder):
    """A router with static multicast routes."""
    names = sorted({name for way in routes for name in [way[0], *way[2].split()]})
    lines = [f'phyint {name} enable' for name in names]
    lines += [f'mroute from {name} source {source} group {GROUP} to {to}' for name, source, to in routes]
    path = folder / space
    path.with_suffix('.conf').write_text(''.join(line + '\n' for line in lines))
    files = ['-f', f'{path}.conf', '-P', f'{path}.pid', '-u', f'{path}.sock', '-i', MARK + space]
    return subprocess.Popen(inside(space, 'smcrouted', '-n', '-N', *files))


def start_capture(space, name, folder):
    words = inside(space, 'tcpdump', '-q', '-U', '-Z', 'root', '-i', name, '-w', str(folder / f'{name}.pcap'))
    capture = subprocess.Popen(words, stderr=subprocess.PIPE, text=True)
    while 'listening on' not in capture.stderr.readline():
        if capture.poll() is not None:
            sys.exit(f'tcpdump does not start at {name}')
    return capture


def program(space, name, *words):
    return subprocess.Popen(inside(space, sys.executable, str(HERE / name), *words))


def play(routes, folder, started):
    """What happens in a run: it takes about eight seconds. Returns the span that is stable."""
    with tempfile.TemporaryDirectory() as own:
        started += [start_router(space, ways, pathlib.Path(own)) for space, ways in routes.items()]
        time.sleep(1)
        started += [start_capture(space, name, folder) for space, name in CAPTURED]
        # a datagram of each edge to each of its hosts: by these it is seen to send at its interface
        for space, own, host in (('e1', '10.1.0.1', A), ('e1', '10.3.0.1', B), ('e2', '10.2.0.1', '10.2.0.9'), ('e2', '10.4.0.1', '10.4.0.2')):
            run(*inside(space, sys.executable, str(HERE / 'send.py'), own, host, '9', TTL, '1', space))
        joined = program('y', 'join.py', A, GROUP, PORT, '10.2.0.9', '6')
        started.append(joined)
        run(*inside('q', sys.executable, str(HERE / 'pim_join.py'), B, GROUP, '10.4.0.1', '10.4.0.2'))
        time.sleep(1.5)
        begin = time.time()
        senders = [program(space, 'send.py', own, GROUP, PORT, TTL, COUNT, space) for space, own in (('x', A), ('p', B))]
        started += senders
        for sender in senders:
            sender.wait(30)
        time.sleep(0.5)
        end = time.time()
        joined.wait(30)
    return f'{begin:.6f}..{end:.6f}'


def main():
    options = argparse.ArgumentParser(description='Two customers over Linux routers, captured and judged.')
    options.add_argument('--command', default=str(HERE.parent.parent / 'mvpn'), help='what judges')
    options.add_argument('run', choices=RUNS)
    options.add_argument('folder', type=pathlib.Path)
    given = options.parse_args()
    given.folder.mkdir(parents=True, exist_ok=True)
    started = []
    remove()
    try:
        build()
        span = play(RUNS[given.run], given.folder.resolve(), started)
    finally:
        for one in reversed(started):
            one.terminate()
            one.wait()
        remove()
    captures = [f'{name}.pcap' for _, name in CAPTURED]
    words = [sys.executable, str(OBSERVE), '--stable', span, '--judge', '--command', given.command, str(HERE / 'scenario.txt'), *captures]
    answer = subprocess.run(words, cwd=given.folder, stdout=subprocess.PIPE, text=True).stdout
    (given.folder / 'answer').write_text(f'{span}\n{answer}')
    print(answer, end='')


if __name__ == '__main__':
    main()
