#!/bin/sh
# What connections over real sockets do, which no clause can say: four workers at one listener answer each request by the same reply, and a
# script calls them: kept connections, 500 callers at once, 200 silent ones beside one who asks, peers that vanish, a refusal whose request
# isn't read to its end, a head that trickles in, as many slow callers as workers beside one who asks, silent connections, and descriptors
# that lack. It measures the processor time of a reply.
# usage: docs/bench/sockets.sh [FOLDER]
# Writes a scratch repository into FOLDER (a new one under /tmp if none is named), proves its crates over what earlier checks of this
# checkout kept, and runs the program. It takes two minutes beside that, stands outside the gate, and leaves the repository as it was. It
# ends with status 1 at the first thing that isn't as it should be.
. "$(dirname "$0")/scratch.sh"
begin socket_bench "${1:-}" 'hub_kit hub_devices hub_edge' 'hub_edge hub_devices'

cat >"$bench/src/main.rt" <<'RATTLE'
//! Workers at one listener that answer each request by the same reply, for so many seconds: ADDRESS WORKERS SECONDS.
#![tactic(auto)]

use hub_devices::listener::Listener;
use hub_devices::sink::Sink;
use hub_devices::source::Source;
use hub_edge::connection::{SocketSink, SocketSource};
use hub_edge::listener::{Closer, SocketListener};
use std::sync::{Mutex, Wait};
use std::thread::Threads;
use std::time::Duration;
use std::{env, io, thread};

/// Whether the bytes end a head.
fn ends_head(bytes: &[u8]) -> bool {
    bytes.ends_with(b"\r\n\r\n")
}

/// Answers one request. Gives whether more may come.
fn answer(input: &mut SocketSource, output: &mut SocketSink) -> bool {
    let mut buf = [0u8; 1024];
    let mut count = 0usize;
    for _ in 0..1024 {
        if count >= 1024 {
            let _ = output.write(b"HTTP/1.1 413 Too Large\r\nConnection: close\r\nContent-Length: 0\r\n\r\n");
            return false;
        }
        match input.read(&mut buf[count..]) {
            Ok(0) | Err(_) => return false,
            Ok(more) => count = count.saturating_add(more),
        }
        if count <= 1024 && ends_head(&buf[..count]) {
            return output.write(b"HTTP/1.1 200 OK\r\nContent-Length: 2\r\n\r\nok").is_ok();
        }
    }
    false
}

fn serve(mut input: SocketSource, mut output: SocketSink) {
    for _ in 0..1000 {
        if !answer(&mut input, &mut output) {
            break;
        }
    }
}

/// One worker. It gives how many connections it served.
fn work<H: Wait>(handle: &H, listener: &Mutex<SocketListener>) -> u64 {
    let mut count = 0u64;
    for _ in 0..u64::MAX {
        let next = listener.lock(handle).accept();
        match next {
            Ok((input, output)) => serve(input, output),
            Err(_) => break,
        }
        count = count.saturating_add(1);
    }
    count
}

/// Waits, and closes the listener.
fn wait_end(rt: &HostRuntime, closer: &Closer, seconds: u64) {
    thread::sleep(rt, Duration::from_secs(seconds));
    closer.close();
}

fn serve_all<H: Threads + Wait + Sync>(
    rt: HostRuntime,
    handle: &H,
    listener: &Mutex<SocketListener>,
    closer: &Closer,
    workers: usize,
    seconds: u64,
) -> io::Result<()> {
    let (served, _) = thread::join(
        handle,
        || thread::map_indices(handle, rt.alloc(), workers, &|_| work(handle, listener)),
        || wait_end(&rt, closer, seconds),
    );
    println!(rt; "served {:?}", served?.as_slice())
}

fn listen<H: Threads + Wait + Sync>(
    rt: HostRuntime,
    handle: &H,
    address: &str,
    workers: usize,
    seconds: u64,
) -> io::Result<()> {
    let listener = SocketListener::bind(rt, address)?;
    let closer = listener.closer()?;
    println!(rt; "ready")?;
    let shared = Mutex::new(listener);
    serve_all(rt, handle, &shared, &closer, workers, seconds)
}

fn main(rt: HostRuntime) -> io::Result<()> {
    let mut words = env::args(&rt)?.skip(1);
    let (Some(address), Some(workers), Some(seconds)) = (words.next(), words.next(), words.next()) else {
        return println!(rt; "ADDRESS WORKERS SECONDS");
    };
    listen(rt, &rt, address.as_str(), workers.parse::<usize>().unwrap_or(4), seconds.parse::<u64>().unwrap_or(60))
}
RATTLE

cd "$bench"
rt run >/dev/null
python3 - "$bench/out/socket_bench" <<'PYTHON'
import os, resource, socket, subprocess, sys, threading, time

program = sys.argv[1]
PORT = 18431
REQUEST = b"GET / HTTP/1.1\r\nHost: hub\r\n\r\n"
REPLY = b"HTTP/1.1 200 OK\r\nContent-Length: 2\r\n\r\nok"


class Hub:
    """The program at a port, for so many seconds."""

    def __init__(self, port, seconds, descriptors=1024):
        self.port = port
        limit = lambda: resource.setrlimit(resource.RLIMIT_NOFILE, (descriptors, descriptors))
        words = [program, f"127.0.0.1:{port}", "4", str(seconds)]
        self.process = subprocess.Popen(words, stdout=subprocess.PIPE, preexec_fn=limit, text=True)
        if self.process.stdout.readline() != "ready\n":
            sys.exit("the program doesn't listen")

    def caller(self):
        caller = socket.create_connection(("127.0.0.1", self.port))
        caller.settimeout(40)
        caller.setsockopt(socket.IPPROTO_TCP, socket.TCP_NODELAY, 1)
        return caller

    def seconds(self):
        """The processor time that it took."""
        fields = open(f"/proc/{self.process.pid}/stat").read().rsplit(")", 1)[1].split()
        return (int(fields[11]) + int(fields[12])) / os.sysconf("SC_CLK_TCK")


def asks(caller):
    """Whether a request gets its reply."""
    caller.sendall(REQUEST)
    got = b""
    while len(got) < len(REPLY):
        more = caller.recv(100)
        if not more:
            return False
        got += more
    return got == REPLY


def show(what, holds, began, most):
    took = time.monotonic() - began
    if not holds or took > most:
        sys.exit(f"not as it should be: {what} ({took:.3f} s)")
    print(f"{what}: {1000 * took:.0f} ms", flush=True)


def shows(what, most, wanted):
    began = time.monotonic()
    show(what, wanted(), began, most)


def at_once(hub, count):
    good = []
    def ask():
        caller = hub.caller()
        good.append(asks(caller))
        caller.close()
    threads = [threading.Thread(target=ask) for _ in range(count)]
    for thread in threads:
        thread.start()
    for thread in threads:
        thread.join()
    return good == [True] * count


def vanish(hub):
    for _ in range(20):
        caller = hub.caller()
        caller.sendall(b"GET / HT")
        caller.close()
    return asks(hub.caller())


def is_refused(hub):
    """A refusal arrives whole, and then the end and no reset."""
    caller = hub.caller()
    caller.sendall(b"x" * 200000)
    got = b""
    while more := caller.recv(1000):
        got += more
    return got.startswith(b"HTTP/1.1 413") and got.endswith(b"\r\n\r\n")


def trickles(hub):
    """A head of a byte each second is cut off after 30 seconds."""
    caller = hub.caller()
    began = time.monotonic()
    for _ in range(40):
        try:
            caller.sendall(b"a")
            caller.settimeout(1)
            if caller.recv(10) == b"":
                break
        except TimeoutError:
            pass
        except ConnectionError:
            break
    return 29 < time.monotonic() - began < 33


def is_answered_beside(hub, slow, text):
    """As many callers as workers send so much of a request, and then a byte each 0.1 s, where nobody waits for 3 s. Then one more asks."""
    for caller in slow:
        caller.sendall(text)
    for _ in range(30):
        time.sleep(0.1)
        for caller in slow:
            caller.sendall(b"a")
    return asks(hub.caller())


def is_ended_when_silent(caller):
    began = time.monotonic()
    return caller.recv(10) == b"" and 14.5 < time.monotonic() - began < 16.5


def kept_and_silent(hub):
    caller = hub.caller()
    return asks(caller) and is_ended_when_silent(caller)


def behave():
    hub = Hub(PORT, 110)
    kept = hub.caller()
    shows("100 requests of one connection", 1, lambda: all(asks(kept) for _ in range(100)))
    silent = [hub.caller() for _ in range(200)]
    shows("a caller beside 200 silent ones", 0.2, lambda: asks(hub.caller()))
    shows("one of these, at last", 0.2, lambda: asks(silent[7]))
    for caller in silent:
        caller.close()
    busy = [hub.caller() for _ in range(4)]
    for caller in busy:
        asks(caller)
    shows("a caller where each worker has a kept connection", 0.2, lambda: asks(hub.caller()))
    shows("500 callers at once", 5, lambda: at_once(hub, 500))
    shows("20 callers who vanish, and one more", 1, lambda: vanish(hub))
    shows("a refusal with bytes unread", 1, lambda: is_refused(hub))
    shows("a head of a byte each second", 33, lambda: trickles(hub))
    slow = [hub.caller() for _ in range(4)]
    shows("a caller beside as many slow ones as there are workers, after 3 s", 5, lambda: is_answered_beside(hub, slow, b"GET / HT"))
    shows("a silent connection after a reply", 17, lambda: kept_and_silent(hub))
    shows("a silent connection from the beginning", 17, lambda: is_ended_when_silent(hub.caller()))
    if hub.process.wait() or "served" not in hub.process.stdout.read():
        sys.exit("the program doesn't end well when it is closed")


def lack_descriptors():
    hub = Hub(PORT + 1, 8, descriptors=24)
    silent = [hub.caller() for _ in range(60)]
    shows("a caller beside 60 silent ones, with 24 descriptors", 1, lambda: asks(hub.caller()))
    before = hub.seconds()
    time.sleep(3)
    if hub.seconds() - before > 0.1:
        sys.exit("it spins where descriptors lack")
    hub.process.wait()
    del silent


def measure(hub, count, callers, is_kept):
    def ask():
        caller = None
        for turn in range(count // callers):
            caller = caller or hub.caller()
            if not asks(caller):
                sys.exit("a request gets no reply")
            if not is_kept or turn % 900 == 899:
                caller.close()
                caller = None
    before, began = hub.seconds(), time.monotonic()
    threads = [threading.Thread(target=ask) for _ in range(callers)]
    for thread in threads:
        thread.start()
    for thread in threads:
        thread.join()
    rate = count / (time.monotonic() - began)
    cost = 1e6 * (hub.seconds() - before) / count
    how = "kept connections" if is_kept else "a connection each"
    print(f"{callers} callers, {how}: {cost:.1f} microseconds of processor time a reply, {rate:.0f} a second", flush=True)


def measure_all():
    hub = Hub(PORT + 2, 60)
    for is_kept in (True, False):
        for callers in (1, 4):
            measure(hub, 20000, callers, is_kept)
    hub.process.kill()


behave()
lack_descriptors()
measure_all()
PYTHON
