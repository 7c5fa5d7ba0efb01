"""Clients of an MQTT broker, and what programs report of it."""

import contextlib
import importlib
import os
import ssl
import sys
import time
import traceback
from collections.abc import Callable
from typing import Any

_KEEPALIVE = 15
"""Seconds after which a silent broker is asked whether it is there, and after as many more given
up. After 22 it takes a silent client for gone."""


def say(program: str, text: str) -> None:
    """Prints a line on standard error. Nobody may read it, or its disk may be full. It is one
    write, since several threads may report at the same time."""
    with contextlib.suppress(OSError):
        sys.stderr.write(f"{program}: {text}\n")


class Reporter:
    """Reports the state of something on standard error, each time that it changes."""

    def __init__(self, program: str) -> None:
        self.last, self._program = "", program

    def say(self, how: str) -> None:
        if how != self.last:
            say(self._program, how)
        self.last = how


def load(program: str) -> Any:
    """The module of clients. `SystemExit` if it is missing."""
    try:
        return importlib.import_module("paho.mqtt.client")
    except ImportError:
        sys.exit(f"{program}: no module paho.mqtt (install Debian's package python3-paho-mqtt)")


def check_authorities(program: str, cafile: str | None) -> None:
    """`SystemExit` if the file of --cafile contains no certificates."""
    if cafile:
        try:
            ssl.create_default_context(cafile=cafile)
        except OSError as fault:
            sys.exit(f"{program}: {cafile}: {fault.strerror or fault}")


def make_client(mqtt: Any, user: str | None, cafile: str | None = None, **how: Any) -> Any:
    """A client that isn't connected yet."""
    # A version 2 of the module asks which calls it may make.
    versions = getattr(mqtt, "CallbackAPIVersion", None)
    client = mqtt.Client(*([versions.VERSION2] if versions else []), **how)
    client.suppress_exceptions = True  # an exception in a callback would end the thread
    client.reconnect_delay_set(1, 2)
    if user:
        client.username_pw_set(user, os.environ.get("MQTT_PASSWORD"))
    if cafile:
        client.tls_set(cafile)
    return client


def connect(mqtt: Any, client: Any, host: str, port: int, report: Callable[[str], None],
            is_new: Callable[[], bool], there: Callable[[], None]) -> None:
    """Connects a client in a separate thread, which reconnects, and reports the state of the
    broker. A failure to connect is only reported while it `is_new`."""
    place = f"{host} port {port}"

    def connected(_client: Any, _data: Any, _flags: Any, refused: Any, *_: Any) -> None:
        if refused == 0:
            report("the broker is there")
            there()
        else:
            why = mqtt.connack_string(refused) if isinstance(refused, int) else refused
            report(f"the broker at {place} refuses: {why} (see --user)")

    def failed(*_: Any) -> None:
        why = f": {fault}" if (fault := sys.exception()) else ""
        if is_new():
            report(f"no broker answers at {place}{why} (start it, or see --broker); it is tried "
                   "until it does")

    client.on_connect, client.on_connect_fail = connected, failed
    begin(client, host, port, report)


def begin(client: Any, host: str, port: int, report: Callable[[str], None]) -> None:
    """Connects a client in a separate thread, which reconnects, also after bytes that aren't MQTT:
    these end the module's loop. If that fails, the process ends, since it would never hear the
    broker again. What it has to keep is on the disk."""
    loop = client.loop_forever

    def loop_forever(*words: Any, **how: Any) -> Any:
        while True:
            try:
                return loop(*words, **how)
            except Exception as fault:
                report(f"the broker at {host} port {port} sends what isn't MQTT ({fault}); it is "
                       "connected again")
            try:
                client.on_disconnect(client, None, 1)
                time.sleep(1)
                client.connect_async(host, port, _KEEPALIVE)
            except Exception:
                report(traceback.format_exc())
                os._exit(1)

    client.loop_forever = loop_forever
    client.connect_async(host, port, _KEEPALIVE)
    client.loop_start()
