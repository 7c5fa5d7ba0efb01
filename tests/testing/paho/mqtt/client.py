"""A stand-in for the module paho.mqtt.client. It reads the events of its broker from the file
`broker`, for all clients of a process, and then writes them to `happened`. It writes what is
published to the file `said`, and its calls to `words`. The broker does nothing between a line and
its note."""

import json
import threading
import types

TOPICS = ["boards/+/log", "boards/+/journal", "boards/+/state", "boards/+/confirmed", "boards/+",
          "boards/+/clock", "boards/+/players", "boards/+/counters"]
LOCK, CLIENTS = threading.RLock(), []
VERSION = ()  # what a client is made with first


def note(file, *words):
    with open(file, "a") as noted:
        print(*words, file=noted)


def connack_string(code):
    return "not authorised"


def loop():
    for line in open("broker"):
        with LOCK:
            for client in CLIENTS:
                client.happen(*json.loads(line))
        note("happened", line.strip())


class Client:
    suppress_exceptions = is_there = is_subscribed = False

    def __init__(self, *version, client_id=""):
        assert version == VERSION

    def ignore(self, *words):
        pass

    username_pw_set = reconnect_delay_set = wait_for_publish = disconnect = loop_forever = ignore

    def tls_set(self, file):
        note("words", "tls", file)
        open(file).close()

    def will_set(self, *words, **named):
        note("words", "will", *words, named)

    def connect_async(self, *words):
        note("words", "broker", *words)

    def loop_start(self):
        with LOCK:
            is_there = any(client.is_there for client in CLIENTS)
            CLIENTS.append(self)
            if len(CLIENTS) == 1:
                threading.Thread(target=loop, daemon=True).start()
            if is_there:
                self.happen("come")

    def publish(self, topic, payload, **named):
        note("words", "to", topic, named)
        note("said", topic, payload)
        return self

    def subscribe(self, topics, qos=0):
        self.is_subscribed = (topics, qos) in (([(topic, 0) for topic in TOPICS], 0),
                                               ("boards/+/ask", 1))

    def happen(self, what, topic="", payload=""):
        if what.startswith("on_"):  # a call, and instead of a topic what it is given
            getattr(self, what)(self, None, *topic)
        elif what == "come":
            self.is_there = True
            self.on_connect(self, None, {}, 0)
        elif what == "gone":
            self.is_there = False
            self.on_disconnect(self, None, 0)
        elif what == "absent":
            self.on_connect_fail(self, None)
        elif what == "unknown":
            try:
                raise OSError("unknown authority")
            except OSError:
                self.on_connect_fail(self, None)
        elif what == "refuse":
            self.on_connect(self, None, {}, 5)
            self.on_disconnect(self, None, 5)
        elif what == "break":
            raise ValueError("no MQTT")
        elif self.is_subscribed:
            self.message(topic, bytes.fromhex(payload))

    def message(self, topic, payload):
        try:
            said = types.SimpleNamespace(topic=topic, payload=payload, retain=False)
            self.on_message(self, None, said)
        except Exception:
            if not self.suppress_exceptions:
                raise
