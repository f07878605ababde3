"""Brokers of our own for the trials of examples/pipelines: on loopback, in a folder and at ports of their own, ended at the end."""
import functools
import glob
import os
import shutil
import signal
import socket
import subprocess
import tempfile
import time

TOP = os.path.dirname(os.path.dirname(os.path.abspath(__file__)))
PATIENCE = 1800


def free_ports(number):
    """Ports at which nothing listens."""
    sockets = [socket.socket() for _ in range(number)]
    for one in sockets:
        one.bind(("127.0.0.1", 0))
    ports = [one.getsockname()[1] for one in sockets]
    for one in sockets:
        one.close()
    return ports


def wait_until(is_so, what, seconds=PATIENCE, pause=0.1):
    """Waits until something is so, which is asked from time to time."""
    ends = time.monotonic() + seconds
    while not is_so():
        if time.monotonic() > ends:
            raise TimeoutError(what)
        time.sleep(pause)


def listens(port):
    """Whether something listens at a port."""
    with socket.socket() as one:
        return one.connect_ex(("127.0.0.1", port)) == 0


class Redis:
    """A Redis server that keeps an append-only file."""

    NAME, MODULE = "redis", "streams"
    # how many leases a worker is silent before another has its partitions
    PATIENCE_OF_LEASE = 1
    # whether an answer may stand there twice, with the same number, and the reader leaves one out
    MAY_REPEAT = False
    WORDS_OF_WORKERS = ["--trim"]

    def __init__(self):
        import redis  # of Debian's python3-redis
        self.folder, [self.port] = tempfile.mkdtemp(prefix="bq-redis-"), free_ports(1)
        self.store = redis.Redis(port=self.port)
        self.fault = redis.RedisError
        self.words, self.process = ["--port", str(self.port)], None
        self.start()

    def start(self):
        """Starts the server and waits until it has read its file."""
        words = ["--port", str(self.port), "--bind", "127.0.0.1", "--dir", self.folder, "--appendonly", "yes", "--appendfsync", "everysec", "--save", ""]
        self.process = subprocess.Popen(["redis-server", *words], stdout=subprocess.DEVNULL)
        wait_until(self.is_there, "redis-server")

    def is_there(self):
        """Whether it answers."""
        try:
            return self.store.ping()
        except self.fault:
            return False

    def is_ready(self, parts):
        """Streams are made as they are written."""
        return True

    def strike(self, random):
        """Kills the server and starts it again; half of the times it has lost the last of its file, as when its machine stops before the disk has it."""
        self.process.kill()
        self.process.wait()
        if random.random() < 0.5:
            path = max(glob.glob(os.path.join(self.folder, "appendonlydir", "*.incr.aof")), key=os.path.getmtime)
            os.truncate(path, int(os.path.getsize(path) * random.uniform(0.8, 1)))
        self.start()

    def heal(self):
        """Nothing is left to start again."""

    def rows_saved(self, partition):
        """How many rows the state of a partition covers."""
        return int(self.store.hget(f"kept:{partition}", "rows") or 0)

    def answers(self, partition):
        """The answers of a partition with their numbers, all that were published."""
        return [(int(it.split(b"-")[0]), entry[b"answer"]) for it, entry in self.store.xrange(f"answers:{partition}")]

    def end(self):
        """Ends the server and removes its folder."""
        self.process.terminate()
        self.process.wait()
        shutil.rmtree(self.folder, ignore_errors=True)


NODES = 3
# what makes the later nodes join the first one
JOINS = """cluster_formation.peer_discovery_backend = classic_config
cluster_formation.discovery_retry_limit = 1000
cluster_formation.classic_config.nodes.1 = bq0@localhost
"""
CONF = """listeners.tcp.1 = 127.0.0.1:{port}
handshake_timeout = 60000
disk_free_limit.absolute = 50MB
vm_memory_high_watermark.absolute = 600MB
log.file.level = warning
"""
FEW_THREADS = "+S 2:2 +sbwt none +sbwtdcpu none +sbwtdio none -kernel inet_dist_use_interface {127,0,0,1}"


class Node:
    """A node of RabbitMQ; all but the first of a folder join that one."""

    def __init__(self, folder, number, port, ports_of_erlang):
        self.name, self.port, self.folder = f"bq{number}@localhost", port, os.path.join(folder, str(number))
        os.mkdir(self.folder)
        self.write("rabbitmq.conf", CONF.format(port=port) + (JOINS if number else ""))
        self.write("plugins", "[].\n")
        path = functools.partial(os.path.join, self.folder)
        self.env = {**os.environ, "HOME": folder, "RABBITMQ_NODENAME": self.name, "RABBITMQ_DIST_PORT": str(ports_of_erlang[number]),
                    "RABBITMQ_CONFIG_FILE": path("rabbitmq"), "RABBITMQ_MNESIA_BASE": path("mnesia"), "RABBITMQ_LOG_BASE": path("log"),
                    "RABBITMQ_ENABLED_PLUGINS_FILE": path("plugins"), "RABBITMQ_PID_FILE": path("pid"), "RABBITMQ_CONF_ENV_FILE": "/dev/null",
                    "ERL_EPMD_PORT": str(ports_of_erlang[-1]), "ERL_EPMD_ADDRESS": "127.0.0.1", "RABBITMQ_SERVER_ADDITIONAL_ERL_ARGS": FEW_THREADS}
        self.process = None

    def write(self, name, text):
        """Writes a file of the node's folder."""
        with open(os.path.join(self.folder, name), "w", encoding="utf-8") as file:
            file.write(text)

    def start(self):
        """Starts the node; it is there a while later."""
        with open(os.path.join(self.folder, "said"), "ab") as said:
            self.process = subprocess.Popen(["/usr/lib/rabbitmq/bin/rabbitmq-server"], env=self.env, stdout=said, stderr=said)

    def is_there(self):
        """Whether it listens. One that ended by itself is started again, as a service is: on a starved machine its own time limits may end its start."""
        if self.process.poll() is not None:
            self.start()
        return listens(self.port)

    def kill(self):
        """Kills the node at once."""
        with open(os.path.join(self.folder, "pid"), encoding="ascii") as file:
            os.kill(int(file.read()), signal.SIGKILL)
        self.process.wait()


class RabbitMQ:
    """Three nodes of RabbitMQ."""

    NAME, MODULE = "rabbitmq", "quorum"
    PATIENCE_OF_LEASE = 2
    MAY_REPEAT = True
    WORDS_OF_WORKERS = ["--window", "40"]

    def __init__(self):
        import pika  # of Debian's python3-pika
        self.pika, self.folder = pika, tempfile.mkdtemp(prefix="bq-rabbitmq-")
        ports = free_ports(2 * NODES + 1)
        with open(os.path.join(self.folder, ".erlang.cookie"), "w", encoding="ascii") as file:
            file.write("TRIAL")
        os.chmod(file.name, 0o400)
        self.epmd = subprocess.Popen(["epmd", "-port", str(ports[-1]), "-address", "127.0.0.1"], stdout=subprocess.DEVNULL)
        self.nodes = [Node(self.folder, number, ports[number], ports[NODES:]) for number in range(NODES)]
        self.words = ["--nodes", ",".join(f"127.0.0.1:{node.port}" for node in self.nodes)]
        try:
            # one behind the other: nodes that begin together may not find each other, and then each is a broker of its own
            for node in self.nodes:
                node.start()
                wait_until(node.is_there, f"{node.name} listens")
            self.check_joined()
        except (OSError, self.pika.exceptions.AMQPError):
            self.end()
            raise

    def parameters(self, node):
        """How a node is reached; it has a minute to open a connection, as the trials may have more work than there are cores."""
        return self.pika.ConnectionParameters("127.0.0.1", node.port, stack_timeout=60)

    def check_joined(self):
        """Fails where a node has no queue that another made."""
        for number, node in enumerate(self.nodes):
            with self.pika.BlockingConnection(self.parameters(node)) as connection:
                connection.channel().queue_declare("joined", durable=True, passive=number > 0)

    def is_ready(self, parts):
        """Whether all queues are there. A node that is killed while it makes one may leave a queue that no node can use, so none is killed before."""
        try:
            with self.pika.BlockingConnection([self.parameters(node) for node in self.nodes]) as connection:
                channel = connection.channel()
                for number in range(parts):
                    for name in ("rows", "answers", "state"):
                        channel.queue_declare(f"{name}.{number}", passive=True)
            return True
        except self.pika.exceptions.AMQPError:
            return False

    def strike(self, random):
        """Kills a node, once all are there, and starts it again; meanwhile the others go on."""
        self.heal()
        node = random.choice(self.nodes)
        node.kill()
        node.start()

    def heal(self):
        """Waits until all nodes are there."""
        for node in self.nodes:
            wait_until(node.is_there, f"{node.name} listens")

    def channel(self):
        """A channel over a connection of its own to any node."""
        return self.pika.BlockingConnection([self.parameters(node) for node in self.nodes]).channel()

    def rows_saved(self, partition):
        """How many rows the states of a partition cover; they stay where they are."""
        try:
            channel = self.channel()
        except self.pika.exceptions.AMQPError:
            return 0
        try:
            most = 0
            while True:
                method, properties, _ = channel.basic_get(f"state.{partition}")
                if not method:
                    return most
                most = max(most, properties.headers["rows"])
        except self.pika.exceptions.AMQPError:
            return 0
        finally:
            if channel.connection.is_open:
                channel.connection.close()

    def answers(self, partition):
        """The answers of a partition with their numbers, all that were published; they stay where they are."""
        found, channel = [], self.channel()
        while True:
            method, properties, body = channel.basic_get(f"answers.{partition}")
            if not method:
                channel.connection.close()
                return found
            found += enumerate(body.split(b"\n"), properties.headers["first"])

    def end(self):
        """Ends the nodes and removes their folder."""
        for node in self.nodes:
            if node.process and node.process.poll() is None:
                node.kill()
        self.epmd.terminate()
        self.epmd.wait()
        shutil.rmtree(self.folder, ignore_errors=True)


BROKERS = {"redis": Redis, "rabbitmq": RabbitMQ}
