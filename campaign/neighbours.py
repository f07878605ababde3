"""The neighbours of the pipelines, started and stopped here on loopback alone: a broker of MQTT and a server of PostgreSQL."""
import os
import pwd
import shutil
import signal
import socket
import subprocess
import tempfile
import threading
import time

PATIENCE = 20
NEEDS = {"json-lines": ["jq"], "csv": ["mlr"], "log": ["mawk"], "mqtt": ["mosquitto", "mosquitto_pub", "mosquitto_sub"], "postgres": ["psql"],
         "fifo": [], "feeds": []}


def environment(program):
    """An environment in which `bq` is a program."""
    folder = tempfile.mkdtemp(prefix="bq-hostile-")
    os.chmod(folder, 0o755)
    os.symlink(os.path.abspath(program), os.path.join(folder, "bq"))
    return {**os.environ, "PATH": folder + ":" + os.environ["PATH"]}


def postgres_folder():
    """The folder of PostgreSQL's own programs, or None."""
    top = "/usr/lib/postgresql"
    versions = sorted(os.listdir(top), key=float) if os.path.isdir(top) else []
    return os.path.join(top, versions[-1], "bin") if versions else None


def missing(way):
    """The programs that a way needs and that are not there."""
    lacking = [word for word in NEEDS[way] if not shutil.which(word)]
    if way == "postgres" and not postgres_folder():
        lacking.append("initdb")
    return lacking


def free_port():
    with socket.socket() as one:
        one.bind(("127.0.0.1", 0))
        return one.getsockname()[1]


def reached(port):
    """Waits until something listens."""
    for _ in range(PATIENCE * 10):
        with socket.socket() as one:
            if one.connect_ex(("127.0.0.1", port)) == 0:
                return
        time.sleep(0.1)
    raise OSError(f"nothing listens at port {port}")


class Broker:
    """A broker of MQTT of our own."""

    def __enter__(self):
        self.folder, self.port = tempfile.mkdtemp(prefix="bq-mqtt-"), free_port()
        os.chmod(self.folder, 0o755)
        conf = os.path.join(self.folder, "mosquitto.conf")
        with open(conf, "w", encoding="utf-8") as file:
            file.write(f"listener {self.port} 127.0.0.1\nallow_anonymous true\npersistence false\n")
        self.server = subprocess.Popen(["mosquitto", "-c", conf], stdout=subprocess.DEVNULL, stderr=subprocess.DEVNULL)
        reached(self.port)
        return self

    def __exit__(self, *error):
        self.server.kill()
        self.server.wait()
        shutil.rmtree(self.folder, ignore_errors=True)

    def alerts(self, pipeline, messages, many, env):
        """The alerts that come over the broker while messages are sent to a pipeline; it is waited for so many, and then a little."""
        at = ["-h", "127.0.0.1", "-p", str(self.port), "-q", "1"]
        ears = subprocess.Popen(["mosquitto_sub", *at, "-t", "alerts/hot"], stdout=subprocess.PIPE)
        came = []
        threading.Thread(target=lambda: [came.append(line) for line in ears.stdout], daemon=True).start()
        running = subprocess.Popen([pipeline, "127.0.0.1", str(self.port)], stdout=subprocess.DEVNULL, stderr=subprocess.PIPE, env=env, start_new_session=True)
        try:
            # the replies to the script and to its lock
            for _ in range(4):
                running.stderr.readline()
            threading.Thread(target=running.stderr.read, daemon=True).start()
            time.sleep(0.5)
            for message in messages:
                subprocess.run(["mosquitto_pub", *at, "-t", "sensors/temp", "-s"], input=message.encode(), check=True, timeout=PATIENCE)
            for _ in range(PATIENCE * 10):
                if len(came) >= many:
                    break
                time.sleep(0.1)
            time.sleep(0.3)
        finally:
            os.killpg(running.pid, signal.SIGTERM)
            ears.kill()
            # the subscription of the pipeline is kept by the broker: what it did not take is taken away
            subprocess.run(["mosquitto_sub", *at, "-i", "bq-in", "-t", "sensors/temp", "-W", "1"], stdout=subprocess.DEVNULL, stderr=subprocess.DEVNULL, check=False)
        return b"".join(came)


class Database:
    """A server of PostgreSQL of our own, over a socket in a folder. It does not run as root."""

    def __init__(self, env):
        self.env = env

    def __enter__(self):
        self.folder = tempfile.mkdtemp(prefix="bq-postgres-")
        words, user = [], os.getuid()
        if user == 0:
            name = "postgres" if "postgres" in [it.pw_name for it in pwd.getpwall()] else "nobody"
            words, user = ["setpriv", f"--reuid={name}", "--clear-groups"], pwd.getpwnam(name).pw_uid
        os.chown(self.folder, user, -1)
        programs, data = postgres_folder(), os.path.join(self.folder, "data")
        self.env = {**self.env, "PGHOST": self.folder, "PGUSER": "postgres", "PGDATABASE": "postgres"}
        self.run(*words, os.path.join(programs, "initdb"), "-D", data, "-U", "postgres", "-A", "trust", "-N")
        self.server = [*words, os.path.join(programs, "pg_ctl"), "-D", data, "-w", "-l", os.path.join(self.folder, "log")]
        self.run(*self.server, "-o", f"-c listen_addresses='' -c unix_socket_directories='{self.folder}' -c fsync=off", "start")
        return self

    def __exit__(self, *error):
        subprocess.run([*self.server, "-m", "immediate", "stop"], env=self.env, capture_output=True, check=False, cwd=self.folder)
        shutil.rmtree(self.folder, ignore_errors=True)

    def run(self, *command, given=None):
        return subprocess.run(command, env=self.env, check=True, timeout=PATIENCE * 6, capture_output=True, text=True, cwd=self.folder, input=given).stdout

    def alerts(self, pipeline, rows):
        """The table of alerts behind one run of a pipeline over these readings."""
        values = ", ".join("('%s', '%s')" % (str(room).replace("'", "''"), tenths) for room, tenths in rows)
        sql = ["DROP TABLE IF EXISTS readings, alerts;", "CREATE TABLE readings (id bigserial, room text, tenths text);",
               "CREATE TABLE alerts (room int primary key);", f"INSERT INTO readings (room, tenths) VALUES {values};"]
        self.run("psql", "-q", "-v", "ON_ERROR_STOP=1", given="\n".join(sql))
        self.run(pipeline)
        return self.run("psql", "-qAt", "-c", "SELECT room FROM alerts ORDER BY room").encode()
