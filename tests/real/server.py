"""A Redis server of a room, which is started when the first call asks for it."""
import shutil
import socket
import subprocess
import time


class Server:
    """A server that keeps no file. Where redis-server is not installed, the store is a directory."""

    def __init__(self, directory):
        self.directory, self.run, self.address = directory, None, None

    def start(self):
        """Its address, for CCK_STORE."""
        if not self.address:
            self.address = self.directory + "/store"
            for _ in range(5 if shutil.which("redis-server") and shutil.which("redis-cli") else 0):
                if self.begin():
                    break
        return self.address

    def begin(self):
        """Starts a server at a free port, and returns whether it answers."""
        with socket.socket() as free:
            free.bind(("127.0.0.1", 0))
            port = free.getsockname()[1]
        self.run = subprocess.Popen(["redis-server", "--port", str(port), "--bind", "127.0.0.1", "--save", "", "--dir",
                                     self.directory], stdout=subprocess.DEVNULL, stderr=subprocess.DEVNULL)
        for _ in range(200):
            if self.run.poll() is not None:
                return False
            try:
                socket.create_connection(("127.0.0.1", port)).close()
            except OSError:
                time.sleep(0.02)
                continue
            self.address = f"redis://127.0.0.1:{port}/0"
            return True
        self.stop()
        return False

    def stop(self):
        if self.run:
            self.run.terminate()
            self.run.wait()
