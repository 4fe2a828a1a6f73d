"""Connections to the stand-in's port that can go dead, or be away for a while."""

import socket
import threading


class Link:
    """A connection and the one that it is forwarded to."""

    def __init__(self, near, far):
        self.ends, self.is_dead = (near, far), False

    def pump(self, source, target):
        """Forwards bytes in one direction until either end closes. Those of a dead connection are dropped."""
        try:
            while True:
                some = source.recv(65536)
                if not some:
                    break
                if not self.is_dead:
                    target.sendall(some)
        except OSError:
            pass
        self.close()

    def close(self):
        for end in self.ends:
            try:
                end.shutdown(socket.SHUT_RDWR)
            except OSError:
                pass
            end.close()


class Forwarder:
    """A port that forwards to another one, of this host or another one."""

    def __init__(self, port, host="127.0.0.1"):
        self.target, self.links, self.lock = (host, port), [], threading.Lock()
        self.listener = self.listen(0)
        self.port = self.listener.getsockname()[1]
        self.serve()

    def listen(self, port):
        return socket.create_server(("127.0.0.1", port))

    def serve(self):
        threading.Thread(target=self.accept, args=(self.listener,), daemon=True).start()

    def accept(self, listener):
        """Accepts connections until the port is closed."""
        while True:
            try:
                near, _ = listener.accept()
                far = socket.create_connection(self.target)
            except OSError:
                return
            link = Link(near, far)
            with self.lock:
                self.links = [link, *self.links]
            for ends in ((near, far), (far, near)):
                threading.Thread(target=link.pump, args=ends, daemon=True).start()

    def die(self):
        """Lets all connections go dead; new ones work as before."""
        with self.lock:
            for link in self.links:
                link.is_dead = True

    def leave(self, seconds):
        """Closes all connections and, for this many seconds, the port."""
        self.listener.shutdown(socket.SHUT_RDWR)
        self.listener.close()
        with self.lock:
            links, self.links = self.links, []
        for link in links:
            link.close()
        threading.Timer(seconds, self.come_back).start()

    def come_back(self):
        self.listener = self.listen(self.port)
        self.serve()
