"""What is between a host and its clients, and disturbs them."""

import socket
import threading

from trials.connections import connect, read_frame, write_frame


class Relay(threading.Thread):
    """Passes messages between a client of the host and the host, and cuts the connection at the messages that a trial names."""

    def __init__(self):
        super().__init__(daemon=True)
        self.listener = socket.create_server(("127.0.0.1", 0))
        self.port = self.listener.getsockname()[1]
        self.host = self.host_port = None
        self.connections = self.messages = 0
        self.cut_at, self.cut_answer = None, False
        # Answers a message in the host's place, if it returns an answer; the host doesn't hear of that message.
        self.instead = lambda body: None
        self.start()

    def lead_to(self, process, port):
        """Connections lead to this host from now on."""
        self.host, self.host_port = process, port

    def cut(self, at, answer):
        """Cuts the connection at this message, counted from now: before the host has it, or before its answer is back."""
        self.messages, self.cut_answer, self.cut_at = 0, answer, at

    def run(self):
        while True:
            near, _ = self.listener.accept()
            near.setsockopt(socket.IPPROTO_TCP, socket.TCP_NODELAY, 1)
            self.connections += 1
            far = connect(self.host_port, self.host)
            if far:
                self.carry(near, far)
                far.close()
            near.close()

    def carry(self, near, far):
        while (body := read_frame(near)) is not None:
            is_cut = self.messages == self.cut_at
            self.messages += 1
            if is_cut:
                self.cut_at = None
            if is_cut and not self.cut_answer:
                break
            answer = self.instead(body) or (read_frame(far) if write_frame(far, body) else None)
            if answer is None or is_cut or not write_frame(near, answer):
                break
