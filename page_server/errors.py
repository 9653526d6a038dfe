"""What ends a request without its answer."""


class Refusal(Exception):
    """A request that is not served, with the HTTP status and the reason."""

    def __init__(self, status, reason):
        super().__init__(reason)
        self.status, self.reason = status, reason


class ClientGone(Exception):
    """The client closed the connection before its answer."""
