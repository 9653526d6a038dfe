"""The server of the page: its files, the requests for runs of nbhd, and these runs."""
