#!/usr/bin/env python3
"""The log of a ledger in etcd, through etcd's HTTP gateway.

    log.py [--etcd URL] [--nodes a,b,c]     prints of each position what the nodes came to, and whether that is final

The entry of position N is **the first value that was ever put** under the key `log/N`: a key that is written over or deleted later changes nothing. So etcd has
to keep its history, as it does unless compaction is asked for. An entry is a line that names who proposes, the lines of the calls, an empty line, and the block.

What the node A came to by the entry N stands under `digest/A/N`: the digest of its world, a space, and its verdict. Where more than half of the nodes have the
same digest, the position is final. Whoever reaches etcd may write all this, since nobody logs in here.
"""

import argparse
import base64
import collections
import http.client
import json
import sys
import time
import urllib.error
import urllib.request

# (no proxy of the environment stands between a node and its etcd)
OPEN = urllib.request.build_opener(urllib.request.ProxyHandler({})).open


class Away(Exception):
    """etcd gave no good answer for as long as one is patient."""


def base(text):
    """Text or bytes as the gateway takes them."""
    return base64.b64encode(text.encode() if isinstance(text, str) else text).decode()


def key_of(position):
    """The key of an entry."""
    return f"log/{position:08}"


def entry_of(name, calls, block):
    """The entry in which someone proposes a block of these calls."""
    return "".join(line + "\n" for line in [name, *calls, ""]).encode() + block


def parts_of(entry):
    """Who proposes, the bytes of the file CALLS, and the block: of any bytes, since anyone may have put them."""
    head, _, block = entry.partition(b"\n\n")
    name, _, calls = head.partition(b"\n")
    return name, calls + b"\n" if calls else b"", block


def majority(told, nodes):
    """The digest that more than half of the nodes came to, or None."""
    for digest, count in collections.Counter(text.partition(" ")[0] for text in told.values()).items():
        if 2 * count > len(nodes):
            return digest
    return None


class Log:
    """The log that an etcd keeps at this address."""

    def __init__(self, url, patience):
        self.url, self.patience = url.rstrip("/"), patience

    def answers(self, path, body):
        """The answers of etcd, line by line. It is asked again, with what `body()` then gives, where they end; Away where none came for too long."""
        until = time.monotonic() + self.patience
        while True:
            try:
                request = urllib.request.Request(f"{self.url}/v3/{path}", json.dumps(body()).encode())
                with OPEN(request, timeout=self.patience / 3) as lines:
                    for line in lines:
                        answer = json.loads(line)
                        if "error" in answer:
                            raise ValueError(answer["error"])
                        until = time.monotonic() + self.patience
                        yield answer
                why = "its answer ended"
            except urllib.error.HTTPError as fault:
                why = fault.read().decode(errors="replace")
                if fault.code < 500:
                    raise Away(f"etcd at {self.url} refuses it: {why}") from None
            except (OSError, http.client.HTTPException, ValueError) as fault:
                why = fault
            if time.monotonic() > until:
                raise Away(f"etcd at {self.url} does not answer: {why}")
            time.sleep(0.1)

    def ask(self, path, body):
        """The one answer of etcd."""
        return next(self.answers(path, lambda: body))

    def offer(self, position, entry):
        """Puts an entry where there is none. Who was first, `entries` tells."""
        key = base(key_of(position))
        absent = {"key": key, "target": "VERSION", "version": 0}
        self.ask("kv/txn", {"compare": [absent], "success": [{"request_put": {"key": key, "value": base(entry)}}]})

    def has(self, position):
        """Whether there is an entry."""
        return "count" in self.ask("kv/range", {"key": base(key_of(position)), "count_only": True})

    def entries(self, position):
        """The entries behind this position in their order, each as soon as it is there: the first values of their keys in etcd's history."""
        first, revision = {}, 1
        for answer in self.answers("watch", lambda: {"create_request": {"key": base("log/"), "range_end": base("log0"), "start_revision": str(revision)}}):
            if "canceled" in answer["result"]:
                raise Away(f"etcd at {self.url} does not keep its history: {answer['result']}")
            for event in answer["result"].get("events", []):
                key = base64.b64decode(event["kv"]["key"])
                if event.get("type") != "DELETE" and key > key_of(position).encode():
                    first.setdefault(key, base64.b64decode(event["kv"].get("value", "")))
                revision = int(event["kv"]["mod_revision"]) + 1
            while key_of(position + 1).encode() in first:
                position += 1
                yield first.pop(key_of(position).encode())

    def publish(self, node, position, text):
        """Tells what a node came to."""
        self.ask("kv/put", {"key": base(f"digest/{node}/{position:08}"), "value": base(text)})

    def told(self, position, nodes):
        """What each node came to, of those that have told it."""
        answer = self.ask("kv/txn", {"success": [{"request_range": {"key": base(f"digest/{node}/{position:08}")}} for node in nodes]})
        found = {node: one["response_range"].get("kvs") for node, one in zip(nodes, answer["responses"])}
        return {node: base64.b64decode(values[0]["value"]).decode(errors="replace") for node, values in found.items() if values}


def arguments(text, *more):
    """The words of a command of this folder: those that all have, and more."""
    parser = argparse.ArgumentParser(description=text, formatter_class=argparse.RawDescriptionHelpFormatter)
    parser.add_argument("--etcd", metavar="URL", default="http://127.0.0.1:2379", help="where etcd is asked")
    parser.add_argument("--nodes", metavar="A,B,..", default="a,b,c", type=lambda names: names.split(","), help="the nodes of which a majority makes a position final")
    parser.add_argument("--patience", metavar="SECONDS", default=30, type=float, help="how long it is tried to reach others")
    for words, how in more:
        parser.add_argument(words, **how)
    return parser.parse_args()


def main():
    given = arguments(__doc__)
    log, position = Log(given.etcd, given.patience), 1
    while told := log.told(position, given.nodes):
        by = {}
        for node, text in told.items():
            by.setdefault(text, []).append(node)
        print(position, "final" if majority(told, given.nodes) else "open", "; ".join(f"{text} by {','.join(names)}" for text, names in by.items()))
        position += 1


if __name__ == "__main__":
    try:
        main()
    except Away as fault:
        sys.exit(f"log: {fault}")
