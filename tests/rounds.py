"""Random days of several clients over one folder, against a small model of what may become of a saved text.

usage: rounds.py PROGRAM FOLDER CLIENTS ROUNDS SEED

In each round a client adds, edits or removes a note, or syncs. A text may be gone only if a client replaced or removed it whose row
had it, or if some client removed its note. In the end all clients have the same rows, which are those of the target. The last
line tells the seed.
"""
import os
import random
import sqlite3
import subprocess
import sys


class Client:
    def __init__(self, program, folder, number):
        self.program, self.root = program, f"{folder}/target"
        self.tables = f"{folder}/client{number}.sqlite"

    def run(self, *words, given=""):
        ran = subprocess.run(
            [self.program, "--profile", self.tables, *words], input=given, capture_output=True, text=True, timeout=60
        )
        if ran.returncode:
            sys.exit(f"{self.tables}: {words}: status {ran.returncode}: {ran.stdout}{ran.stderr}")
        return ran.stdout.strip()

    def sync(self):
        return self.run("sync", f"dir:{self.root}")

    def read(self, statement):
        base = sqlite3.connect(self.tables)
        found = base.execute(statement).fetchall()
        base.close()
        return found

    def rows(self):
        """The content of each row by its id, and whether it waits."""
        text = "coalesce(nullif(content, x''), base)"
        return {row[0]: (row[1], row[2]) for row in self.read(f"select id, {text}, pending from rows")}

    def bodies(self):
        """The body of each note by its id."""
        return {it: body_of(content) for it, (content, _) in self.rows().items() if content.endswith(b"type_: 1")}

    def conflict_bodies(self):
        return {body_of(row[0]) for row in self.read("select content from conflicts")}


def body_of(content):
    return content.split(b"\n\n")[1].decode()


class Days:
    def __init__(self, clients, draw):
        self.clients, self.draw = clients, draw
        self.saved, self.replaced, self.removed = {}, set(), set()
        self.book = clients[0].run("mkbook", "Home")
        for client in clients:
            client.sync()

    def save(self, note, text):
        self.saved[text] = note

    def add(self, client, text):
        self.save(client.run("add", self.book, text, given=text), text)

    def pick(self, client):
        bodies = client.bodies()
        return self.draw.choice(sorted(bodies.items())) if bodies else (None, None)

    def edit(self, client, text):
        note, body = self.pick(client)
        if note:
            client.run("edit", note, given=text)
            self.replaced.add(body)
            self.save(note, text)

    def remove(self, client):
        note, body = self.pick(client)
        if note:
            client.run("rm", note)
            self.removed.add(note)

    def round(self, number):
        client, text = self.draw.choice(self.clients), f"text {number}"
        what = self.draw.choice(["add", "edit", "edit", "edit", "remove", "sync", "sync", "sync"])
        if what == "sync":
            client.sync()
        elif what == "remove":
            self.remove(client)
        else:
            getattr(self, what)(client, text)

    def lost(self):
        """The texts that are gone without a reason."""
        there = set()
        for client in self.clients:
            there |= set(client.bodies().values()) | client.conflict_bodies()
        return [
            text
            for text, note in self.saved.items()
            if text not in there and text not in self.replaced and note not in self.removed
        ]

    def settle(self):
        for _ in range(2):
            for client in self.clients:
                client.sync()


def files(root):
    found = {}
    for name in os.listdir(root):
        if name.endswith(".md"):
            with open(f"{root}/{name}", "rb") as file:
                found[name[:-3]] = file.read()
    return found


def main():
    program, folder, count, rounds, seed = sys.argv[1:]
    os.makedirs(f"{folder}/target")
    clients = [Client(program, folder, it) for it in range(int(count))]
    clients[0].run("upgrade", f"dir:{folder}/target")
    days = Days(clients, random.Random(int(seed)))
    for number in range(int(rounds)):
        days.round(number)
    days.settle()
    wanted = files(f"{folder}/target")
    for client in clients:
        rows = client.rows()
        if {it: row[0] for it, row in rows.items()} != wanted:
            sys.exit(f"seed {seed}: {client.tables} differs from the target")
        if any(row[1] for row in rows.values()):
            sys.exit(f"seed {seed}: {client.tables} has rows that wait")
    if days.lost():
        sys.exit(f"seed {seed}: lost: {days.lost()}")
    conflicts = sum(len(client.conflict_bodies()) for client in clients)
    print(f"note: {count} clients, {rounds} rounds, {len(days.saved)} texts, {conflicts} conflict notes, seed {seed}")


main()
