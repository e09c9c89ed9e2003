#!/usr/bin/env python3
"""A server that answers prepared statements with the rows that their text spells out.

    serve.py SOCKET PLUGIN

A statement's text is `CODE:FLAGS,..;ROW;ROW;..`: the columns, then each row's packet in hexadecimal, or `E` and a number for an error
packet in its place. It speaks as much of MySQL's protocol as a client library needs to fetch them.
"""

import os
import socket
import struct
import sys

CAPABILITIES = 0x1 | 0x4 | 0x200 | 0x2000 | 0x8000 | 0x80000


class Packets:
    def __init__(self, connection):
        self.connection = connection
        self.sequence = 0

    def receive(self):
        head = self.exactly(4)
        self.sequence = head[3] + 1
        return self.exactly(int.from_bytes(head[:3], "little"))

    def exactly(self, count):
        out = b""
        while len(out) < count:
            more = self.connection.recv(count - len(out))
            if not more:
                raise EOFError
            out += more
        return out

    def send(self, body):
        self.connection.sendall(len(body).to_bytes(3, "little") + bytes([self.sequence % 256]) + body)
        self.sequence += 1


def text(value):
    return bytes([len(value)]) + value


def column(code, flags):
    decimals = 31 if code in (4, 5) else 0
    names = text(b"def") + text(b"") * 3 + text(b"c") + text(b"c")
    return names + b"\x0c" + struct.pack("<HIBHB", 63, 255, code, flags, decimals) + b"\0\0"


OK = b"\0\0\0\x02\0\0\0"
EOF = b"\xfe\0\0\x02\0"


def error(number):
    return b"\xff" + struct.pack("<H", number) + b"#HY000" + b"an error"


def greet(packets, plugin):
    greeting = b"\x0a8.0.36\0" + struct.pack("<I", 1) + b"12345678\0" + struct.pack("<H", CAPABILITIES & 0xFFFF)
    greeting += b"\x2d\x02\0" + struct.pack("<H", CAPABILITIES >> 16) + b"\x15" + b"\0" * 10 + b"123456789012\0"
    packets.send(greeting + plugin + b"\0")
    packets.receive()
    packets.send(OK)


def columns_of(statement):
    listed = statement.split(";")[0]
    pairs = [pair.split(":") for pair in listed.split(",")]
    return [column(int(code), int(flags)) for code, flags in pairs]


def answer(packets, command, statement):
    if command[0] == 0x16:
        statement = command[1:].decode()
        columns = columns_of(statement)
        packets.send(b"\0" + struct.pack("<IHHBH", 1, len(columns), 0, 0, 0))
        for body in columns + [EOF]:
            packets.send(body)
    elif command[0] == 0x17:
        columns = columns_of(statement)
        rows = [row for row in statement.split(";")[1:] if row]
        for body in [bytes([len(columns)])] + columns + [EOF]:
            packets.send(body)
        for row in rows:
            if row[0] == "E":
                packets.send(error(int(row[1:])))
                return statement
            packets.send(bytes.fromhex(row))
        packets.send(EOF)
    elif command[0] != 0x19:
        packets.send(OK)
    return statement


def main():
    path, plugin = sys.argv[1], sys.argv[2].encode()
    listener = socket.socket(socket.AF_UNIX)
    listener.bind(path)
    listener.listen()
    while True:
        packets = Packets(listener.accept()[0])
        try:
            greet(packets, plugin)
            statement = ""
            while (command := packets.receive())[0] != 0x01:
                statement = answer(packets, command, statement)
        except (EOFError, ConnectionError):
            pass


main()
