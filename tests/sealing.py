"""Joplin's sealed texts by Python's `cryptography`, which knows nothing of this program: keys, and the bytes of resources.

    sealing.py record ID PASSWORD KS TS ITER    the record of a key, as JSON; its digits are those of the byte 7, 256 times
    sealing.py open PASSWORD                    what the content on standard input opens to
    sealing.py blob ID METHOD                   standard input, sealed under the digits of such a record
"""

import base64
import json
import os
import sys

from cryptography.hazmat.primitives.ciphers.aead import AESCCM
from cryptography.hazmat.primitives.hashes import SHA256
from cryptography.hazmat.primitives.kdf.pbkdf2 import PBKDF2HMAC

DIGITS = '07' * 256


def cipher(password, salt, iterations, bits, tag_bits):
    derived = PBKDF2HMAC(SHA256(), 32, salt, iterations).derive(password)
    return AESCCM(derived[: bits // 8], tag_length=tag_bits // 8)


def nonce(iv, length):
    size = 2 if length < 1 << 16 else 3
    return iv[: 15 - max(size, 15 - len(iv))]


def text_of(data):
    return base64.b64encode(data).decode()


def seal(password, text, iterations, bits, tag_bits):
    iv, salt = os.urandom(16), os.urandom(8)
    sealed = cipher(password, salt, iterations, bits, tag_bits).encrypt(nonce(iv, len(text)), text, None)
    return json.dumps(
        {
            'iv': text_of(iv), 'v': 1, 'iter': iterations, 'ks': bits, 'ts': tag_bits, 'mode': 'ccm', 'adata': '', 'cipher': 'aes',
            'salt': text_of(salt), 'ct': text_of(sealed),
        }
    )


def open_content(password, content):
    chunk = json.loads(content)
    sealed = base64.b64decode(chunk['ct'])
    opens = cipher(password, base64.b64decode(chunk['salt']), chunk['iter'], chunk['ks'], chunk['ts'])
    length = len(sealed) - chunk['ts'] // 8
    return opens.decrypt(nonce(base64.b64decode(chunk['iv']), length), sealed, None)


def escaped(text):
    keeps = 'ABCDEFGHIJKLMNOPQRSTUVWXYZabcdefghijklmnopqrstuvwxyz0123456789@*_+-./'
    return ''.join(letter if letter in keeps else f'%{ord(letter):02X}' for letter in text)


def blob(key, method, data):
    text = f'JED01000022{method:02x}{key}'
    for start in range(0, len(data), 3000):
        piece = text_of(data[start : start + 3000])
        if method in (5, 7):
            piece = escaped(piece)
        chunk = seal(DIGITS.encode(), piece.encode(), 101, 128, 64)
        text += f'{len(chunk):06x}{chunk}'
    return text


def main(words):
    if words[0] == 'record':
        key, password = words[1:3]
        bits, tag_bits, iterations = map(int, words[3:])
        content = seal(password.encode(), DIGITS.encode(), iterations, bits, tag_bits)
        print(json.dumps({'id': key, 'content': content, 'updated_time': 1600000000000}))
    elif words[0] == 'open':
        print(open_content(words[1].encode(), sys.stdin.read()).decode())
    else:
        sys.stdout.write(blob(words[1], int(words[2]), sys.stdin.buffer.read()))


main(sys.argv[1:])
