#!/usr/bin/env python3
"""Writes the lines that the program hash_vectors must print, by Python's own hashlib and hmac."""
import hashlib
import hmac
import struct


def digest(message):
    print(hashlib.sha256(message).hexdigest())


def code(key, message, digits=64):
    print(hmac.new(key, message, hashlib.sha256).hexdigest()[:digits])


def counting(length):
    return bytes(i % 256 for i in range(length))


# FIPS 180-4's examples.
digest(b'')
digest(b'abc')
digest(b'abcdbcdecdefdefgefghfghighijhijkijkljklmklmnlmnomnopnopq')
digest(b'abcdefghbcdefghicdefghijdefghijkefghijklfghijklmghijklmnhijklmnoijklmnopjklmnopqklmnopqrlmnopqrsmnopqrstnopqrstu')
digest(b'a' * 1000000)

# RFC 4231's test cases 1 to 7; the fifth is cut to 128 bits.
code(b'\x0b' * 20, b'Hi There')
code(b'Jefe', b'what do ya want for nothing?')
code(b'\xaa' * 20, b'\xdd' * 50)
code(bytes(range(1, 26)), b'\xcd' * 50)
code(b'\x0c' * 20, b'Test With Truncation', 32)
code(b'\xaa' * 131, b'Test Using Larger Than Block-Size Key - Hash Key First')
code(b'\xaa' * 131, b'This is a test using a larger than block-size key and a larger than block-size data. '
     b'The key needs to be hashed before being used by the HMAC algorithm.')

# Every length around the boundaries of one and two blocks.
for length in range(131):
    digest(counting(length))
for length in range(131):
    code(counting(length), counting(130 - length))

# The code over 0 to 13 words under a prepared key of 32 bytes, and the number that refuses 14.
for count in range(14):
    code(counting(32), b''.join(struct.pack('>I', 0x01020304 * (i + 1) % 2**32) for i in range(count)))
print('03')
