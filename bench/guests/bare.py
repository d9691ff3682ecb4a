"""What the computations in Python have in common: a double is put by its bits, as bare.h does."""
import struct


def put_double(number):
    print(struct.pack(">d", number).hex())
