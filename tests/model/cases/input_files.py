"""What a drive may be told to read: a plain file in several ways, and what is none."""
import os
import socket
from contextlib import contextmanager

PIPE_ROOM = 65_536  # bytes that a pipe takes before anybody reads


def put(path, data):
    path.unlink(missing_ok=True)
    path.write_bytes(data)
    return path


@contextmanager
def plain(folder, data):
    yield str(put(folder / "plain", data)), None


@contextmanager
def relative(folder, data):
    yield put(folder / "a name", data).name, None


@contextmanager
def linked(folder, data):
    put(folder / "plain", data)
    with removed(folder / "link") as link:
        link.symlink_to("plain")
        yield str(link), None


@contextmanager
def read_only(folder, data):
    put(folder / "plain", data).chmod(0o444)
    yield str(folder / "plain"), None


@contextmanager
def standard_input(folder, data):
    with open(put(folder / "plain", data), "rb") as file:
        yield "/dev/stdin", file


@contextmanager
def missing(folder, data):
    yield str(folder / "missing"), None


@contextmanager
def below_missing(folder, data):
    yield str(folder / "missing" / "plain"), None


@contextmanager
def below_a_file(folder, data):
    yield str(put(folder / "plain", data) / "plain"), None


@contextmanager
def nameless(folder, data):
    yield "", None


@contextmanager
def too_long(folder, data):
    yield "n" * 300, None


@contextmanager
def a_folder(folder, data):
    yield str(folder), None


@contextmanager
def a_folder_by_slash(folder, data):
    yield f"{put(folder / 'plain', data)}/", None


@contextmanager
def link_to_nothing(folder, data):
    with removed(folder / "link") as link:
        link.symlink_to("missing")
        yield str(link), None


@contextmanager
def link_to_itself(folder, data):
    with removed(folder / "link") as link:
        link.symlink_to("link")
        yield str(link), None


@contextmanager
def named_pipe(folder, data):
    with removed(folder / "fifo") as path:
        os.mkfifo(path)
        yield str(path), None


@contextmanager
def pipe(folder, data):
    taker, giver = os.pipe()
    try:
        os.write(giver, data[:PIPE_ROOM])
        os.close(giver)
        yield "/dev/stdin", taker
    finally:
        os.close(taker)


@contextmanager
def a_socket(folder, data):
    with removed(folder / "s") as path, socket.socket(socket.AF_UNIX) as listener:
        listener.bind(os.path.relpath(path))
        yield str(path), None


@contextmanager
def terminal(folder, data):
    ends = os.openpty()
    try:
        yield os.ttyname(ends[1]), None
    finally:
        for end in ends:
            os.close(end)


@contextmanager
def empty_device(folder, data):
    yield "/dev/null", None


@contextmanager
def endless_device(folder, data):
    yield "/dev/zero", None


@contextmanager
def removed(path):
    """A name that is free, and is free again behind this."""
    path.unlink(missing_ok=True)
    try:
        yield path
    finally:
        path.unlink(missing_ok=True)


PLAIN = {way.__name__: way for way in (plain, relative, linked, read_only, standard_input)}
NOT_PLAIN = {way.__name__: way for way in (
    missing, below_missing, below_a_file, nameless, too_long, a_folder, a_folder_by_slash, link_to_nothing, link_to_itself,
    named_pipe, pipe, a_socket, terminal, empty_device, endless_device)}
WAYS = {**PLAIN, **NOT_PLAIN}
