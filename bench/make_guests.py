"""Writes the guests that measure calls: locks-4.bin, plain-4.bin (the same without its calls) and locks-crowded.bin;
those that measure stores: scattered-stores.bin and own-page-stores.bin; and stores-4.bin, which measures checkpoints of
changed pages.

Each of four threads makes ROUNDS rounds of: lock, eight additions, unlock. In plain-4 an addition stands in the place
of each ECALL. In locks-crowded 200 other mutexes are owned and 60 threads wait for one of them. In stores-4 one thread
goes round for ever: each round of STORES_ROUND steps stores the address of each of four pages into its first word.
In scattered-stores each of STORES rounds stores a word at a place of 3 MiB that a generator draws; in own-page-stores it
stores one into the page of the code, behind its words. Both put one byte of the generator's state at the end.
"""
from common import guest
from shared.guests import count_down, draw
from shared.instructions import CREATE, LOCK, THREAD_EXIT, UNLOCK, Program

ROUNDS = 400_000
STORES = 8_000_000
STORES_ROUND = 9


def create(program, count, name):
    """The running thread creates `count` threads that begin at a label."""
    program.addi(8, 0, count)
    program.label("create " + name)
    program.address(10, name)
    for register in (11, 12, 13):
        program.addi(register, 0, 0)
    program.call(CREATE)
    count_down(program, 8, "create " + name)


def worker(program, with_calls):
    """Rounds of lock, additions and unlock; then the thread ends."""
    program.label("worker")
    program.constant(6, ROUNDS)
    program.label("round")
    for number in (LOCK, UNLOCK):
        program.lui(10, 5)
        if with_calls:
            program.call(number)
        else:
            program.addi(17, 0, number)
            program.addi(7, 7, 1)
        for _ in range(4):
            program.addi(7, 7, 1)
    count_down(program, 6, "round")
    program.returns()


def four(with_calls):
    program = Program()
    create(program, 3, "worker")
    worker_start(program)
    worker(program, with_calls)
    return program.image()


def worker_start(program):
    """The initial thread detaches itself from the end of the program: it works, and then ends as a thread."""
    program.address(1, "last")
    program.jump("worker")
    program.label("last")
    program.addi(10, 0, 0)
    program.call(THREAD_EXIT)


def crowded():
    program = Program()
    # 200 mutexes at 0x8000, 0x8004, .., owned by the initial thread
    program.lui(9, 8)
    program.addi(8, 0, 200)
    program.label("own")
    program.addi(10, 9, 0)
    program.call(LOCK)
    program.addi(9, 9, 4)
    count_down(program, 8, "own")
    create(program, 60, "waiter")
    create(program, 3, "worker")
    worker_start(program)
    program.label("waiter")
    program.lui(10, 8)
    program.call(LOCK)
    program.returns()
    worker(program, True)
    return program.image()


def stores():
    program = Program()
    program.label("round")
    for page in range(2, 6):
        program.lui(5, page)
        program.store_word(5, 5)
    program.jump("round")
    assert len(program.words) == STORES_ROUND
    return program.image()


def drawn_stores(base, masks):
    """Rounds that store at `base` plus the sum of the drawn number under each mask; x7 is the address."""
    program = Program()
    program.constant(5, 0x2545F491)
    program.constant(8, STORES)
    program.constant(9, base)
    for number, mask in enumerate(masks):
        program.constant(18 + number, mask)
    program.label("round")
    draw(program)
    program.add(7, 9, 0)
    for number in range(len(masks)):
        program.srli(6, 5, 5 * number)
        program.both(6, 6, 18 + number)
        program.add(7, 7, 6)
    program.store_word(5, 7)
    count_down(program, 8, "round")
    program.put(5)
    program.exit()
    return program.image()


def scattered_stores():
    return drawn_stores(0x10000, (0x1FFFFC, 0xFFFFC))


def own_page_stores():
    image = drawn_stores(0x1400, (0x3FC,))
    assert len(image) < 0x400
    return image


def main():
    images = {"locks-4": four(True), "plain-4": four(False), "locks-crowded": crowded(), "stores-4": stores(),
              "scattered-stores": scattered_stores(), "own-page-stores": own_page_stores()}
    for name, image in images.items():
        guest(name).write_bytes(image)


if __name__ == "__main__":
    main()
