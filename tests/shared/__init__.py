"""What the tests and the benches have in common.

- `programs`: finds the program, reads a test's words, and runs commands;
- `crates`: what crates.txt says of crates and their groups;
- `disks`: where things lie on a disk, and how one is made of an image;
- `lives`: drives and services, and when they are killed;
- `drives`: a guest that is killed and driven on until it has ended;
- `reading`: reads disks by the format alone;
- `comparing`: compares outputs and disks, and tells what differs;
- `instructions`: words of instructions, and guests with labels;
- `guests`: guests that several tests run, and what they put;
- `kit_checks`: the guest kit, apart from what its programs print;
- `kit_frames`: the ways from an address of a guest to its callers.

The comparing model (`tests/model`) takes nothing of it: it has the rules, the layout and the instructions by itself.
"""
