"""Ordinary programs of Debian's source packages, which docs/FILES.md lists, built from their sources as they are: here, and for a guest."""
from dataclasses import dataclass

from shared.comparing import Failure
from shared.with_files import CC, IMAGE, Program, call, leave_here, write_files

SCRIPT = b"""-- Squares into a file, their sums into another one, and a file that is written in place.
local out = assert(io.open("squares.txt", "w"))
for number = 1, 3000 do out:write(number, " ", number * number, "\\n") end
out:close()
local sums, total = assert(io.open("sums.part", "w")), 0
for line in io.lines("squares.txt") do
  total = (total + tonumber(line:match(" (%d+)$"))) % 1000003
  if total % 7 == 0 then sums:write(string.format("%d %.6f\\n", total, math.sqrt(total))) end
end
sums:close()
assert(os.rename("sums.part", "sums.txt"))
local update = assert(io.open("squares.txt", "r+"))
update:seek("set", 100)
update:write("in place")
update:seek("end")
update:write("behind\\n")
update:close()
local log = assert(io.open("log.txt", "a"))
for _, name in ipairs(arg) do log:write(name, "\\n") end
log:close()
print("total", total, io.open("none", "r"))
assert(os.remove("log.txt"))
io.stderr:write("done\\n")
os.exit(5)
"""
STATEMENTS = b"""create table t(a integer primary key, b text, c real);
with recursive n(i) as (select 1 union all select i+1 from n where i<2000) insert into t select i, 'row '||i, i*1.5 from n;
create index ti on t(b);
begin; update t set c=c+1 where a%3=0; commit;
begin; delete from t where a%5=0; rollback;
select count(*), sum(a), round(sum(c),3) from t;
delete from t where a between 10 and 1500;
vacuum;
.output report.txt
select b, c from t order by b desc limit 30;
.output
pragma integrity_check;
"""
LUA_WORDS = b"#include <stdlib.h>\n#define system(command) (-1)\n"  # a guest has one process


@dataclass
class Tried:
    """An ordinary program: where its sources are, which are compiled by which words, its arguments, and what it is given."""

    name: str
    folder: str
    sources: dict  # the words of each pattern of names
    arguments: tuple
    files: dict  # bytes, or the name of a file of its package
    pages: int = 512
    without: tuple = ()
    words: tuple = ()
    appends: bool = True  # whether it writes each file from its begin to its end, under one name


BZIP2 = ["bzip2.c", "blocksort.c", "huffman.c", "crctable.c", "randtable.c", "compress.c", "decompress.c", "bzlib.c"]
SQLITE = ("-DSQLITE_THREADSAFE=0", "-DSQLITE_OMIT_LOAD_EXTENSION", "-DSQLITE_OMIT_WAL", "-DSQLITE_OMIT_SHARED_CACHE", "-DSQLITE_MAX_MMAP_SIZE=0",
          "-DSQLITE_NOHAVE_SYSTEM", "-DSQLITE_OMIT_POPEN")
TRIED = [
    Tried("bzip2", "bzip2-*", dict.fromkeys(BZIP2, ()), ("-1", "-k", "sample1.ref", "sample2.ref"),
          {"sample1.ref": "sample1.ref", "sample2.ref": "sample2.ref"}, words=("-DSIGBUS=SIGSEGV", "-DSIGHUP=SIGTERM")),
    Tried("bunzip2", "bzip2-*", dict.fromkeys(BZIP2, ()), ("-d", "-k", "sample1.bz2", "sample2.bz2"),
          {"sample1.bz2": "sample1.bz2", "sample2.bz2": "sample2.bz2"}, words=("-DSIGBUS=SIGSEGV", "-DSIGHUP=SIGTERM")),
    Tried("minigzip", "zlib-*", {"*.c": (), "test/minigzip.c": ("-I.",)}, ("-9", "sample1.ref", "sample2.ref"),
          {"sample1.ref": "../bzip2-*/sample1.ref", "sample2.ref": "../bzip2-*/sample2.ref"}, words=("-DHAVE_UNISTD_H",)),
    Tried("lua", "lua5.4-*/src", {"*.c": ()}, ("script.lua", "one", "two"), {"script.lua": SCRIPT}, without=("luac.c",),
          words=("-DLUA_USE_C89", "-I{room}", "-include", "{room}/words.h"), appends=False),
    Tried("sqlite3", "sqlite3-*/made", {"sqlite3.c": ("-Os",), "shell.c": ("-Os", "-D__RTP__", "-D__minux")},
          ("-batch", "test.db", ".read statements.sql"), {"statements.sql": STATEMENTS}, pages=1_024, words=SQLITE, appends=False),
]


def package(folder, pattern):
    found = sorted(folder.glob(pattern))
    if not found:
        raise Failure(f"{folder} has no {pattern}: apt-get source bzip2 lua5.4 zlib sqlite3")
    return found[0]


def prepare_sqlite(folder):
    """Its sources are joined into one file by its own makefile, which needs tclsh."""
    top = package(folder, "sqlite3-*/configure").parent
    (top / "made").mkdir(exist_ok=True)
    if not (top / "made/shell.c").exists():
        call("../configure", cwd=top / "made")
        call("make", "sqlite3.c", "shell.c", cwd=top / "made")


def compile_tried(tried, top, room, compiler, name):
    """Compiles and links a program without warnings, from the sources as they are."""
    objects, words = [], [word.format(room=room) for word in tried.words]
    for pattern, more in tried.sources.items():
        for source in sorted(top.glob(pattern)):
            if source.name not in tried.without and not any(source.name == it.name for it in objects):
                objects.append(room / name / f"{source.name}.o")
                objects[-1].parent.mkdir(exist_ok=True)
                call(*compiler, "-w", "-O2", *words, *more, "-c", source, "-o", objects[-1], cwd=top)
    call(*compiler, *objects, "-lm", "-o", room / f"{name}.elf", cwd=top)
    return room / f"{name}.elf"


def given_of(tried, top):
    return {name: data if isinstance(data, bytes) else package(top, data).read_bytes() for name, data in tried.files.items()}


def chosen_of(names):
    """The programs with these names; all, if none is named."""
    return [it for it in TRIED if not names or it.name in names]


def sources_of(tried, folder):
    """Where the sources of a program are, in a folder with unpacked packages. Those of SQLite are made first."""
    if tried.name == "sqlite3":
        prepare_sqlite(folder)
    return package(folder, tried.folder).resolve()


def run_tried_here(tried, top, room):
    """The files that a program leaves here, what it prints, and its status. Its headers lie in the room then."""
    (room / "words.h").write_bytes(LUA_WORDS)
    (room / "lua5.4-deb-multiarch.h").write_text('#define DEB_HOST_MULTIARCH "guest"\n')  # which Debian's own build makes
    binary = compile_tried(tried, top, room, ["cc", "-D_GNU_SOURCE"], "binary")
    return leave_here(Program(tried.name, [], files=given_of(tried, top), arguments=tried.arguments), binary, room)


def link_tried(tried, top, room):
    """Builds a program for the guest, in a room with its headers. The path of what is linked."""
    return compile_tried(tried, top, room, [CC, "-files"], "guest")


def image_of(tried, linked, image, files):
    """Makes an image of what was linked, with files that the program is given. Its path."""
    given = image.with_suffix(".given")
    given.mkdir()
    write_files(files, given)
    words = [word for name in files for word in ("--file", f"{name}={given / name}")]
    call(IMAGE, linked, "-o", image, *words, "--", *tried.arguments)
    return image
