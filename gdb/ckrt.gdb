# Settings for guests, in a session or with a core. ckrt.py, which lies beside, makes them, and more. By itself this serves a gdb
# without Python:
#     gdb-multiarch -x gdb/ckrt.gdb PROGRAM.elf -ex 'target remote | ckrt debug DISK'
# Sources of the kit are named `guest/..`: `directory FOLDER`, with the folder in which guest/ lies, shows them.
set pagination off
set confirm off
# A guest is no GNU/Linux program: no libraries are looked for.
set osabi none
# A motion over a long run takes a while, and so does the first answer of a session with --at: in seconds.
set remotetimeout 600
# A step is one of the thread that is chosen, onward and back. gdb takes this setting once it has a target.
define target hookpost-remote
set scheduler-locking step
end
