# What guest/cc, guest/build and guest/image share: where the kit is, the cross compiler's names, and refusals.
# To be sourced, with `me` set to the name that stands before each text.

kit=$(cd "$(dirname "$(readlink -f "${BASH_SOURCE[0]}")")" && pwd)
tool=riscv64-unknown-elf

refuse() {
    echo "$me: $1" >&2
    exit "${2:-1}"
}

need_compiler() {
    if ! command -v $tool-gcc >/dev/null || ! $tool-gcc --specs=picolibc.specs -E -x c /dev/null >/dev/null 2>&1; then
        echo "$me: the cross compiler or its C library is missing. On Debian and Ubuntu:" >&2
        echo "    apt-get install gcc-riscv64-unknown-elf picolibc-riscv64-unknown-elf" >&2
        exit 1
    fi
}

# A file can be made of this name, or the reason why not is told.
need_place_for() {
    local folder
    folder=$(dirname "$1")
    [[ -d $folder ]] || refuse "-o $1: there is no folder $folder; make it first"
    [[ ! -d $1 ]] || refuse "-o $1: that is a folder, name a file"
}

# The value of a symbol of an ELF file, as hexadecimal digits.
symbol_of() {
    $tool-nm "$1" | awk -v name="$2" '$NF == name { print $1 }'
}
