# Read by the scripts beside it, with the names of the C programs that they need: it compiles these, builds the program where
# that is due, and ends the script with status 1 where either can't be. It sets `here`, the folder of the scripts; `top`, that
# of the repository; `out`, that of the files which are made; and `program`.
here=$(dirname -- "$(readlink -f -- "${BASH_SOURCE[0]}")")
top=$(dirname -- "$here")
out=$here/out
program=$top/crates/am_cli/out/am_cli

compiler=${CC:-cc}
if ! command -v "$compiler" >/dev/null; then
    echo "bench: there is no C compiler '$compiler'; set CC to one"
    exit 1
fi
mkdir -p -- "$out" || exit 1
for tool in "$@"; do
    "$compiler" -O2 -pthread -o "$out/$tool" "$here/$tool.c" || exit 1
done

# With no words the script builds the program where that is due, and the program ends with status 2.
"$top/altmark" </dev/null 2>"$out/stderr"
got=$?
if [[ $got != 2 ]]; then
    cat -- "$out/stderr"
    echo "bench: the program can't be run: status $got for 2"
    exit 1
fi
