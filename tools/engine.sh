# Sourced by the scripts: where the repository is, and the engine's library and printing program. They are proved and built first,
# unless TECUHUALMA_LIBRARY and TECUHUALMA_PRINT name others, by paths from where the script is started.

root=$(cd "$(dirname "${BASH_SOURCE[0]}")/.." && pwd)

# named VARIABLE: the absolute path of the file that the variable names.
named() {
    local path=${!1}
    if [ ! -f "$path" ]; then
        echo "$1 names $path, where there is no file" >&2
        return 2
    fi
    realpath "$path"
}

engine_library() {
    if [ -n "${TECUHUALMA_LIBRARY:-}" ]; then named TECUHUALMA_LIBRARY; return; fi
    (cd "$root/crates/host_c" && rt lib) >&2 || return
    echo "$root/crates/host_c/out/libhost_c.a"
}

printing_program() {
    if [ -n "${TECUHUALMA_PRINT:-}" ]; then named TECUHUALMA_PRINT; return; fi
    (cd "$root/crates/print_verdicts" && rt run < /dev/null) >&2 || return
    echo "$root/crates/print_verdicts/out/print_verdicts"
}
