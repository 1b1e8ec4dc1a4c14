# What a user gets of the product, for tools/release and tools/install, which source this file. `top` is the
# checkout.
. "$top/tools/parts/common/sources.bash" || exit 1

# The scripts that are given along, with their parts.
TOOLS="tools/transcript tools/picture tools/parts/__init__.py tools/parts/common/log_reader.py
tools/parts/common/command_calls.py tools/parts/install/fsc.bash
tools/parts/transcript/*.py tools/parts/picture/*.py
tools/parts/linux/bookkeeping.py tools/parts/linux/comparison.py tools/parts/linux/kinds.py
tools/parts/linux/known.py tools/parts/linux/refusals.py tools/parts/linux/scripts.py"

# Copies the proved program, its documents, examples and scripts into a folder, with the kit's line, the sums
# of the sources that the program was proved from, and those of all that is in the folder.
stage() { # folder
    local file
    "$top/fsc" --version >/dev/null || return
    install -D -m 755 -- "$top/crates/fscrypt_cli/out/fscrypt_cli" "$1/fsc" || return
    (
        cd -- "$top" || exit
        # shellcheck disable=SC2086
        for file in README.md NEWS.md LICENSE $(find docs examples -type f) $TOOLS; do
            install -D -m "$([ -x "$file" ] && echo 755 || echo 644)" -- "$file" "$1/$file" || exit
        done
    ) || return
    kit_line >"$1/KIT" || return
    source_sums src specs proofs >"$1/SOURCES.sha256" || return
    (
        cd -- "$1" && find . -type f ! -name SHA256SUMS | LC_ALL=C sort | xargs -d '\n' sha256sum --
    ) >"$1/SHA256SUMS"
}
