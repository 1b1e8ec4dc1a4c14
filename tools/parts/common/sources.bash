# What a proof of the program rests on, for ./fsc, .ci/run and tools/release, which source this file. `top`
# is the checkout.

# The kit's line: the file beside its command, else what the command prints.
kit_line() {
    local home
    home="$(dirname -- "$(dirname -- "$(readlink -f -- "$(command -v rt)")")")"
    if [ -r "$home/KIT-ID" ]; then
        cat -- "$home/KIT-ID"
    else
        rt version 2>/dev/null
    fi
}

# The lines of crates.txt of the program's crate and of those that it depends on, without comments.
lines_below() {
    awk '
        { sub(/#.*/, ""); if (!split($0, part, ":")) next }
        part[1] != "" { split(part[1], head, " "); uses[head[1]] = part[2]; line[head[1]] = $0 }
        END {
            wanted[1] = "fscrypt_cli"; found["fscrypt_cli"] = 1; last = 1
            for (i = 1; i <= last; i++) {
                print line[wanted[i]]
                count = split(uses[wanted[i]], dep, " ")
                for (j = 1; j <= count; j++)
                    if (dep[j] in uses && !(dep[j] in found)) { found[dep[j]] = 1; wanted[++last] = dep[j] }
            }
        }' "$top/crates.txt"
}

# The names of these crates, a name a line.
crates_below() {
    lines_below | sed 's/[ :].*//'
}

# The sums of their sources in these folders, a file a line.
source_sums() { # folders
    (
        cd -- "$top" || exit
        crates_below | while read -r name; do
            find "${@/#/crates/$name/}" -type f 2>/dev/null
        done | LC_ALL=C sort | xargs -d '\n' sha256sum --
    )
}

# What a build rests on: the kit, and the sum of the lines and sources below in these folders.
sources_now() { # folders
    kit_line
    { lines_below; source_sums "$@"; } | sha256sum
}

# What a proof of the program rests on.
proof_sources() {
    sources_now src specs proofs
}
