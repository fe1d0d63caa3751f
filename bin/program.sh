# What a program is built from, and where it is kept. To be read by other scripts, with the repository's folder in `top`; `use_program NAME`
# then says which program is meant.
#
# bin/out/NAME.stamp has the name, the size and the time of the last change of each source and of the program, as they
# were: where they are so still, the program is current. Sources are the code and the definitions that it is proved
# against. A proof is none: the program was proved by the proofs that it was built with, and is the same by others. bin/out/NAME.digests has a
# digest of all sources and the program's: where these are as they were, as in a copy of the checkout, it is stamped anew. bin/out/NAME.kit has
# the line by which the toolchain that built the program names itself.
out=$top/bin/out

# The programs by the names of their launchers, and the crate of each.
programs=(clr_office clr_desk)
declare -A crate_of=([clr_office]=clr_office_program [clr_desk]=clr_desk)

declare -A uses=()
while IFS= read -r line; do
    case $line in '#'*) ;; *:*) uses[${line%%:*}]=${line#*:} ;; esac
done <"$top/crates.txt"

add_crate() {
    local used
    added[$1]=yes
    for used in ${uses[$1]}; do
        if [ -n "${uses[$used]+known}" ] && [ -z "${added[$used]+yes}" ]; then add_crate "$used"; fi
    done
    crates+=("$1")
}

# The crate on which nearly all others stand, and the one at which their chains meet: once that is proved, what is left stands on it, and there is
# work for one to three checks at a time.
first_crate=clr_rows
meeting_crate=clr_engine

# How many checks run side by side, each with one processor: as many as there are processors, where there are 4 GB of free memory for each.
# Where there are not, it says nothing, and the toolchain reckons with the memory itself.
checks_at_once() {
    local free processors
    free=${CLR_OFFICE_FREE_MEMORY-$(sed -n 's/^MemAvailable: *\([0-9]*\) kB$/\1/p' /proc/meminfo 2>/dev/null || echo 0)}
    processors=$(nproc)
    if [ "$free" -ge $((4000000 * processors)) ]; then echo "$processors"; fi
}

# Sets `program` to a name, `crates` to the crates that it stands on, each behind those that it uses, and then its own, and `sources` to
# all its sources.
use_program() {
    local crate folder
    local -A added=()
    program=$1 crates=()
    if [ -n "${uses[${crate_of[$1]}]+known}" ]; then add_crate "${crate_of[$1]}"; fi
    sources=(crates.txt "bin/$program" bin/launch.sh bin/program.sh)
    for crate in "${crates[@]}"; do
        for folder in src specs; do
            if [ -d "$top/crates/$crate/$folder" ]; then sources+=("crates/$crate/$folder"); fi
        done
    done
}

# The name, the size and the time of the last change of each source, and of other files.
listing() { cd -P -- "$top" && exec find "${sources[@]}" "$@" -type f -printf '%p %s %C@\n' 2>/dev/null; }

digest_of_sources() {
    cd -P -- "$top" && find "${sources[@]}" -type f -print0 | LC_ALL=C sort -z | xargs -0 sha256sum | sha256sum
}

digest_of_program() { sha256sum 2>/dev/null <"$out/$program"; }

# How the toolchain that built the program that stands in bin/out names itself, if that is known.
kit_of_program() { cat "$out/$program.kit" 2>/dev/null; }

# The program as it is made in a folder with all its crates.
made_in() { echo "$1/crates/${crate_of[$program]}/out/${crate_of[$program]}"; }

# Stamps the program that stands in bin/out as built from sources of this listing.
write_stamp() {
    (echo "$1" && listing "bin/out/$program" | tail -n 1) >"$out/$program.$$.new" && mv -f "$out/$program.$$.new" "$out/$program.stamp"
}

# Whether the program that stands in bin/out is whole and was built from the sources as they are.
is_current() {
    local before
    [ -f "$out/$program.stamp" ] && [ -f "$out/$program.digests" ] || return 1
    if [ "$(listing "bin/out/$program")" = "$(<"$out/$program.stamp")" ]; then return 0; fi
    before=$(listing)
    [ "$(digest_of_sources && digest_of_program)" = "$(<"$out/$program.digests")" ] || return 1
    # (a checkout that can't be written has its digests compared at each start)
    write_stamp "$before" 2>/dev/null
    return 0
}

# Writes into a program from what it was built: the digest of its sources, and the line of its toolchain. `--version` prints both. The program keeps a place
# of two lines for it, so no other byte changes. One that keeps none stays as it is.
write_build() {
    local places
    places=$(LC_ALL=C grep -abo -- 'sources not recorded' "$1" | cut -d : -f 1)
    [ -n "$places" ] || return 0
    [[ $places =~ ^[0-9]+$ ]] || return 1
    printf '%-72s\n%-60.60s' "sources $2" "toolchain $3" | dd of="$1" bs=1 seek="$places" conv=notrunc 2>/dev/null
}

# Puts a program into bin/out that was built from sources of this digest and this listing.
write_program() {
    local made=$1 digest=$2 before=$3
    rm -f "$out/$program.stamp" "$out/$program.digests" "$out/$program.kit"
    (rt version >"$out/$program.kit") 2>/dev/null
    cp "$made" "$out/$program.new" && write_build "$out/$program.new" "${digest%% *}" "$(kit_of_program)" &&
        mv -f "$out/$program.new" "$out/$program" &&
        (echo "$digest" && digest_of_program) >"$out/$program.digests" && write_stamp "$before"
}
