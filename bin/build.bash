# Sourced by the bash scripts that want the programs of a checkout, whose top is $root: proves them and builds them into
# target/bin. What stands there was proved, and has the time of the sources which were read.
built=$root/target/bin

# Whether the program is there and no source is newer. What rt keeps in each crate's own out is no source.
is_built() { # NAME
    [ -x "$built/$1" ] && [ -z "$(cd -- "$root" &&
        find crates crates.txt -regex 'crates/[^/]*/out' -prune -o -newer "$built/$1" -print -quit)" ]
}

# Proves the program and builds it, as far as rt finds that it must. rt then starts it too, in its crate's folder and on
# no input, which does nothing. A stamp of rt's ends in the sum of the program that was built of what was proved. Only
# one of these may be at work in a checkout.
prove() { # NAME
    local crate=$root/crates/$1 new=$built/.$1.new began said sum source
    # made before, so that the folders around them stay as old as they are
    for source in "$root"/crates/*/src; do mkdir -p -- "${source%src}out"; done
    mkdir -p -- "$built" || return
    began=$(date +%s.%N)
    said=$(unset RT_BACKEND && cd -- "$crate" && rt run 2>&1 >/dev/null </dev/null) || :
    [[ $said = *"rt: running out/$1;"* ]] || { printf '%s\n' "$said" | tail -n 5 >&2; return 1; }
    cp -- "$crate/out/$1" "$new" || return
    sum=$(sha256sum <"$new")
    if [[ $(cat -- "$crate/out/$1.stamp" 2>/dev/null) != *"${sum%% *}" ]]; then
        rm -f -- "$new"
        echo "a source was changed while $1 was built: start this again" >&2
        return 1
    fi
    touch -d "@$began" -- "$new" && mv -f -- "$new" "$built/$1"
}

# The same of each program, once nobody else is at work.
prove_all() { # NAME..
    local lock name
    exec {lock}<"$root/bin" && flock "$lock" || return
    for name in "$@"; do prove "$name" || return; done
    exec {lock}<&-
}
