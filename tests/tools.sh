# Sourced from the repository's root: cargo, rustc and a C compiler, from the system's packages where they are missing.

# Whether the system has a package of this name.
packaged() {
    [ -n "$(apt-cache madison "$1" 2>/dev/null)" ]
}

# Installs packages; those that end in -web are the newer cargo and rustc of a Debian release whose own are too old.
install_missing() {
    local packages=
    apt-get update -qq || return 1
    if ! command -v cargo >/dev/null || ! command -v rustc >/dev/null; then
        if packaged cargo-web && packaged rustc-web; then packages="cargo-web rustc-web"; else packages="cargo rustc"; fi
    fi
    command -v cc >/dev/null || packages="$packages gcc libc6-dev"
    # shellcheck disable=SC2086
    apt-get install -y -qq $packages >/dev/null
}

for tool in cargo rustc cc; do
    command -v "$tool" >/dev/null || { install_missing && command -v "$tool" >/dev/null; } || {
        echo "$tool is not on this machine, and could not be installed"
        return 1
    }
done
