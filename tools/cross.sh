# Sourced, after building.sh, by the tools that link the panel's library: what they need of the distribution is installed where it is missing.
needs() { # COMMAND PACKAGE
    if ! command -v "$1" >/dev/null; then
        echo "$tool: installing $2" >&2
        if ! apt-get update -qq >&2 || ! apt-get install -y -qq "$2" >/dev/null; then
            echo "$tool: install $2, then try again" >&2
            exit 2
        fi
    fi
}
needs gcc gcc
