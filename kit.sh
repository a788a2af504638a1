# For scripts to source, at the root of the repository: hold_kit NAME ends the script NAME with status 2 if the Rattle
# kit is missing, or is not the one that README.md names.
# shellcheck shell=sh
hold_kit() {
    if ! command -v rt >/dev/null 2>&1; then
        echo "$1: the Rattle kit's command 'rt' is not on the PATH; README.md, 'What you need', says which kit" >&2
        exit 2
    fi
    wanted=$(sed -n 's/^Kit: `\(.*\)`$/\1/p' README.md)
    found=$(rt version)
    if [ "$wanted" != "$found" ]; then
        echo "$1: README.md names the kit '$wanted', and this is '$found': proofs may differ; use the named kit, or check all with this one and change that line" >&2
        exit 2
    fi
}
